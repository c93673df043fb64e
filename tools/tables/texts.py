"""The groups of a file as CSV files, and the headings of all with units and types as one more.

    csv_of(tables)    # {"headings.csv": .., "LOCA.csv": ..}"""
import csv
import io



def text_of(rows):
    """Rows as CSV in UTF-8, each with CR LF."""
    out = io.StringIO(newline="")
    csv.writer(out).writerows(rows)
    return out.getvalue().encode("utf-8")


def csv_of(tables):
    """By name the CSV of each table: a row of headings, and its DATA rows. headings.csv has for each column its group,
    heading, unit and type."""
    listed = [("GROUP", "HEADING", "UNIT", "TYPE")]
    listed += [(table.name, *column) for table in tables for column in table.columns]
    files = {"headings.csv": text_of(listed)}
    for table in tables:
        files[f"{table.name}.csv"] = text_of([[column.name for column in table.columns], *table.rows])
    return files
