"""The sample file of twelve boreholes as its rows: what the page has to draw is computed here, from the file
alone."""
import os
import sys

sys.dont_write_bytecode = True
import reference  # noqa: E402

here = os.path.dirname(os.path.abspath(__file__))


def data():
    with open(os.path.join(here, "..", "samples", "ground", "boreholes.ags"), "rb") as file:
        return file.read()


def groups_of(text):
    """Of each group its headings, units and rows; a row is a dictionary by heading."""
    groups, name = {}, ""
    for line in text.decode().split("\r\n"):
        kind, *entries = [field.decode() for field in reference.fields_of(line.encode())] if line else [""]
        if kind == "GROUP":
            name = entries[0]
            groups[name] = {"HEADING": [], "UNIT": [], "rows": []}
        elif kind in ("HEADING", "UNIT"):
            groups[name][kind] = entries
        elif kind == "DATA":
            groups[name]["rows"].append(dict(zip(groups[name]["HEADING"], entries)))
    return groups


def rows_of(text, group, borehole=None):
    """The rows of a group, or those of one borehole."""
    return [row for row in groups_of(text)[group]["rows"] if borehole in (None, row.get("LOCA_ID"))]


def with_entry(text, group, heading, change):
    """The file with other entries under a heading: `change` gives the entry of a row."""
    out, name, headings = [], "", []
    for line in text.split(b"\r\n"):
        fields = [bytes(field) for field in reference.fields_of(line)] if line else []
        if fields[:1] == [b"GROUP"]:
            name = fields[1].decode()
        elif fields[:1] == [b"HEADING"]:
            headings = [field.decode() for field in fields[1:]]
        elif fields[:1] == [b"DATA"] and name == group:
            row = dict(zip(headings, (field.decode() for field in fields[1:])))
            row[heading] = change(row)
            line = b",".join(b'"%s"' % row[each].replace('"', '""').encode() for each in headings)
            line = b'"DATA",' + line
        out.append(line)
    return b"\r\n".join(out)
