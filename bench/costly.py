#!/usr/bin/env python3
"""Measures what the check of a costly file takes, beside the check of a usual file of its length: files that a caller
may send, each made so that one part of the check has the most to do.

usage: bench/costly.py PROGRAM [BYTES..] [NAME..] [--patience SECONDS]
PROGRAM is groundreg or checker: without arguments it checks what it reads under the dictionary that is built in. For
each number of bytes (65,536 and 1,048,576) a table, the longest first: processor seconds of the check, the least of
three runs (one, where it takes a second), and the greatest resident memory in MB; of both how many times those of
files.deep of that length. A run that is out of memory, or that takes more than so many seconds of a processor (120), is
said so. NAME is one of the files, as `own_parent`; without one all are measured."""
import argparse
import os
import resource
import subprocess
import sys
import tempfile
here = os.path.dirname(os.path.abspath(__file__))
sys.path.insert(0, here)
sys.dont_write_bytecode = True
import files  # noqa: E402
import register  # noqa: E402
from files import FRONT, group, largest, name_of, of_width, own_dict, own_dictionary  # noqa: E402
from servers import limit_memory  # noqa: E402

RUNS, PATIENCE = 3, 120
SIZES = (1 << 16, 1 << 20)
KEYS = 12


# ---- rows that belong to many rows, or link to many


def own_parent(size):
    """A group of the file's own DICT that is its own parent and has no KEY heading: each row is a parent of each."""
    own = own_dict([["GROUP", "OWN", "", "", "OWN"], ["HEADING", "OWN", "OWN_A", "OTHER", ""]])
    return largest(size, lambda count: FRONT + own + group("OWN", ["OWN_A"], [""], ["X"], [[""]] * count))


def linked_to_all(size):
    """The same, and each row links to each."""
    own = own_dict([["GROUP", "OWN", "", "", "OWN"], ["HEADING", "OWN", "OWN_A", "OTHER", ""]])
    return largest(size, lambda count: FRONT + own + group("OWN", ["OWN_A"], [""], ["RL"], [["OWN"]] * count))


def whole_groups(size):
    """Rows each of which links to all rows of a hundred groups without KEY headings, of ten rows each."""
    names = [name_of(n) for n in range(100)]
    own = own_dict([["GROUP", "LINK", "", "", "-"], ["HEADING", "LINK", "LINK_TO", "OTHER", ""]]
                   + [entry for name in names
                      for entry in (["GROUP", name, "", "", "-"], ["HEADING", name, f"{name}_A", "OTHER", ""])])
    held = "".join(group(name, [f"{name}_A"], [""], ["X"], [[""]] * 10) for name in names)
    return largest(size, lambda count: FRONT + own + held
                   + group("LINK", ["LINK_TO"], [""], ["RL"], [["+".join(names)]] * count), 20)


def parts(size):
    """One record link that names each of as many rows as there is room for."""
    own = own_dict([["GROUP", "ITEM", "", "", "-"], ["HEADING", "ITEM", "ITEM_ID", "KEY", ""],
                    ["GROUP", "LINK", "", "", "-"], ["HEADING", "LINK", "LINK_TO", "OTHER", ""]])
    return largest(size, lambda count: FRONT + own
                   + group("ITEM", ["ITEM_ID"], [""], ["X"], ([str(n)] for n in range(count)))
                   + group("LINK", ["LINK_TO"], [""], ["RL"], [["+".join(f"ITEM|{n}" for n in range(count))]]))


# ---- groups whose rows have different KEY headings of their parent group


def of_subsets(size, rows, chosen_of, entries_of, parent_entries, own_key=False):
    """Groups of so many rows, as many as fill half of the file, each with other KEY headings of the group above it,
    which has as many rows as fill the rest. With a KEY heading of its own each has the number of its row under it."""
    keys = [f"PARE_{place:X}" for place in range(KEYS)]

    def text(count):
        own, held = [["GROUP", "PARE", "", "", "-"]] + [["HEADING", "PARE", key, "KEY", ""] for key in keys], ""
        for n in range(count):
            name, chosen = name_of(n), chosen_of(keys, n)
            headings = chosen + [f"{name}_ID"] * own_key
            own += [["GROUP", name, "", "", "PARE"]] + [["HEADING", name, key, "KEY", ""] for key in headings]
            held += group(name, headings, [""] * len(headings), ["X"] * len(headings),
                          (entries_of(len(chosen), row) + [str(row)] * own_key for row in range(rows)))
        return own_dict(own) + held

    half = largest(size // 2, text, 20).decode()
    return largest(size, lambda count: FRONT + half + group("PARE", keys, [""] * KEYS, ["X"] * KEYS,
                                                            (parent_entries(n) for n in range(count))))


def any_keys(keys, n):
    """The n-th set of keys."""
    return [key for bit, key in enumerate(keys) if (n % ((1 << KEYS) - 1) + 1) >> bit & 1]


def all_numbers(count, n):
    return [str(n)] * count


def parted(size, rows):
    return of_subsets(size, rows, any_keys, all_numbers, lambda n: all_numbers(KEYS, n))


def subsets_of_one(size):
    """Groups of one row."""
    return parted(size, 1)


def subsets_of_two(size):
    """Groups of two rows."""
    return parted(size, 2)


def subsets_of_ten(size):
    """Groups of ten rows."""
    return parted(size, 10)


def subsets_of_fifty(size):
    """Groups of fifty rows."""
    return parted(size, 50)


def subsets_alike(size):
    """Groups of two rows, where the rows of the group above differ under the last of their headings alone."""
    return of_subsets(size, 2, lambda keys, n: any_keys(keys[:-1], n % 2047) + keys[-1:],
                      lambda count, row: ["1"] * (count - 1) + [str(row)], lambda n: ["1"] * (KEYS - 1) + [str(n)])


def subsets_of_all(size):
    """Groups of two rows, to each of which all rows of the group above are parents."""
    return of_subsets(size, 2, any_keys, lambda count, row: ["1"] * count, lambda n: ["1"] * KEYS)


def subsets_without_findings(size):
    """As subsets_of_all, but each row has a key of its own: two rows a group, all rows of the group above are parents."""
    return of_subsets(size, 2, lambda keys, n: any_keys(keys[:-1], n % 2047), lambda count, row: ["1"] * count,
                      lambda n: ["1"] * (KEYS - 1) + [str(n)], own_key=True)


def children(size):
    """As many groups of one row as fill half of the file, all with the same KEY heading of a group of many rows."""
    names = [name_of(place) for place in range(size // 400)]
    own = own_dict([entry for name in names
                    for entry in (["GROUP", name, "", "", "LOCA"], ["HEADING", name, "LOCA_ID", "KEY", ""])])
    rest = "".join(group(name, ["LOCA_ID"], [""], ["ID"], [["BH0"]]) for name in names) + own
    return largest(size, lambda count: FRONT + files.holes(count) + rest)


# ---- many headings, entries of a DICT, groups


def wide(size):
    """A few rows under as many KEY headings of the file's own DICT as fill two thirds of it."""
    width = size // 100
    return largest(size, of_width(width, "KEY", "X", lambda n: [f"{n}"] + ["1"] * (width - 1)), 2)


def wide_links(size):
    """Rows under headings of type RL that fill a third of the file: in every tenth a link to the project."""
    width = size // 200
    return largest(size, of_width(width, "OTHER", "RL",
                                  lambda n: ["PROJ|P7" if place % 10 == n % 10 else "" for place in range(width)]), 10)


def only_groups(size):
    """GROUP rows alone, each with another name."""
    return largest(size, lambda count: FRONT + "".join(f'"GROUP","{name_of(n)}"\r\n\r\n' for n in range(count)))


# ---- many findings


def coded(code, cells, width=20):
    """Rows under so many headings of the file's own DICT, all of one type, with the same entry in each."""
    headings = [f"CODE_{place:02}" for place in range(width)]
    own = own_dictionary("CODE", "-", headings, "OTHER")
    return lambda count: FRONT + own + group("CODE", headings, [""] * width, [code] * width, [cells * width] * count)


def unfit(size):
    """Entries that are no numbers."""
    return largest(size, coded("2DP", ["x"]))


def unlisted(size):
    """Abbreviations that the file does not list."""
    return largest(size, coded("PA", ["x"]))


def unlisted_parts(size):
    """Abbreviations of as many parts as there is room for in each twentieth of the file."""
    return largest(size, lambda count: coded("PA", ["+".join(["x"] * count)])(1))


def one_key(size):
    """Rows with one key."""
    return largest(size, lambda count: FRONT + group("LOCA", ["LOCA_ID", "LOCA_STAT"], ["", ""], ["ID", "X"],
                                                     [["BH1", "FINAL"]] * count))


def long_keys(size):
    """Rows whose keys have 500 bytes, alike but for their ends."""
    return largest(size, lambda count: FRONT + group("LOCA", ["LOCA_ID", "LOCA_STAT"], ["", ""], ["ID", "X"],
                                                     ([f"{'B' * 494}{n:06}", "FINAL"] for n in range(count))), 50)


ALL = [own_parent, linked_to_all, whole_groups, parts, files.steps, subsets_of_one, subsets_of_two, subsets_of_ten,
       subsets_of_fifty, subsets_alike, subsets_of_all, children, wide, wide_links, files.narrow, files.dict_of_one,
       files.dict_of_many, files.dict_of_the_same, only_groups, unfit, unlisted, unlisted_parts, one_key, long_keys,
       files.broken, files.short, files.flat, files.ring]


def limit_to(seconds):
    """What limits a run to the launcher's memory and so many seconds of a processor."""
    def limit():
        limit_memory()
        resource.setrlimit(resource.RLIMIT_CPU, (seconds, seconds))
    return limit


def checked(program, path, patience=PATIENCE):
    """Processor seconds, MB, and what is to be said of it, of the shortest check of some."""
    best, most, said = float("inf"), 0.0, ""
    for _ in range(RUNS):
        with open(path, "rb") as data, tempfile.TemporaryFile() as errors, tempfile.NamedTemporaryFile() as note:
            run = subprocess.Popen([*register.noting(note), program], stdin=data, stdout=subprocess.DEVNULL,
                                   stderr=errors, preexec_fn=limit_to(patience))
            _, status, usage = os.wait4(run.pid, 0)
            run.returncode = os.waitstatus_to_exitcode(status)
            taken = usage.ru_utime + usage.ru_stime
            best, most = min(best, taken), max(most, register.megabytes(note))
            errors.seek(0)
            said = "not at its end" if taken >= patience else errors.read().decode().strip()
        if best > 1:
            break
    return best, most, said


def table(program, size, folder, made, patience):
    path = os.path.join(folder, "file.ags")

    def row(make):
        with open(path, "wb") as file:
            file.write(data := make(size))
        return len(data), *checked(program, path, patience)

    _, usual, memory, _ = row(files.deep)
    print(f"\n{size} bytes, of which a usual file takes {usual:.4f} s and {memory:.1f} MB:\n\n"
          "File | Bytes | check, s | times the usual | MB | times the usual |\n---|---|---|---|---|---|---", flush=True)
    rows = [(make.__name__, *row(make)) for make in made]
    for name, length, taken, most, said in sorted(rows, key=lambda row: -row[2]):
        print(f"{name} | {length} | {taken:.3f} | {taken / usual:.1f} | {most:.1f} | {most / memory:.1f} | {said}")


def main():
    parser = argparse.ArgumentParser(description=__doc__, formatter_class=argparse.RawDescriptionHelpFormatter)
    parser.add_argument("program")
    parser.add_argument("words", nargs="*")
    parser.add_argument("--patience", type=int, default=PATIENCE)
    given = parser.parse_args()
    sizes = [int(word) for word in given.words if word.isdigit()]
    names = [word for word in given.words if not word.isdigit()]
    if unknown := set(names) - {make.__name__ for make in ALL}:
        parser.error(f"no such file: {' '.join(unknown)}")
    made = [make for make in ALL if not names or make.__name__ in names]
    with tempfile.TemporaryDirectory() as folder:
        for size in sizes or SIZES:
            table(os.path.abspath(given.program), size, folder, made, given.patience)


if __name__ == "__main__":
    main()
