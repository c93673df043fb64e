"""Files for measurements, made of nothing but a size: each has at most that many bytes, and nearly as many."""


def row(*fields):
    return ",".join('"%s"' % field.replace('"', '""') for field in fields) + "\r\n"


def group(name, headings, units, types, rows):
    """A group as it is written, and the empty line after it."""
    header = row("GROUP", name) + row("HEADING", *headings) + row("UNIT", *units) + row("TYPE", *types)
    return header + "".join(row("DATA", *fields) for fields in rows) + "\r\n"


FRONT = (
    group("PROJ", ["PROJ_ID", "PROJ_NAME"], ["", ""], ["ID", "X"], [["P7", "North bank"]])
    + group("TRAN", ["TRAN_ISNO", "TRAN_DLIM", "TRAN_RCON"], [""] * 3, ["X"] * 3, [["1", "|", "+"]])
    + group("UNIT", ["UNIT_UNIT", "UNIT_DESC"], [""] * 2, ["X"] * 2, [["m", "metre"]])
    + group("TYPE", ["TYPE_TYPE", "TYPE_DESC"], [""] * 2, ["X"] * 2,
            [["ID", "Identifier"], ["X", "Text"], ["2DP", "Two decimals"], ["RL", "Record link"]])
)


def largest(size, text_of, sample=1000):
    """The longest text of text_of(1), text_of(2), .. that has at most `size` bytes. What each step adds is measured at
    `sample`."""
    each = (len(text_of(2 * sample)) - len(text_of(sample))) / sample
    low, high = 1, int(size / each) + 1
    while len(text_of(high)) <= size:
        low, high = high, high + high // 20 + 1
    low = max(low, high - high // 5 - 1)
    while len(text_of(low)) > size:
        if low == 0:
            raise ValueError(f"a text of {size} bytes has no room for what comes before")
        low //= 2
    while low + 1 < high:
        middle = (low + high) // 2
        low, high = (middle, high) if len(text_of(middle)) <= size else (low, middle)
    return text_of(low).encode()


def holes(count):
    return group("LOCA", ["LOCA_ID", "LOCA_STAT"], ["", ""], ["ID", "X"], ([f"BH{n}", "FINAL"] for n in range(count)))


def samples(count, link):
    return group("SAMP", ["LOCA_ID", "SAMP_TOP", "SAMP_REF", "SAMP_LINK"], ["", "m", "", ""], ["ID", "2DP", "X", "RL"],
                 ([f"BH{n}", "1.50", "S1", link(n)] for n in range(count)))


def contents(count):
    return group("LNMC", ["LOCA_ID", "SAMP_TOP", "SAMP_REF", "SPEC_DPTH", "LNMC_MC"], ["", "m", "", "m", ""],
                 ["ID", "2DP", "X", "2DP", "X"], ([f"BH{n}", "1.50", "S1", "1.55", "23"] for n in range(count)))


def flat(size):
    """One long group: every row has the same parent."""
    return largest(size, lambda count: FRONT + holes(count))


def deep(size):
    """Each hole has a sample and each sample a test: three groups below the project, no links."""
    return largest(size, lambda count: FRONT + holes(count) + samples(count, lambda n: "") + contents(count))


def ring(size):
    """The same, and each sample links to the next one, the last to the first."""
    def text(count):
        return FRONT + holes(count) + samples(count, lambda n: f"SAMP|BH{(n + 1) % count}|1.50|S1") + contents(count)
    return largest(size, text)


def broken(size):
    """Rows without their quotes, one finding each."""
    return largest(size, lambda count: FRONT + "DATA,BH1,FINAL\r\n" * count)


def short(size):
    """Lines of one byte and a line feed alone: two findings for each two bytes."""
    return b"x\n" * (size // 2)


def own_dict(rows):
    """A DICT of the file's own."""
    return group("DICT", ["DICT_TYPE", "DICT_GRP", "DICT_HDNG", "DICT_STAT", "DICT_PGRP"], [""] * 5, ["X"] * 5, rows)


def of_every_hole(count):
    """A group of the file's own DICT whose parent, LOCA, has none of its keys: every row of LOCA is a parent of every
    row of it."""
    own = own_dict([["GROUP", "ABCD", "", "", "LOCA"], ["HEADING", "ABCD", "ABCD_ID", "KEY", ""]])
    return group("ABCD", ["ABCD_ID"], [""], ["ID"], ([f"{n}"] for n in range(count))) + own


def steps(size):
    """As many rows of LOCA as of a group of which each is a parent."""
    return largest(size, lambda count: FRONT + holes(count) + of_every_hole(count))


def own_dictionary(name, parent, headings, status):
    """A DICT that gives a group, its parent, and its headings, all of one status."""
    return own_dict([["GROUP", name, "", "", parent]] + [["HEADING", name, heading, status, ""]
                                                         for heading in headings])


def of_width(width, status, code, entries):
    """A group of the file's own DICT with that many headings of one status and type; entries(n) are those of row n."""
    headings = [f"WIDE_{place:04X}" for place in range(width)]
    own = own_dictionary("WIDE", "", headings, status)
    return lambda count: FRONT + group("WIDE", headings, [""] * width, [code] * width,
                                       (entries(n) for n in range(count))) + own


def narrow(size):
    """Many rows under 20 headings of the file's own DICT, all KEY."""
    return largest(size, of_width(20, "KEY", "X", lambda n: [f"{n}"] + ["1"] * 19))


def wide(size):
    """A few rows under 20,000 headings of the file's own DICT, all KEY."""
    return largest(size, of_width(20000, "KEY", "X", lambda n: [f"{n}"] + ["1"] * 19999), 2)


def wide_links(size):
    """A few hundred rows under 5,000 headings of type RL: in every tenth a link to the project."""
    return largest(size,
                   of_width(5000, "OTHER", "RL",
                            lambda n: ["PROJ|P7" if place % 10 == n % 10 else "" for place in range(5000)]), 10)


def dict_of_one(size):
    """A DICT of the file's own with as many headings as there is room for, all of one group."""
    return largest(size, lambda count: FRONT + own_dict(["HEADING", "LOCA", f"LOCA_{n}", "OTHER", ""]
                                                        for n in range(count)))


def dict_of_many(size):
    """The same, of a thousand groups that the DICT does not name."""
    return largest(size, lambda count: FRONT + own_dict(["HEADING", f"G{n % 1000}", f"G{n % 1000}_{n}", "OTHER", ""]
                                                        for n in range(count)))


def dict_of_the_same(size):
    """The same, each of which restates one that the standard dictionary has."""
    return largest(size, lambda count: FRONT + own_dict(["HEADING", "LOCA", "LOCA_ID", "OTHER", ""]
                                                        for n in range(count)))


def name_of(place):
    """A group name of its own for each place."""
    letters = ""
    for _ in range(3):
        place, letter = divmod(place, 26)
        letters = chr(ord("A") + letter) + letters
    return "Q" + letters


def children(size):
    """A thousand groups of the file's own DICT, of one row each, under one group of many rows."""
    names = [name_of(place) for place in range(1000)]
    own = own_dict([entry for name in names
                    for entry in (["GROUP", name, "", "", "LOCA"], ["HEADING", name, "LOCA_ID", "KEY", ""])])
    rest = "".join(group(name, ["LOCA_ID"], [""], ["ID"], [["BH0"]]) for name in names) + own
    return largest(size, lambda count: FRONT + holes(count) + rest)


def subsets(size):
    """The same, but each of the thousand has other KEY headings of the group above it."""
    keys = [f"PARE_{place}" for place in range(10)]
    chosen = {name_of(place): [key for bit, key in enumerate(keys) if (place + 1) >> bit & 1] for place in range(1000)}
    entries = [["HEADING", "PARE", key, "KEY", ""] for key in keys]
    for name, headings in chosen.items():
        entries += [["GROUP", name, "", "", "PARE"]] + [["HEADING", name, key, "KEY", ""] for key in headings]
    rest = "".join(group(name, headings, [""] * len(headings), ["X"] * len(headings), [["0"] * len(headings)])
                   for name, headings in chosen.items())
    rest += own_dict([["GROUP", "PARE", "", "", ""]] + entries)
    return largest(size, lambda count: FRONT
                   + group("PARE", keys, [""] * 10, ["X"] * 10, ([str(n)] * 10 for n in range(count))) + rest)


ALL = [flat, deep, ring, broken, short, steps, narrow, wide, wide_links, dict_of_one, dict_of_many, dict_of_the_same,
       children, subsets]
