#!/usr/bin/env python3
"""Registers that other hands have changed: what the program answers when it opens them.

usage: bad_registers.py PROGRAM [COUNT [SEED [FIRST]]]     the last line is 'N passed, M failed'

The program makes registers, and registers of format 1 are made of those. Copies of them are changed by hand in each
way that the definition of a register names, and COUNT times at random: bytes of the file or of its log, a block, the
length, a row, a cell. What the tables then hold is read by Python's sqlite3 and held against the definition, spelled
out below (`held_by`), and the program has to answer:
- where a row or a cell was changed: `not a register` or `register version N` as the definition has it, `store failed`
instead of `not a register`, or the listing and the extracts that the second implementation (machine.py) gives for
the deposits that the tables hold;
- where the tables themselves, or bytes, were changed: one of these three faults, or those listings and extracts; where
sqlite3 cannot read the file, a fault, or the listing and the extracts from before the change.
Of a register of format 1 `migrate` has to answer so: one of these faults, or `migrated`, and then the register has the
listing and the extracts, with no deposit withdrawn. Before that its listing is refused. Where `migrate` said a fault,
each table and each row is as it was.
No start may end by a signal, 101, 134 or 139, or not within a minute. `bad_registers.py PROGRAM 1 SEED 17` does random
change 17 alone."""
import collections
import contextlib
import datetime
import random
import re
import shutil
import sqlite3
import subprocess
import sys
import tempfile
sys.dont_write_bytecode = True
import hostile  # noqa: E402
import machine  # noqa: E402
import reference  # noqa: E402
import servers  # noqa: E402
from machine import ags  # noqa: E402
from servers import asking  # noqa: E402

DICTIONARY_LIMIT = 67108864
LAST_NUMBER = 2932896
NOT_ONE, FAILED = "not a register", "store failed"
REQUESTS = [servers.head(b"/v1/projects/N1/deposits/%d" % n, [], token=token)
            for n in (1, 2, 3, 4) for token in (b"t-echo", b"t-delta")]
FORMAT_1 = {"meta": [("name", "text"), ("num", "integer"), ("body", "blob")],
           "deposits": [("number", "integer"), ("firm", "text"), ("project", "text"), ("embargo", "integer"),
                        ("body", "blob")],
           "lines": [("deposit", "integer"), ("seq", "integer"), ("grp", "text"), ("kind", "integer"),
                     ("line", "blob")],
           "steps": [("deposit", "integer"), ("child", "integer"), ("target", "integer")]}
COLUMNS = {**FORMAT_1, "withdrawals": [("deposit", "integer")]}
FORMATS = {1: FORMAT_1, 2: COLUMNS}
KINDS = [b"GROUP", b"HEADING", b"UNIT", b"TYPE", b"DATA"]
# The registers that are changed; those of format 1 are named for those that they are made of.
NAMES = ["empty", "one", "three", "marked", "old-empty", "old-one", "old-three"]
NUMBERS = [-1, 0, 1, 2, 3, 4, 5, 7, 99, 999999, 1000000, 2932896, 2932897, 2**31, 2**32 + 1, 2**63 - 1, -2**63]
TEXTS = ["", "N1", "N 1", "Delta", "Echo", "x" * 32, "x" * 33, "é", "a\x00b", "LOCA", "SAMP", "loca", "format",
         "dictionary"]


class Unreadable(Exception):
    """What sqlite3 cannot read as the tables of a register."""


# ---- what the definition says of the tables

def rows_of(connection, table, columns):
    """The rows of a table by their rowid; each value has its column's type."""
    kinds = ", ".join(f"typeof({name})" for name, _ in columns)
    names, width = ", ".join(name for name, _ in columns), len(columns)
    rows = connection.execute(f"SELECT {kinds}, {names} FROM {table} NOT INDEXED ORDER BY rowid").fetchall()
    return [row[width:] if all(kind == want.encode() for kind, (_, want) in zip(row, columns)) else None
            for row in rows]


class Lists:
    """Dictionaries, and the lines and the steps of bodies, each worked out once."""

    def __init__(self):
        self.found, self.read = {}, {}

    def words(self, text):
        """The dictionary that a text is, or None."""
        if text not in self.read:
            try:
                self.read[text] = ags.read_dictionary(text, DICTIONARY_LIMIT)[0]
            except ags.NoDictionary:
                self.read[text] = None
        return self.read[text]

    def of(self, words, data):
        key = (tuple(words.standard), data)
        if key not in self.found:
            has_findings = reference.findings(data, 5, words.standard)
            self.found[key] = None if has_findings else self.listed(ags.rows_of(data, words))
        return self.found[key]

    def listed(self, file):
        lines = [(g.name, KINDS.index(row.descriptor), ags.line_of([row.descriptor, *row.items]))
                 for g in file.groups
                 for row in sorted([g.heading, g.unit, g.type, *g.data, Start(g)], key=lambda row: row.line)]
        steps = sorted((child, target) for child, targets in enumerate(file.steps) for target in targets)
        return [(seq, *line) for seq, line in enumerate(lines)], steps


class Start:
    """The GROUP row of a group."""

    def __init__(self, group):
        self.line, self.descriptor, self.items = group.line, b"GROUP", [group.name]


def is_name(text):
    return re.fullmatch(rb"[A-Za-z0-9_-]{1,32}", text) is not None


def version_in(tables):
    """The number in the row `format` of meta, where such a row can be read."""
    return next((row[1] for row in tables["meta"] if row and row[0] == b"format"), None)


def held_by(tables, lists, number):
    """The fault of taking these rows as a register of that format, or the dictionary with the deposits."""
    if version_in(tables) not in (None, number):
        return f"register version {version_in(tables)}"
    meta = {row[0]: row[1:] for row in tables["meta"] if row}
    if any(None in rows for rows in tables.values()):
        return NOT_ONE
    if len(tables["meta"]) != 2 or set(meta) != {b"format", b"dictionary"}:
        return NOT_ONE
    if meta[b"format"] != (number, b"") or meta[b"dictionary"][0] != 0:
        return NOT_ONE
    text = meta[b"dictionary"][1]
    words = lists.words(text)
    if words is None:
        return NOT_ONE
    deposits = sorted(tables["deposits"])
    if [row[0] for row in deposits] != list(range(1, len(deposits) + 1)):
        return NOT_ONE
    if len({(row[1], row[2], row[4]) for row in deposits}) != len(deposits):
        return NOT_ONE
    for number, firm, project, embargo, body in deposits:
        if not is_name(firm) or not is_name(project) or not 0 <= embargo <= LAST_NUMBER or len(body) > machine.LIMIT:
            return NOT_ONE
        found = tuple(sorted(row[1:] for row in tables[name] if row[0] == number) for name in ("lines", "steps"))
        if lists.of(words, body) != found:
            return NOT_ONE
    known, withdrawn = {row[0] for row in deposits}, {row[0] for row in tables.get("withdrawals", [])}
    if not withdrawn <= known or any(row[0] not in known for row in tables["lines"] + tables["steps"]):
        return NOT_ONE
    sent = [(row[0], machine.unmarked(row[1].decode(), row[2].decode(), day_text(row[3]), row[4])) for row in deposits]
    return words, [{**deposit, "withdrawn": number in withdrawn} for number, deposit in sent]


def day_text(number):
    return str(datetime.date(1970, 1, 1) + datetime.timedelta(number))


@contextlib.contextmanager
def reading(path):
    """A connection to a file, which is opened, and so may be changed."""
    connection = None
    try:
        connection = sqlite3.connect(path)
        connection.text_factory = bytes
        yield connection
    except (sqlite3.Error, OverflowError, UnicodeDecodeError) as fault:
        # (the last of them where an error's own text is no UTF-8)
        raise Unreadable(str(fault)) from None
    finally:
        if connection:
            connection.close()


def schema_in(connection):
    return connection.execute("SELECT type, name, tbl_name, sql FROM sqlite_master ORDER BY rowid").fetchall()


def tables_in(path, schema, formats):
    """The rows of a format's tables in a file, and whether its tables are defined so."""
    with reading(path) as connection:
        is_same = schema_in(connection) == schema
        return {table: rows_of(connection, table, columns) for table, columns in formats.items()}, is_same


def all_in(path):
    """What a file holds as sqlite3 reads it, or nothing: its tables, and the rows of each."""
    try:
        with reading(path) as connection:
            schema = schema_in(connection)
            names = [name.decode() for kind, name, *_ in schema if kind == b"table"]
            rows = {name: connection.execute(f"SELECT * FROM {name} NOT INDEXED").fetchall() for name in names}
            return schema, {name: sorted(items, key=repr) for name, items in rows.items()}
    except Unreadable:
        return None


# ---- the program's answers

class Place(servers.Place):
    """A place with registers that the program made, and what it answers over a copy of one."""

    patience = 60

    def __init__(self, program, folder):
        super().__init__(program, folder, machine.WITHDRAWING)
        self.lists, self.counts = Lists(), collections.Counter()
        self.put("other", servers.FILES["mini"] + b" \r\n")
        self.made("empty", "mini", [])
        self.made("one", "other", [("t-delta", "a")])
        self.made("three", "mini", [("t-delta", "b"), ("t-foxtrot", "c"), ("t-delta", "a")])
        self.make_marked()
        for name in NAMES:
            if name.startswith("old-"):
                self.copy_as_format_1(name.removeprefix("old-"), name)
            self.copy(name, "whole-" + name)
            self.written("whole-" + name, ["VACUUM"])
        self.schemas = {1: self.schema_of("old-three"), 2: self.schema_of("three")}
        self.before = {name: self.asked(name) for name in NAMES if not name.startswith("old-")}
        for name in ("empty", "one", "three"):
            self.before["old-" + name] = self.before[name]

    def made(self, name, dictionary, deposits):
        self.make(name, dictionary)
        for number, (token, file) in enumerate(deposits, 1):
            self.right(*asking("deposit", file, store=name, token=token, embargo=servers.DAY),
                       want=f"receipt {number} {servers.DAY}\n".encode())

    def make_marked(self):
        """Makes a register whose first two deposits of three are withdrawn."""
        self.copy("three", "marked")
        for token, number in (("t-delta", 1), ("t-foxtrot", 2)):
            self.right(*asking("withdraw", str(number), store="marked", token=token), want=b"withdrawn %d\n" % number)

    def schema_of(self, name):
        self.copy(name, "read")
        with reading(self.path("read")) as connection:
            return schema_in(connection)

    def written(self, name, statements, loosely=False):
        """Writes into a register as another hand does; loosely, where a column may hold what its type forbids. Whether
        anything was changed."""
        connection = sqlite3.connect(self.path(name), isolation_level=None)
        connection.execute("PRAGMA foreign_keys = OFF")
        if loosely:
            connection.execute("PRAGMA writable_schema = ON")
            kept = connection.execute("SELECT name, sql FROM sqlite_master WHERE type = 'table'").fetchall()
            loose = "replace(replace(replace(sql, 'STRICT', ''), 'TEXT', 'ANY'), 'NOT NULL', '')"
            connection.execute(f"UPDATE sqlite_master SET sql = {loose} WHERE type = 'table'")
            connection.close()
            connection = sqlite3.connect(self.path(name), isolation_level=None)
        for statement, *values in [(item,) if isinstance(item, str) else item for item in statements]:
            connection.execute(statement, values)
        if loosely:
            connection.execute("PRAGMA writable_schema = ON")
            for table, text in kept:
                connection.execute("UPDATE sqlite_master SET sql = ? WHERE name = ?", (text, table))
        connection.close()

    def asked(self, name):
        """What the program answers of a register: the listing by command line, and where there is one the extracts over
        `serve`."""
        answers = [self.run(*asking("list", store=name))]
        return answers + self.served(name) if answers[0][2] == 0 else answers

    def served(self, name):
        """The replies to the requests for extracts, and how `serve` ended."""
        with self.serve(len(REQUESTS), store=name) as server:
            replies = [hostile.answered(random, server, data) for data in REQUESTS] if server.listening else []
            return [*replies, server.rest()]

    def wanted(self, held):
        """What the second implementation answers to the same."""
        register = machine.Register(held[0])
        register.deposits = held[1]
        self.computer.files["held"] = register
        rules, callers = machine.read_policy(machine.WITHDRAWING), machine.read_callers(machine.CALLERS)
        replies = [machine.serve(register, rules, callers, servers.DAY, data) for data in REQUESTS]
        printed = "".join(f"{status}\n" for status, _ in replies).encode()
        listed = self.computer.run(asking("list", store="held"), "")
        return [listed, *(reply for _, reply in replies), (printed, b"", 0)]

    def read(self, name, number):
        """What the definition has of a register of that format, whether its tables are defined so, and their rows."""
        self.copy(name, "read")
        try:
            tables, is_same = tables_in(self.path("read"), self.schemas[number], FORMATS[number])
            return held_by(tables, self.lists, number), is_same, tables
        except Unreadable:
            self.counts["sqlite3 reads nothing"] += 1
            return None, False, None

    def fault_in(self, answer):
        """The fault that an answer says, or None."""
        fault = re.fullmatch(rb"groundreg: (not a register|store failed|register version -?[0-9]+)\n", answer[1])
        return fault and fault[1].decode()

    def wrong_fault(self, answer, said, held, is_strict):
        """What is wrong with a fault, where the definition has that of a register."""
        self.counts[said if said in (NOT_ONE, FAILED) else "register version N"] += 1
        if (answer[0], answer[2]) != (b"", 5 if said == FAILED else 4):
            return f"status {answer[2]} with {said}"
        if not is_strict:
            self.counts["refused, though its tables read as a register"] += isinstance(held, tuple)
            return None
        if said == held or (said == FAILED and held == NOT_ONE):
            return None
        return f"said {said}, where the definition has {held if isinstance(held, str) else 'a register'}"

    def wrong(self, name, template, is_by_rows):
        """What is wrong with the answers of a changed register, or None."""
        if template.startswith("old-"):
            return self.wrong_of_format_1(name, template, is_by_rows)
        held, is_same, _ = self.read(name, 2)
        answers = self.asked(name)
        if is_crash(answers):
            return f"CRASH: {answers}"
        if said := self.fault_in(answers[0]):
            return self.wrong_fault(answers[0], said, held, is_by_rows and is_same)
        self.counts["opened"] += 1
        return self.wrong_answers(answers, held, template)

    def wrong_answers(self, answers, held, template):
        """What is wrong with the listing and the extracts, where the definition has that of a register."""
        if held is None:
            self.counts["opened, where sqlite3 reads nothing"] += 1
            return None if answers == self.before[template] else f"opened with {answers}, and sqlite3 reads nothing"
        if isinstance(held, str):
            return f"opened with {answers}, where the definition has {held}"
        want = self.wanted(held)
        return None if answers == want else f"answers {answers}\n  wanted {want}"

    def wrong_of_format_1(self, name, template, is_by_rows):
        """The same of a register of format 1, whose listing is refused before it is migrated."""
        held, is_same, tables = self.read(name, 1)
        before = all_in(self.path("read"))
        is_strict = is_by_rows and is_same
        listed, answer = self.asked(name), self.run("migrate", f"--store={name}")
        if is_crash([*listed, answer]):
            return f"CRASH: {listed}, {answer}"
        opened = self.fault_in(listed[0])
        if not opened:
            return f"listed before it was migrated: {listed}"
        version = version_in(tables) if is_strict else None
        # A database whose rows break their types or references cannot be opened, so that its format is not read.
        is_closed = opened == FAILED and held == NOT_ONE
        want = NOT_ONE if is_closed or version in (None, 2) else f"register version {version}"
        if wrong := self.wrong_fault(listed[0], opened, want, is_strict):
            return f"before its migration: {wrong}"
        if said := self.fault_in(answer):
            wrong = self.wrong_fault(answer, said, held, is_strict)
            return wrong or self.wrong_rows(name, before, "a refused migration")
        if answer != (b"migrated\n", b"", 0):
            return f"migrate: {answer}"
        self.counts["migrated"] += 1
        return self.wrong_migrated(name, template, held, before)

    def wrong_rows(self, name, before, what):
        """Whether anything is changed of what sqlite3 reads in a register."""
        self.copy(name, "read")
        after = all_in(self.path("read"))
        return None if before in (None, after) else f"{what} changed {before} into {after}"

    def wrong_migrated(self, name, template, held, before):
        """What is wrong with a register that was migrated."""
        again = self.run("migrate", f"--store={name}")
        if again != (b"", b"groundreg: register version 2\n", 4):
            return f"migrated again: {again}"
        if wrong := self.wrong_answers(self.asked(name), held, template):
            return f"migrated: {wrong}"
        if before is None:
            return None
        schema, rows = before
        added = [row for row in self.schemas[2] if row not in self.schemas[1]]
        meta = sorted([(row[0], 2, *row[2:]) if row[0] == b"format" else row for row in rows["meta"]], key=repr)
        self.copy(name, "read")
        after, want = all_in(self.path("read")), (sorted(schema + added), {**rows, "meta": meta, "withdrawals": []})
        return None if after and (sorted(after[0]), after[1]) == want else f"migrated into {after}, wanted {want}"


def is_crash(answers):
    return any(answer[2] < 0 or answer[2] in hostile.CRASHES for answer in answers if isinstance(answer, tuple))


# ---- changes by hand

def changes(place):
    """(what was changed, register, statements, whether columns may hold what their types forbid)"""
    yield from by_hand(place, COLUMNS)
    yield from of_withdrawals()
    for what, name, *rest in by_hand(place, FORMAT_1):
        yield f"format 1, {what}", "old-" + name, *rest
    yield "format 1 as it is", "old-three", [], False
    yield "format 1 with a table of withdrawals", "old-three", [WITHDRAWALS.format(PLAIN) + " STRICT"], False


PLAIN, WITHDRAWALS = "deposit INTEGER PRIMARY KEY REFERENCES deposits(number)", "CREATE TABLE withdrawals ({})"
# Other definitions of the table of withdrawals.
DEFINED = ["deposit INTEGER PRIMARY KEY", "deposit INTEGER PRIMARY KEY REFERENCES lines(deposit)",
           "deposit INTEGER REFERENCES deposits(number)", "deposit INT PRIMARY KEY REFERENCES deposits(number)",
           "deposit INTEGER PRIMARY KEY DESC REFERENCES deposits(number)", "deposit TEXT PRIMARY KEY",
           "number INTEGER PRIMARY KEY REFERENCES deposits(number)", PLAIN]
# Each record of the table of withdrawals has a text, a number with a point or nothing where it has no value of its own.
LOOSE_RECORDS = ["CREATE TEMP TABLE kept AS SELECT sql FROM sqlite_master WHERE name = 'withdrawals'",
                 "PRAGMA writable_schema = ON",
                 "UPDATE sqlite_master SET sql = 'CREATE TABLE withdrawals (deposit ANY)' WHERE name = 'withdrawals'",
                 "PRAGMA writable_schema = RESET", "DELETE FROM withdrawals", "INSERT INTO withdrawals VALUES ({})",
                 "PRAGMA writable_schema = ON",
                 "UPDATE sqlite_master SET sql = (SELECT sql FROM kept) WHERE name = 'withdrawals'"]


def of_withdrawals():
    """The same of the table of withdrawals alone, in a register whose first two deposits of three are withdrawn."""
    def of(what, *statements):
        return what, "marked", list(statements), False
    for value in (3, "NULL", *NUMBERS, "'x'", "1.5", "2.0", "'3'", "x'33'"):
        marking = f"INSERT OR REPLACE INTO withdrawals VALUES ({value})"
        yield of(f"a withdrawal of {value} more", marking)
        yield of(f"a withdrawal of {value} alone", "DELETE FROM withdrawals", marking)
    places = ("deposits WHERE number", "lines WHERE deposit", "steps WHERE deposit")
    last, two = ([f"DELETE FROM {place} >= {number}" for place in places] for number in (3, 2))
    yield of("the last deposit taken out whole", *last)
    yield of("the last two taken out whole, one of them withdrawn", *two)
    yield of("the same, with its withdrawal", *two, "DELETE FROM withdrawals WHERE deposit = 2")
    yield of("format 3 with four tables", "UPDATE meta SET num = 3 WHERE name = 'format'", "DROP TABLE withdrawals")
    yield of("format 1 with four tables, and its steps missing", *servers.TO_FORMAT_1, "DELETE FROM steps")
    for text in DEFINED:
        for end in (" STRICT", "", " STRICT, WITHOUT ROWID"):
            made = ["DROP TABLE withdrawals", WITHDRAWALS.format(text) + end]
            yield of(f"withdrawals ({text}){end}", *made)
            yield of(f"withdrawals ({text}){end}, with a row", *made, "INSERT INTO withdrawals VALUES (1)")


def setting_of(table, column, which):
    """The statement that sets a column of the first or the last row of a table."""
    return f"UPDATE OR REPLACE {table} SET {column} = ? WHERE rowid = (SELECT {which}(rowid) FROM {table})"


def by_hand(place, columns):
    """The same of the tables with these columns."""
    other = machine.spelled_dictionary(ags.built_in().standard[:-5])
    blobs = [b"", b"x", machine.FILE_A.replace(b"North bank", b"South bank"), machine.FILE_A + b" ",
             b"\xef\xbb\xbf" + machine.FILE_A, machine.FILE_A[:-1], other]
    values = {"integer": NUMBERS, "text": TEXTS, "blob": blobs}
    for table in columns:
        name = "marked" if table == "withdrawals" else "three"
        yield f"no table {table}", name, [f"DROP TABLE {table}"], False
        yield f"no rows in {table}", name, [f"DELETE FROM {table}"], False
        yield f"{table} under another name", name, [f"ALTER TABLE {table} RENAME TO more"], False
        yield f"{table} with one column more", name, [f"ALTER TABLE {table} ADD COLUMN more INTEGER"], False
        renamed = f"ALTER TABLE {table} RENAME COLUMN {columns[table][-1][0]} TO more"
        yield f"{table}'s last column under another name", name, [renamed], False
        listed = ", ".join(each for each, _ in columns[table])
        untyped = [f"CREATE TABLE more AS SELECT * FROM {table}", f"DROP TABLE {table}"]
        yield f"{table} without types", name, [*untyped, f"ALTER TABLE more RENAME TO {table}"], False
        yield f"an index on {table}", name, [f"CREATE INDEX more ON {table} ({listed})"], False
        yield f"a view on {table}", name, [f"CREATE VIEW more AS SELECT * FROM {table}"], False
        trigger = f"CREATE TRIGGER more AFTER INSERT ON {table} BEGIN DELETE FROM steps; END"
        yield f"a trigger on {table}", name, [trigger], False
        for column, kind in columns[table]:
            for value in values[kind]:
                for where in ("min", "max"):
                    setting = setting_of(table, column, where)
                    yield f"{where} {column} of {table} set to {value!r:.20}", name, [(setting, value)], False
            for value in (None, 1, 1.5, "x", b"x"):
                setting = setting_of(table, column, "max")
                yield f"{column} of {table} set to {value!r}, against its type", name, [(setting, value)], True
        more = ", ".join(f"{each} + 1" if each in ("number", "seq", "child") else each for each, _ in columns[table])
        adding = f"INSERT OR REPLACE INTO {table} SELECT {more} FROM {table} ORDER BY rowid DESC LIMIT 1"
        yield f"a row more in {table}, by numbers", name, [adding], False
    yield from of_rows(place, other)


def of_rows(place, other):
    """The same of whatever tables; `other` is a dictionary without the last group."""
    def three(what, *statements):
        return what, "three", list(statements), False

    def one(what, *statement):
        return what, "one", [statement], False
    setting, dictionary = "UPDATE meta SET num = {} WHERE name = 'format'", " WHERE name = 'dictionary'"
    yield three("another table", "CREATE TABLE more (a INTEGER)")
    for number in (0, 1, 2, 3, 7, -1, 2**63 - 1):
        numbered, dropped = setting.format(number), [f"DROP TABLE {name}" for name in ("steps", "lines", "deposits")]
        yield three(f"format {number}", numbered)
        yield three(f"format {number} without other tables", numbered, *dropped)
        yield three(f"format {number} and a table more", numbered, "CREATE TABLE more (a INTEGER)")
    for value in (None, "x", "2", b"2", 1.5, 2.0):
        yield f"format {value!r}, against its type", "three", [(setting.format("?"), value)], True
    for name in ("format", "dictionary"):
        of_name = f" WHERE name = '{name}'"
        yield three(f"meta without {name}", "DELETE FROM meta" + of_name)
        yield three(f"meta with a body of {name} changed", "UPDATE meta SET body = x'41'" + of_name)
        yield three(f"meta with the number of {name} changed", "UPDATE meta SET num = num + 1" + of_name)
    yield three("every number of meta raised by 6", "UPDATE meta SET num = num + 6")
    yield three("format 7, and bodies of no byte", setting.format(7), "UPDATE deposits SET body = x''")
    yield three("a step taken out", "DELETE FROM steps WHERE deposit = 1 AND child = 9")
    yield three("a third row of meta", "INSERT INTO meta VALUES ('more', 0, x'')")
    yield three("the dictionary spelled otherwise",
                "UPDATE meta SET body = CAST(body || x'0d0a' AS BLOB)" + dictionary)
    body = "UPDATE meta SET body = ?" + dictionary
    yield three("a dictionary without the last group", (body, other))
    yield one("a dictionary without the last group, and no LNMC", body, other)
    for length in (DICTIONARY_LIMIT, DICTIONARY_LIMIT + 1):
        yield one(f"a dictionary of {length} bytes", body, place.got("mini").ljust(length))
    for length in (machine.LIMIT, machine.LIMIT + 1):
        yield one(f"a body of {length} bytes", "UPDATE deposits SET body = ?", machine.FILE_A.ljust(length))
    yield from of_deposits(three)
    yield three("lines without a deposit",
                "INSERT INTO lines SELECT 9, seq, grp, kind, line FROM lines WHERE deposit = 3")
    yield three("steps without a deposit", "INSERT INTO steps SELECT 9, child, target FROM steps WHERE deposit = 3")
    spaced = "CAST(replace(CAST(line AS TEXT), '\",\"', '\" , \"') AS BLOB)"
    yield three("a line spelled with spaces", f"UPDATE lines SET line = {spaced} WHERE deposit = 1 AND seq = 4")
    yield three("two lines exchanged", "UPDATE lines SET seq = seq + 100 WHERE deposit = 1 AND seq IN (27, 28)",
                "UPDATE lines SET seq = 155 - seq WHERE seq > 100")
    for text in ("INSERT INTO steps VALUES (1, 0, 1)", "INSERT INTO steps VALUES (1, 9, 99)",
                 "INSERT INTO steps VALUES (1, 99, 9)", "INSERT INTO steps VALUES (1, -1, 0)",
                 "INSERT INTO steps VALUES (1, 9, 9)",
                 "UPDATE steps SET target = target + 1 WHERE deposit = 1 AND child = 9",
                 "INSERT INTO lines VALUES (1, 41, 'LNMC', 4, x'2244415441222c22223a')",
                 "INSERT INTO lines VALUES (1, -1, 'PROJ', 0, x'')"):
        yield three(text, text)


def of_deposits(three):
    """The same of whole deposits."""
    again = ["INSERT INTO deposits SELECT 4, firm, project, embargo + {}, body FROM deposits WHERE number = 3",
             "INSERT INTO lines SELECT 4, seq, grp, kind, line FROM lines WHERE deposit = 3",
             "INSERT INTO steps SELECT 4, child, target FROM steps WHERE deposit = 3"]
    gamma = "UPDATE deposits SET firm = 'Gamma' WHERE number = 4"
    yield three("two equal deposits", *(text.format(0) for text in again))
    yield three("two equal deposits with different embargoes", *(text.format(1) for text in again))
    yield three("one deposit more", *(text.format(0) for text in again), gamma)
    yield three("one deposit more without its lines", again[0].format(0), gamma)
    for name, number in (("last", 3), ("first", 1)):
        places = ("deposits WHERE number", "lines WHERE deposit", "steps WHERE deposit")
        yield three(f"the {name} deposit taken out whole", *(f"DELETE FROM {place} = {number}" for place in places))
    yield three("two deposits exchanged", "UPDATE deposits SET number = number + 10 WHERE number < 3",
                "UPDATE deposits SET number = 13 - number WHERE number > 10",
                *(f"UPDATE {table} SET deposit = {change} WHERE deposit {which}" for table in ("lines", "steps")
                  for change, which in (("deposit + 10", "< 3"), ("13 - deposit", "> 10"))))
    other_body = "(SELECT body FROM deposits d WHERE d.number = 4 - deposits.number)"
    yield three("the bodies of two exchanged", f"UPDATE deposits SET body = {other_body} WHERE number <> 2")


def files_by_hand(place):
    """(what was changed, register): files that were changed as files. Each is made under the name `bad`."""
    def put(file, log=None):
        place.copy("none", "bad")
        place.put("bad", file)
        if log is not None:
            place.put("bad-wal", log)
    for value in ("'x'", "1.5", "NULL", "7"):
        place.copy("marked", "bad")
        place.written("bad", [text.format(value) for text in LOOSE_RECORDS])
        yield f"marked, with a record of {value} for a withdrawal", "marked"
    for name in ("empty", "one", "three", "marked", "old-three"):
        file, log, whole = place.got(name), place.got(name + "-wal"), place.got("whole-" + name)
        for what, *parts in [("as it is", file, log),
                             ("without its log", file), ("without its file", b"", log),
                             ("with an empty log", file, b""), ("put together", whole),
                             ("put together, with an empty log", whole, b""),
                             ("put together, with its old log", whole, log),
                             ("with a log of zeros", file, bytes(len(log))),
                             ("with a log of text", file, b"no log\n" * 99),
                             ("with more after its file", file + b"x" * 4096, log),
                             ("with more after its log", file, log + log),
                             ("of text", b"no database\n" * 99), ("of zeros", bytes(8192)),
                             ("with its header alone", whole[:100]), ("with its first page alone", whole[:4096])]:
            put(*parts)
            yield f"{name}, {what}", name
        for what, at, value in [("its page size", 16, b"\x02\x00"),
                                ("a page size that is none", 16, b"\x03\x00"),
                                ("a rollback journal", 18, b"\x01\x01"), ("an unknown format", 18, b"\x07\x07"),
                                ("room kept on each page", 20, b"\x20"),
                                ("its length", 28, b"\x00\x00\x00\x01"),
                                ("its first free page", 32, b"\x00\x00\x00\x02\x00\x00\x00\x01"),
                                ("the schema's format", 44, b"\x00\x00\x00\x09"),
                                ("the text's encoding", 56, b"\x00\x00\x00\x02"),
                                ("its user version", 60, b"\x00\x00\x00\x07"),
                                ("its application", 68, b"abcd"), ("its magic", 0, b"SQLite format 4")]:
            put(whole[:at] + value + whole[at + len(value):])
            yield f"{name}, with {what} changed", name
        step = max(1, len(log) // 40)
        for length in range(0, len(log), step):
            put(file, log[:length])
            yield f"{name}, with {length} bytes of its log", name
        for length in range(0, len(whole), max(1, len(whole) // 20)):
            put(whole[:length])
            yield f"{name}, put together, {length} bytes of it", name
    for log in ("one", "three", "old-three"):
        put(place.got("empty"), place.got(log + "-wal"))
        yield f"empty, with the log of {log}", "empty"


# ---- changes at random

def at_random(chance, place):
    """A changed copy under the name `bad`: what was changed, of which register, and whether it was a row or a cell.
    None where sqlite3 took no change."""
    name = chance.choice(["one", "three", "three", "marked", "marked", "old-one", "old-three", "old-three"])
    if chance.random() < 0.5:
        template, part = (name, chance.choice(["", "-wal"])) if chance.random() < 0.6 else ("whole-" + name, "")
        place.copy(template, "bad")
        data = bytearray(place.got("bad" + part))
        at, kind = chance.randrange(len(data)), chance.randrange(10)
        if kind < 6:
            for place_at in [at] + [chance.randrange(len(data)) for _ in range(chance.choice((0, 0, 0, 1, 3)))]:
                flipped = data[place_at] ^ (1 << chance.randrange(8))
                data[place_at] = chance.choice([flipped, chance.randrange(256), 0, 255])
        elif kind == 6:
            del data[at:]
        elif kind == 7:
            at, size = at - at % 512, chance.choice((16, 512, 4096))
            data[at:at + size] = bytes(len(data[at:at + size]))
        elif kind == 8:
            other = chance.randrange(len(data))
            data[at:at + 4096], data[other:other + 4096] = data[other:other + 4096], data[at:at + 4096]
        else:
            data[at:at] = bytes([chance.randrange(256)]) * chance.choice((1, 512))
        place.put("bad" + part, bytes(data))
        return f"kind {kind} at {at} of {template}{part}", name, False
    place.copy(name, "bad")
    withdrawals = ["withdrawals"] * 3 if name == "marked" else []
    table = chance.choice(["meta", "deposits", "lines", "lines", "steps", "steps", *withdrawals])
    column, kind = chance.choice(COLUMNS[table])
    offset = f"{chance.randrange(99)} % (SELECT count(*) FROM {table})"
    where = f"rowid = (SELECT rowid FROM {table} ORDER BY rowid LIMIT 1 OFFSET {offset})"
    loosely = chance.random() < 0.2
    values = {"integer": [*NUMBERS, *range(30)], "text": TEXTS,
              "blob": [b"", b"x", machine.FILE_A, machine.FILE_B, b'"DATA","BH1"']}
    way = chance.randrange(8)
    if way == 0:
        statement = (f"DELETE FROM {table} WHERE {where}",)
    elif way == 1:
        row = ", ".join("?" if name == column else name for name, _ in COLUMNS[table])
        copying = f"INSERT OR REPLACE INTO {table} SELECT {row} FROM {table} WHERE {where}"
        statement = (copying, chance.choice(values[kind]))
    elif way == 2 and kind == "blob":
        changed = f"substr({column}, 1, ?) || x'{chance.randrange(256):02x}' || substr({column}, 2 + ?)"
        at = chance.randrange(1200)
        statement = (f"UPDATE {table} SET {column} = CAST({changed} AS BLOB) WHERE {where}", at, at)
    elif way == 3 and kind == "integer":
        statement = (f"UPDATE OR REPLACE {table} SET {column} = {column} + ? WHERE {where}",
                     chance.choice([-1, 1, 2, 10]))
    else:
        others = [*values["integer"], *values["text"], *values["blob"], None, 1.5] if loosely else values[kind]
        statement = (f"UPDATE OR REPLACE {table} SET {column} = ? WHERE {where}", chance.choice(others))
    try:
        place.written("bad", [statement], loosely)
    except (sqlite3.Error, OverflowError):
        return None
    return f"{statement}{' against its type' if loosely else ''}", name, True


def cases(place, seed, numbers):
    """(what was changed, of which register, whether it was a row or a cell), each change made under the name `bad`"""
    if numbers[0] == 1:
        for what, name, statements, loosely in changes(place):
            place.copy(name, "bad")
            try:
                place.written("bad", statements, loosely)
            except sqlite3.Error as fault:
                place.counts["not taken by sqlite3"] += 1
                continue
            place.counts["rows changed by hand"] += 1
            yield what, name, True
        for what, name in files_by_hand(place):
            place.counts["files changed by hand"] += 1
            yield what, name, False
    for number in numbers:
        made = at_random(random.Random(f"{seed} {number}"), place)
        if made is None:
            place.counts["not taken by sqlite3"] += 1
        else:
            place.counts["changed at random"] += 1
            yield f"{number} of seed {seed}: {made[0]}", made[1], made[2]


def main():
    if len(sys.argv) < 2:
        sys.exit(__doc__)
    count, seed, first = (int(sys.argv[n]) if len(sys.argv) > n else usual for n, usual in ((2, 300), (3, 1), (4, 1)))
    servers.limit_memory()
    folder = tempfile.mkdtemp(prefix="registers")
    place = Place(sys.argv[1], folder)
    for what, name, is_by_rows in cases(place, seed, range(first, first + count)):
        try:
            wrong = place.wrong("bad", name, is_by_rows)
        except subprocess.TimeoutExpired:
            wrong = "no answer within a minute"
        place.passed += wrong is None
        place.failed += wrong is not None
        if wrong:
            print(f"{what}: {wrong}", flush=True)
            place.copy("bad", f"wrong-{place.failed}")
    if not place.failed:
        shutil.rmtree(folder)
    told = ", ".join(f"{text}: {times}" for text, times in sorted(place.counts.items()))
    print(f"({told}{'; the changed files are in ' + folder if place.failed else ''})")
    print(f"{place.passed} passed, {place.failed} failed")
    return place.failed > 0


if __name__ == "__main__":
    sys.exit(main())
