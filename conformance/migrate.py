#!/usr/bin/env python3
"""A register of format 1, which an earlier program made: every command refuses it, `migrate` makes it format 2, and
then it lists and extracts what it held, as the second implementation (machine.py) has it.

usage: migrate.py PROGRAM [COUNT [SEED]]     the last line is 'N passed, M failed'

`format_1.register` was made by the last program that knew no withdrawals: `init` with samples/mini.ags, then the
deposits below under samples/policy.toml; `sqlite3 PATH ".backup format_1.register"` put it into one file. COUNT times
(30) a migration is ended by SIGKILL at a random moment. What it leaves has to be the register in format 1, which is
migrated then, or in format 2."""
import os
import random
import shutil
import sqlite3
import sys
import tempfile
import time
sys.dont_write_bytecode = True
import bad_registers  # noqa: E402
import machine  # noqa: E402
import servers  # noqa: E402
from servers import asking  # noqa: E402

HERE = os.path.dirname(os.path.abspath(__file__))
ROOT = os.path.dirname(HERE)
OLD = os.path.join(HERE, "format_1.register")
TOKENS = ["t-delta", "t-foxtrot", "t-gamma", "t-echo"]
# token, project, embargo and file of each deposit of the register
DEPOSITS = [
    ("t-delta", "N1", "2024-06-01", "samples/delta.ags"),
    ("t-foxtrot", "N1", "2024-05-01", "samples/foxtrot.ags"),
    ("t-delta", "N2", "2030-01-01", "samples/clean.ags"),
    ("t-foxtrot", "N1", "1970-01-01", "conformance/files/11c_clean_ring_of_links.ags"),
    ("t-foxtrot", "N2", "2024-06-01", "conformance/files/11c_clean_with_other_separators.ags"),
    ("t-delta", "N1", "9999-12-31", "conformance/files/clean_with_mark.ags"),
    ("t-delta", "N2", "2024-06-02", "conformance/files/9_clean_group_of_the_own_dict.ags"),
    ("t-foxtrot", "N1", "2024-06-01", "samples/clean.ags"),
]


class Place(servers.Place):
    """A place with the register, and the model's own picture of it."""

    patience = 120

    def __init__(self, program, folder):
        files = {"mini": servers.sample("mini.ags"), "more": machine.FILE_B, "empty": b"",
                 "denying": machine.POLICY.encode()}
        super().__init__(program, folder, machine.WITHDRAWING, files=files)
        register, callers = machine.Register(), machine.read_callers(machine.CALLERS)
        for number, (token, project, embargo, path) in enumerate(DEPOSITS):
            with open(os.path.join(ROOT, path), "rb") as file:
                self.put(f"d{number}", file.read())
            rules, data = machine.read_policy(machine.POLICY), self.computer.files[f"d{number}"]
            register.deposit(rules, callers[token], project, embargo, data, machine.SENT)
        self.before = register.deposits
        self.anew()

    def anew(self):
        """Puts the register there as the earlier program made it."""
        self.copy("none", "register")
        shutil.copy(OLD, self.path("register"))
        self.computer.files["register"] = register = machine.Register()
        register.deposits, register.format = list(self.before), 1

    def same(self, words):
        """Compares a start of the program with the model."""
        self.check(" ".join(words), self.computer.run(words, servers.now()[:10]), self.run(*words))

    def read(self):
        """The tables of the register with their rows, as sqlite3 reads them."""
        self.copy("register", "read")
        return bad_registers.all_in(self.path("read"))


def refused(place):
    """Every command refuses a register of format 1, and changes nothing."""
    before = place.read()
    place.check("its tables", sorted(bad_registers.FORMAT_1), sorted(before[1]))
    place.check("its deposits", len(DEPOSITS), len(before[1]["deposits"]))
    for words in (["init", "--store=register", "--dictionary=mini"], asking("deposit", "more"),
                  asking("list", token="t-echo"), asking("extract", "1"),
                  asking("withdraw", "1"), ["migrate", "--store=register", "--dictionary=mini"],
                  ["serve", "--store=register", "--policy=policy", "--callers=callers", "--port=80",
                   "--connections=1"]):
        place.same(words)
    place.check("the register after the refusals", before, place.read())


def of_nothing(place):
    """A path that names nothing, and a file of no bytes."""
    there = sorted(os.listdir(place.folder))
    place.same(["migrate", "--store=none"])
    place.check("what is made where there was nothing", there, sorted(os.listdir(place.folder)))
    place.same(["migrate", "--store=empty"])
    place.same(["migrate", "--store=callers"])


def on_a_full_disk(place):
    """A migration whose store fails leaves the register in format 1."""
    before = place.read()
    got = place.run("migrate", "--store=register", preexec_fn=servers.full_disk)
    place.check("a migration on a disk that is full", (b"", b"groundreg: store failed\n", 5), got)
    place.same(asking("list"))
    place.check("the register after it", before, place.read())


def everything(place):
    """Each listing and each extract, for each caller."""
    for token in TOKENS:
        for project in ("N1", "N2", "N3"):
            for day in ("2024-05-31", "2024-06-01"):
                place.same(asking("list", token=token, project=project, day=day))
            for number in range(1, len(place.computer.files["register"].deposits) + 2):
                place.same(asking("extract", str(number), token=token, project=project))
        place.same(asking("extract", "1", "--groups=SAMP", token=token))


def defined(place, name):
    """How sqlite3 tells the tables of a register: whether they are strict, their columns and their foreign keys."""
    place.copy(name, "read")
    connection = sqlite3.connect(place.path("read"))
    strict = sorted(row[1:] for row in connection.execute("PRAGMA table_list") if not row[1].startswith("sqlite_"))
    tables = [connection.execute(f"PRAGMA {told}({row[0]})").fetchall() for row in strict
              for told in ("table_info", "foreign_key_list", "index_list")]
    connection.close()
    return strict, tables


def migrated(place):
    """The migration, and what the register holds and answers after it."""
    schema, rows = place.read()
    place.same(["migrate", "--store=register"])
    after = place.read()
    meta = [("format" if row[0] == b"format" else "dictionary", row[1], row[2]) for row in after[1]["meta"]]
    place.check("its format", [("dictionary", 0), ("format", 2)], sorted(row[:2] for row in meta))
    kept = {name: items for name, items in after[1].items() if name not in ("meta", "withdrawals")}
    place.check("the other rows", {name: items for name, items in rows.items() if name != "meta"}, kept)
    place.check("no deposit is withdrawn", [], after[1].get("withdrawals"))
    place.copy("register", "read")
    with bad_registers.reading(place.path("read")) as connection:
        whole = [connection.execute(f"PRAGMA {told}").fetchall() for told in ("integrity_check", "foreign_key_check")]
    place.check("the file, by sqlite3", [[(b"ok",)], []], whole)
    place.make("made")
    place.check("its tables, beside those of a register that is made", defined(place, "made"),
                defined(place, "register"))
    everything(place)
    place.same(["migrate", "--store=register"])
    for number, (token, project, _, _) in enumerate(DEPOSITS):
        place.same(asking("deposit", f"d{number}", token=token, project=project))
    for words in (asking("withdraw", "1", policy="denying"),
                  *(asking("withdraw", "1", token=token) for token in ("t-echo", "t-foxtrot", "t-delta")),
                  asking("withdraw", "7", project="N2"),
                  *(asking("deposit", name, token=token)
                    for token, name in (("t-delta", "d0"), ("t-gamma", "more"), ("t-foxtrot", "more")))):
        place.same(words)
    everything(place)
    place.same(["migrate", "--store=register"])


def ended(place, count, chance):
    """Migrations that are ended at random moments."""
    place.anew()
    begun = time.monotonic()
    place.run("migrate", "--store=register")
    taken, left = time.monotonic() - begun, 0
    schema, rows = bad_registers.all_in(OLD)
    for number in range(count):
        place.anew()
        process = place.start("migrate", "--store=register")
        time.sleep(chance.uniform(0, 1.2 * taken))
        process.kill()
        out, fault = process.communicate(timeout=place.patience)
        place.check(f"end {number}: what was printed", (True, b""), (out in (b"", b"migrated\n"), fault))
        is_old = place.run(*asking("list"))[1] == b"groundreg: register version 1\n"
        left += is_old
        place.check(f"end {number}: it had said that it was done", False, is_old and out != b"")
        place.computer.files["register"].format = 1 if is_old else 2
        _, now = place.read()
        place.check(f"end {number}: the rows", {name: rows[name] for name in rows if name != "meta"},
                    {name: now[name] for name in rows if name != "meta"})
        place.check(f"end {number}: the tables", sorted(bad_registers.FORMATS[1 if is_old else 2]), sorted(now))
        for _ in range(2):
            place.same(["migrate", "--store=register"])
        place.same(asking("list", token="t-foxtrot"))
        for token, deposit in (("t-delta", "1"), ("t-echo", "4")):
            place.same(asking("extract", deposit, token=token))
    print(f"({left} of {count} migrations were ended before they were done)")


def main():
    if len(sys.argv) < 2:
        sys.exit(__doc__)
    count, seed = (int(sys.argv[n]) if len(sys.argv) > n else usual for n, usual in ((2, 30), (3, 1)))
    with tempfile.TemporaryDirectory(prefix="migrate") as folder:
        place = Place(sys.argv[1], folder)
        refused(place)
        of_nothing(place)
        on_a_full_disk(place)
        migrated(place)
        ended(place, count, random.Random(seed))
        print(f"{place.passed} passed, {place.failed} failed")
    return place.failed > 0


if __name__ == "__main__":
    sys.exit(main())
