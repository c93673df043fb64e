#!/usr/bin/env python3
"""Registers under limits of memory: what was taken under a limit can be opened under it.

usage: conformance/room.py PROGRAM [MB..]      the last line is 'N passed, M failed'
       conformance/room.py PROGRAM --measure   the address space that registers take, for the constants of
                                               crates/reg_tables/src/memory/room.rt: the least limit of a start beside
                                               what these constants reckon

Under each limit of address space (48 MB to 1 GiB where none is named) a server is given deposits of a kind until one is
answered `out of memory`: of 1 kB, 500 kB and 1 MB, of 10 and 20 kB with many steps, and of 50 kB with many sets of KEY
headings. It then lists them. A second server under the same limit lists what has a receipt, draws the first deposit
whole, and takes what it may. After it a command takes a deposit more or answers `out of memory`. Last `verify` compares
each receipt in the log of both servers with the register. Of small deposits no less than half of the limit is used, of
others no less than a third: under that part no start opens the register. What is said above three quarters is said once,
also by a command that deposits, makes or migrates.
The same for `init` with a dictionary, and for `migrate`, which changes no byte where it is refused."""
import hashlib
import os
import resource
import sqlite3
import sys
import tempfile
import threading
import time
sys.dont_write_bytecode = True
here = os.path.dirname(os.path.abspath(__file__))
sys.path[:0] = [os.path.join(here, "..", "bench"), os.path.join(here, "..", "tools")]
import costly  # noqa: E402
import dictionaries  # noqa: E402
import files  # noqa: E402
import registers  # noqa: E402
import servers  # noqa: E402
from registers import memory  # noqa: E402
from servers import NEARLY_FULL, asking, head, post, sample  # noqa: E402

MB = 1 << 20
LISTING = head(b"/v1/projects/N1/deposits", [])
FIRST = head(b"/v1/projects/N1/deposits/1", [])
# As a fault of the start, and as the answer of the register.
OUT_OF_MEMORY = (b"", b"groundreg: out of memory\n", 5)
NO_MEMORY = (OUT_OF_MEMORY, (b"out of memory\n", b"", 5))
NAME = b"North bank"


def small(number):
    return sample("delta.ags").replace(b"FINAL", b"FINAL %d" % number)


def renamed(text):
    """That file for each number, with another name of the project."""
    return lambda number: text.replace(NAME, b"Site %05d" % number)


# The files of each kind, by number, and the limits in MB under which it is tried where none is named. Under 48 MB a
# register takes no file of 1 MB, and none of 20 kB with many steps.
KINDS = [("1 kB", small, (48, 96, 1024)), ("500 kB", renamed(files.deep(500_000)), (48,)),
         ("1 MB", renamed(files.deep(MB)), (96, 1024)),
         ("steps of 10 kB", renamed(files.steps(10_000)), (48, 96)),
         ("steps of 20 kB", renamed(files.steps(20_000)), (96, 1024)),
         ("sets", renamed(costly.subsets_without_findings(50_000)), (48, 96))]


def processor_seconds():
    """The seconds of a processor that this script and its ended starts have had."""
    return sum(sum(resource.getrusage(who)[:2]) for who in (resource.RUSAGE_SELF, resource.RUSAGE_CHILDREN))


def limit_of(size):
    """What limits the address space of a start to so many bytes."""
    return lambda: resource.setrlimit(resource.RLIMIT_AS, (size, size))


class Place(servers.Place):
    """A place whose starts are under a limit of so many bytes."""

    patience = 600

    def __init__(self, program, folder, limit, dictionary=None):
        for name in os.listdir(folder):
            os.remove(os.path.join(folder, name))
        super().__init__(program, folder, *(sample(name).decode() for name in ("policy.toml", "callers.toml")),
                         {"dictionary": dictionary or dictionaries.small()})
        self.limit, self.is_nearly_full = limit, None

    def limited(self, *words, limit=None):
        """What a start under a limit prints, says and ends with. Whether it also says that the next start needs more
        than three quarters of the limit is in `is_nearly_full`."""
        out, said, status = self.run(*words, preexec_fn=limit_of(limit or self.limit))
        self.is_nearly_full = said.startswith(NEARLY_FULL)
        return out, said.removeprefix(NEARLY_FULL), status


def filled(place, file_of, held=()):
    """What a server under the limit does: it lists as many deposits as are held, draws the first of them, and takes
    files until it is out of memory. The files that it took, its answers to these requests and to a last listing, and
    what it said."""
    taken = []
    with place.serve(None, "--log=log", preexec_fn=limit_of(place.limit)) as server:
        if not server.listening:
            return [], (b"", b""), b"", b"", server.rest()[1]
        # The lines that it prints are read, or it would wait once the pipe is full.
        threading.Thread(target=server.process.stdout.read, daemon=True).start()
        first = server.ask(LISTING), server.ask(FIRST) if held else b""
        while True:
            data = file_of(len(held) + len(taken))
            refused = server.ask(post(b"deposits", data))
            if b" 200 " not in refused[:16]:
                break
            taken.append(data)
        last = server.ask(LISTING)
        server.process.terminate()
        return taken, first, refused, last, server.process.stderr.read()


def try_kind(place, kind, file_of, name):
    held, told = [], b""
    # The second server has opened what the first one took.
    for which in ("a server", "a second server"):
        taken, (listed, drawn), refused, last, said = filled(place, file_of, held)
        place.check(f"{name}: {which} lists", len(held), listed.count(b'"number"'))
        if held:
            place.check(f"{name}: {which} draws the first", held[0].rstrip(), drawn.partition(b"\r\n\r\n")[2].rstrip())
        place.check(f"{name}: {which} refuses", b"HTTP/1.1 503", refused[:12])
        held += taken
        place.check(f"{name}: {which} lists after it", len(held), last.count(b'"number"'))
        if kind == "1 kB" and not told:
            place.check(f"{name}: {which} says once that the next start needs much", NEARLY_FULL, said)
        else:
            place.check(f"{name}: {which} says nothing else", b"", said.removeprefix(NEARLY_FULL))
        told = told or said
        print(f"{name}: {which} took {len(taken)} deposits of {len(file_of(0))} bytes", flush=True)
    place.check(f"{name}: some are taken", True, len(held) > 0)
    if not held:
        return
    place.put("more", file_of(10**6))
    out, said, status = place.limited(*asking("deposit", "more", embargo=servers.DAY))
    more = (out, said, status) not in NO_MEMORY
    if more:
        want = (b"receipt %d %s\n" % (len(held) + 1, servers.DAY.encode()), b"", 0)
        place.check(f"{name}: a command deposits", want, (out, said, status))
    # The log has what the servers took, and not what the command did.
    want = (b"verified %d\ncompared %d\n" % (len(held) + more, len(held)), b"", 0)
    place.check(f"{name}: every receipt is there", want, place.limited("verify", "--store=register", "--log=log"))
    if told:
        place.check(f"{name}: it says that the next start needs much", True, place.is_nearly_full)
    part = 2 if kind == "1 kB" else 3
    less = place.limited(*asking("list"), limit=place.limit // part - MB)
    place.check(f"{name}: 1/{part} of the limit is used", OUT_OF_MEMORY, less)


def try_dictionary(place, name):
    """A dictionary is taken under a limit only where the register then opens under it."""
    words = ["init", "--store=register", "--dictionary=dictionary"]
    told, told_after = [], []
    for size in range(8, place.limit // MB, 3):
        out, said, status = place.limited(*words, limit=size * MB)
        if status:
            place.check(f"{name}: {size} MB", OUT_OF_MEMORY, (out, said, status))
            place.check(f"{name}: no register at {size} MB", False, has_tables(place))
        else:
            told.append(place.is_nearly_full)
            opened = place.limited(*asking("list"), limit=size * MB)
            place.check(f"{name}: opened under {size} MB", (b"", b"", 0), opened)
            told_after.append(place.is_nearly_full)
        for end in ("", "-wal"):
            if os.path.exists(place.path("register" + end)):
                os.remove(place.path("register" + end))
    compare_told(place, name, told, told_after)


def compare_told(place, name, told, told_after):
    """A command and the start after it say that the next start needs much, under the same limits but for one: they hold
    other memory as they try it."""
    place.check(f"{name}: under some limits alone the next start needs much", {False, True}, set(told))
    place.check(f"{name}: the start after it says so too, but for one limit", True,
                sum(one != other for one, other in zip(told, told_after)) <= 1)


def has_tables(place):
    if not os.path.exists(place.path("register")):
        return False
    place.copy("register", "copy")
    connection = sqlite3.connect(place.path("copy"))
    count = connection.execute("SELECT count(*) FROM sqlite_master").fetchone()[0]
    connection.close()
    return count > 0


def digests(place):
    """What tells whether a byte of a register or of its log has changed."""
    return [hashlib.sha256(place.got(name)).hexdigest() if os.path.exists(place.path(name)) else ""
            for name in ("register", "register-wal")]


def try_migrate(place, name):
    """A register of format 1 is migrated under a limit only where it then opens under it."""
    place.make(dictionary="dictionary")
    place.put("given", files.deep(MB))
    place.right(*asking("deposit", "given", embargo=servers.DAY))
    place.copy_as_format_1("register", "first")
    # The end of a start moves the log into the file.
    place.copy("first", "register")
    place.check(f"{name}: format 1", 4, place.run(*asking("list"))[2])
    place.copy("register", "first")
    told, told_after = [], []
    for size in range(10, place.limit // MB, 3):
        place.copy("first", "register")
        before = digests(place)
        out, said, status = place.limited("migrate", "--store=register", limit=size * MB)
        if status:
            place.check(f"{name}: {size} MB", OUT_OF_MEMORY, (out, said, status))
            place.check(f"{name}: nothing is changed at {size} MB", before, digests(place))
        else:
            told.append(place.is_nearly_full)
            out, said, status = place.limited(*asking("list"), limit=size * MB)
            place.check(f"{name}: opened under {size} MB", (1, b"", 0), (out.count(b"\n"), said, status))
            told_after.append(place.is_nearly_full)
    compare_told(place, name, told, told_after)


def try_told(program, folder):
    """A command that deposits says once that the next start needs much, where the start after it says so."""
    told = set()
    for limit in range(30, 50, 4):
        place, name = Place(program, folder, limit * MB), f"a deposit under {limit} MB"
        place.make(dictionary="dictionary")
        place.put("given", files.steps(10_000))
        out, said, status = place.run(*asking("deposit", "given", embargo=servers.DAY), preexec_fn=limit_of(place.limit))
        place.check(f"{name}: its receipt", (b"receipt 1 %s\n" % servers.DAY.encode(), 0), (out, status))
        listed = place.limited(*asking("list"))
        place.check(f"{name}: a start after it", (b"", 0), listed[1:])
        place.check(f"{name}: what it says", NEARLY_FULL * place.is_nearly_full, said)
        told.add(place.is_nearly_full)
        yield place
    place.check("a deposit says so under some limits alone", {False, True}, told)


# ---- measuring

def space_of(server):
    """The address space of a process, in bytes. Its greatest says little: under a limit less is allocated ahead."""
    with open(f"/proc/{server.process.pid}/status", encoding="ascii") as file:
        return next(int(line.split()[1]) * 1024 for line in file if line.startswith("VmSize:"))


def opened(place):
    with place.serve(1) as server:
        return space_of(server)


def least_limit(place):
    """The least limit, to 64 KiB, under which a listing opens a register."""
    low, high = 0, 4 << 30
    while high - low > 1 << 16:
        middle = (low + high) // 2
        low, high = (low, middle) if place.limited(*asking("list"), limit=middle)[2] == 0 else (middle, high)
    return high


def reckoned(place):
    """What a start needs by the constants."""
    place.copy("register", "copy")
    return memory.needed(registers.read(place.path("copy")))


def counts(place):
    """Deposits, bytes, rows and steps of a register."""
    place.copy("register", "copy")
    connection = sqlite3.connect(place.path("copy"))
    found = [connection.execute(f"SELECT {what}").fetchone()[0] for what in (
        "count(*) FROM deposits", "sum(length(body)) FROM deposits", "count(*) FROM lines", "count(*) FROM steps")]
    connection.close()
    return found


def measure(program):
    print("register | deposits, bytes, rows, steps | empty | as it took them | opened | least limit | reckoned")
    mini = dictionaries.small()
    for name, dictionary, make, size, count in [
            ("1 kB", mini, lambda size: None, 0, 1000), ("deep", mini, files.deep, MB, 6),
            ("deep, one", mini, files.deep, 4 * MB, 1), ("flat", mini, files.flat, MB, 6),
            ("flat, one", mini, files.flat, 4 * MB, 1), ("ring", mini, files.ring, MB, 6),
            ("steps", mini, files.steps, 10_000, 8), ("steps", mini, files.steps, 10_000, 9),
            ("steps", mini, files.steps, 20_000, 4), ("steps, one", mini, files.steps, 40_000, 1),
            ("sets", mini, costly.subsets_without_findings, 50_000, 1),
            ("narrow", mini, files.narrow, MB, 1), ("wide", mini, files.wide, 4 * MB, 1),
            ("children", mini, files.children, MB, 1), ("160 groups", dictionaries.large(), lambda size: None, 0, 1),
            ("1,000 groups", dictionaries.large(1000, 100_000), lambda size: None, 0, 1)]:
        text = make(size)
        with tempfile.TemporaryDirectory() as folder:
            place = Place(program, folder, 1 << 40, dictionary)
            place.make(dictionary="dictionary")
            empty = opened(place)
            with place.serve(None) as server:
                for n in range(count):
                    reply = server.ask(post(b"deposits", renamed(text)(n) if text else small(n)))
                    if b" 200 " not in reply[:16]:
                        sys.exit(f"{name}: {reply[:200]}")
                took = space_of(server)
            print(name, len(dictionary), "|", *counts(place), "|", empty, "|", took, "|", opened(place), "|",
                  least_limit(place), "|", reckoned(place), flush=True)


def main():
    words = sys.argv[1:]
    if not words:
        sys.exit(__doc__)
    program = os.path.abspath(words[0])
    if "--measure" in words:
        return measure(program)
    passed = failed = 0
    with tempfile.TemporaryDirectory() as folder:
        for kind, file_of, limits in KINDS:
            for limit in [int(word) for word in words[1:]] or limits:
                place, begun = Place(program, folder, limit * MB), (time.monotonic(), processor_seconds())
                place.make(dictionary="dictionary")
                try_kind(place, kind, file_of, f"{kind} under {limit} MB")
                print(f"({kind} under {limit} MB: {time.monotonic() - begun[0]:.0f} s,"
                      f" {processor_seconds() - begun[1]:.0f} s of a processor)", flush=True)
                passed, failed = passed + place.passed, failed + place.failed
        for trying, name in ((try_dictionary, "init"), (try_migrate, "migrate")):
            place = Place(program, folder, 96 * MB, dictionaries.large())
            trying(place, name)
            passed, failed = passed + place.passed, failed + place.failed
        places = list(try_told(program, folder))
        passed, failed = (passed + sum(place.passed for place in places), failed + sum(place.failed for place in places))
    print(f"{passed} passed, {failed} failed")
    return failed > 0


if __name__ == "__main__":
    sys.exit(main())
