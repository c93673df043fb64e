#!/usr/bin/env python3
"""A register that is served on and on: reloads, its log, its Unix socket and peers that are gone, over real sockets.

usage: reloads.py PROGRAM     the last line is 'N passed, M failed'

Policies, callers and logs are replaced while peers ask without a pause: each reply has to be that of a policy that
applied while it was asked, by the second implementation (machine.py), and each connection has one line in one of the
logs. What is refused changes nothing. A line of the log comes before its reply, also on a full disk. One bit of a
register's `-wal` is changed, at random: the register is not opened, or answers as before, or `verify` names what its log
has and it lacks."""
import collections
import contextlib
import hashlib
import os
import random
import re
import resource
import signal
import socket
import sqlite3
import stat
import sys
import tempfile
import threading
import time
sys.dont_write_bytecode = True
import machine  # noqa: E402
import servers  # noqa: E402
from servers import DAY, head, now, post  # noqa: E402

LISTING = head(b"/v1/projects/N1/deposits", [])
OTHER = head(b"/v1/projects/N1/deposits", [], token=b"t-echo")
OLD, NEW = machine.POLICY, "[[rule]]\nnumber = 7\neffect = \"deny\"\n"
TURNS = int(os.environ.get("TURNS", "30"))
ASKING = 3
BITS = int(os.environ.get("BITS", "100"))
START = re.compile(r"\S+ \* (start|reload) \d+\.\d+\.\d+ policy ([0-9a-f]{64}) callers ([0-9a-f]{64})")


def replies_by(policy, callers=machine.CALLERS, data=LISTING):
    """The reply by a policy, over a register that holds file a by Delta."""
    rules, known = machine.read_policy(policy), machine.read_callers(callers)
    register = machine.Register()
    register.deposit(machine.read_policy(OLD), machine.read_callers(machine.CALLERS)["t-delta"], "N1", DAY,
                     machine.FILE_A, DAY)
    return machine.serve(register, rules, known, DAY, data)[1]


def touch(place, name="sign"):
    """Changes the sign as an administrator does. A file system keeps times by the ticks of a clock, so two changes within
    one tick, up to 10 ms, are one: this changes it until its time is another one."""
    path = place.path(name)
    before = os.stat(path).st_ctime_ns if os.path.exists(path) else None
    with open(path, "a", encoding="ascii"):
        os.utime(path)
    while os.stat(path).st_ctime_ns == before:
        os.utime(path)


def ask(server, data=LISTING):
    return server.ask(data, False)


def lines_of(place, *names):
    return [line for name in names for line in place.got(name).decode("ascii").splitlines()]


def of_connections(lines):
    return [line for line in lines if line.split(" ")[1] != "*"]


def of_rights(lines):
    """What each line of a start or a reload says: which of both, and the digests of policy and callers."""
    found = [(line, START.fullmatch(line)) for line in lines if " * " in line]
    return [match.groups() if match else line for line, match in found]


def rights(event, policy=OLD, callers=machine.CALLERS):
    """What such a line has to say."""
    return event, *(hashlib.sha256(text.encode()).hexdigest() for text in (policy, callers))


def drained(server, lines):
    """Reads what is printed as long as it is printed."""
    for line in server.process.stdout:
        lines.append(line)


class Load:
    """Peers that ask without a pause: of each request when it began and ended, and its reply."""

    def __init__(self, server):
        self.server, self.over, self.seen, self.printed = server, threading.Event(), [], []
        self.threads = [threading.Thread(target=self.go_on) for _ in range(ASKING)]
        self.reader = threading.Thread(target=drained, args=(server, self.printed))
        for thread in [*self.threads, self.reader]:
            thread.start()

    def go_on(self):
        while not self.over.is_set():
            begun = time.monotonic()
            reply = ask(self.server)
            self.seen.append((begun, time.monotonic(), reply))

    def end(self):
        """Ends the load, and then `serve`, once it has printed all."""
        self.over.set()
        for thread in self.threads:
            thread.join()
        time.sleep(0.3)
        self.server.process.send_signal(signal.SIGTERM)
        self.server.process.wait()
        self.reader.join()


def under_load(place):
    """Each reply is of a policy that applied while it was asked, and after the sign of the new one alone."""
    touch(place)
    server = place.serve(None, "--reload=sign", "--log=log")
    load, applied, want = Load(server), [(0.0, time.monotonic(), OLD)], {p: replies_by(p) for p in (OLD, NEW)}
    for turn in range(TURNS):
        policy = (NEW, OLD)[turn % 2]
        place.put("policy", policy.encode())
        time.sleep(0.02)
        begun = time.monotonic()
        touch(place)
        applied.append((begun, time.monotonic(), policy))
        place.check(f"the first reply after reload {turn + 1}", want[policy], ask(server))
    load.end()
    wrong = []
    for begun, ended, reply in load.seen:
        # It may be of each policy whose sign was not given wholly after it, and whose next one was not given before it.
        may = [policy for n, (first, _, policy) in enumerate(applied)
               if first <= ended and (n + 1 == len(applied) or applied[n + 1][1] >= begun)]
        if reply not in [want[policy] for policy in may]:
            wrong.append((begun, ended, reply))
    place.check(f"replies among {TURNS} reloads ({len(load.seen)})", [], wrong)
    place.check("requests among reloads", True, len(load.seen) > TURNS)
    lines = lines_of(place, "log")
    place.check("lines of starts and reloads",
                [rights("start"), *(rights("reload", (NEW, OLD)[turn % 2]) for turn in range(TURNS))], of_rights(lines))
    place.check("lines of connections", len(load.seen) + TURNS, len(of_connections(lines)))
    place.put("policy", OLD.encode())


def rotated(place):
    """A log that is moved away while peers ask loses no line."""
    touch(place)
    server = place.serve(None, "--reload=sign", "--log=log")
    load = Load(server)
    for turn in range(TURNS):
        os.rename(place.path("log"), place.path(f"log.{turn}"))
        touch(place)
        ask(server)
    load.end()
    names = [*(f"log.{turn}" for turn in range(TURNS)), "log"]
    place.check(f"lines of {len(names)} logs", len(load.seen) + TURNS, len(of_connections(lines_of(place, *names))))
    place.check("lines that are printed", len(load.seen) + TURNS, len(load.printed))
    place.check("what each log begins with", [[rights("start" if name == "log.0" else "reload")] for name in names],
                [of_rights(lines_of(place, name)[:1]) for name in names])


# What of policy, callers and log is another file at a reload (None: it is missing), and why it is refused.
FOLDER = "a folder"
RULE = b'[[rule]]\nnumber = 7\neffect = "deny"\n'
CALLER = b'[[caller]]\ntoken = "t"\nfirm = "F"\nrole = "r"\n'
REFUSED = [("policy", b"[[rule", "policy refused: not TOML"), ("policy", b"# \xff", "policy refused: not TOML"),
           ("policy", RULE + b"why = 1\n", "policy refused: unknown key"),
           ("policy", b'[[rule]]\neffect = "deny"\n', "policy refused: bad value"),
           ("policy", RULE + RULE, "policy refused: the numbers do not rise"),
           ("callers", b"[[caller", "callers refused: not TOML"), ("callers", b"# \xff", "callers refused: not TOML"),
           ("callers", CALLER + b"why = 1\n", "callers refused: unknown key"),
           ("callers", CALLER[:-11], "callers refused: bad value"),
           ("callers", CALLER + CALLER, "callers refused: a token stands twice"),
           ("policy", None, "cannot read policy"), ("callers", None, "cannot read callers"),
           ("policy", FOLDER, "cannot read policy"), ("log", FOLDER, "cannot write log")]


def refused(place):
    """What is refused changes nothing, and is said; a token that is revoked is unknown at once."""
    server = place.serve(None, "--reload=sign", "--log=log")
    by_old = replies_by(OLD)
    without = machine.CALLERS.replace('"t-delta"', '"t-new"')
    place.put("policy", NEW.encode())
    place.put("callers", without.encode())
    place.check("a policy and callers without a sign", by_old, ask(server))
    for name, data, reason in REFUSED:
        os.rename(place.path(name), place.path("away"))
        if data == FOLDER:
            os.mkdir(place.path(name))
        elif data is not None:
            place.put(name, data)
        touch(place)
        place.check(f"{reason}: policy and callers stay", by_old, ask(server))
        place.check(f"{reason}: the log stays, and says so", True,
                    lines_of(place, "away" if name == "log" else "log")[-2].endswith(f" * reload refused {reason}"))
        if data == FOLDER:
            os.rmdir(place.path(name))
        os.rename(place.path("away"), place.path(name))
        place.check(f"{reason}: what is there again, without a sign", by_old, ask(server))
    place.put("policy", OLD.encode())
    touch(place)
    place.check("a revoked token", machine.error(401, "no caller")[1], ask(server))
    place.check("its line of the log", [rights("reload", callers=without)], of_rights(lines_of(place, "log"))[-1:])
    place.check("a token that is new", by_old, ask(server, LISTING.replace(b"t-delta", b"t-new")))
    place.check("another token", replies_by(OLD, data=OTHER), ask(server, OTHER))
    # A file that is another one is a sign too; one that is missing is none.
    place.put("callers", machine.CALLERS.encode())
    os.remove(place.path("sign"))
    place.check("a sign that is gone", machine.error(401, "no caller")[1], ask(server))
    touch(place)
    place.check("another sign", by_old, ask(server))
    server.process.send_signal(signal.SIGTERM)
    said = server.process.communicate()[1]
    place.check("standard error", "".join(f"groundreg: {reason}\ngroundreg: not reloaded\n" for *_, reason in REFUSED),
                said.decode())


def at_socket(place):
    """A Unix socket is for its owner and group; one that was left is taken, and one that is served is not."""
    by_old = replies_by(OLD)
    server = place.serve(None, at="k")
    place.check("where it listens", b"listening k\n", server.listening)
    mode = os.stat(place.path("k")).st_mode
    place.check("its mode", (True, "660"), (stat.S_ISSOCK(mode), f"{stat.S_IMODE(mode):o}"))
    place.check("a reply at a socket", by_old, ask(server))
    place.make("other")
    place.check("a socket that is served", (b"", b"groundreg: cannot listen\n", 6),
                place.run("serve", "--store=other", "--policy=policy", "--callers=callers", "--socket=k", "--unending"))
    place.check("a reply after that", by_old, ask(server))
    server.stop()
    place.check("a socket that is left", True, os.path.exists(place.path("k")))
    server = place.serve(1, at="k")
    place.check("a reply at a socket that was left", (by_old, "200"), (ask(server), server.line("200")))
    server.end("a socket")
    place.check("a socket at the end", False, os.path.exists(place.path("k")))


def gone(place):
    """A request whose peer has gone is not computed; one whose peer has only finished sending is."""
    costly = post(b"check", b"x\n" * 1000, fields=[])
    want = replies_by(OLD, data=costly)
    for at, ends in (("k", {"closes": socket.socket.close, "breaks off": servers.reset}),
                     (None, {"breaks off": servers.reset})):
        server = place.serve(None, "--log=log", at=at)
        for name, end in ends.items():
            # Another peer holds `serve` until this one is gone.
            first, connection = server.connect(), server.connect()
            servers.sent(first, LISTING[:9], True)
            connection.sendall(costly)
            end(connection)
            servers.sent(first, LISTING[9:], True)
            place.check(f"the peer before one that {name}", (replies_by(OLD), "200"),
                        (servers.received(first), server.line("200")))
            place.check(f"a peer that {name} at {at or 'a port'}", "fault", server.line("fault"))
            place.check(f"its line of the log, {name}", True, " fault 0 0 " in lines_of(place, "log")[-1])
        place.check(f"a peer that has finished sending at {at or 'a port'}", (want, "422"),
                    (server.ask(costly, True), server.line("422")))
        place.check(f"a peer that has not at {at or 'a port'}", (want, "422"),
                    (server.ask(costly, False), server.line("422")))
        server.stop()


def back(place):
    """While the day of the clock is before that of the log, nothing is answered by its day."""
    line = b"2999-12-31T23:59:59Z Delta contractor GET /v1/projects/N1/deposits 200 1 1 1 - - - 2d20076c\n"
    place.put("log", line)
    server = place.serve(2, "--log=log", "--day-by-clock", day=None)
    for _ in range(2):
        place.check("a clock that went back", (b"", "fault"), (ask(server), server.line("fault")))
    server.end("a clock that went back", 0, b"groundreg: the day of the clock is before that of the log\n" * 2)
    lines = lines_of(place, "log")
    place.check("its lines", ["-"] * 3, [each.split(" ")[0] for each in lines[1:]])
    server = place.serve(1, "--log=log")
    place.check("a day that is given", (replies_by(OLD), "200"), (ask(server), server.line("200")))
    server.end("a day that is given")
    place.put("log", line.replace(b"2999-12-31", now()[:10].encode()))
    server = place.serve(1, "--log=log", "--day-by-clock", day=None)
    place.check("the day of the log", "200", ask(server)[9:12].decode())
    server.line("200")
    server.end("the day of the log")


def full(place):
    """Where the line of a connection is not written its peer gets nothing, and `serve` ends with 6. What is left of the
    line is ended before the next."""
    place.check("a log that is full at the start", (b"", b"", 6),
                place.run("serve", "--store=register", "--policy=policy", "--callers=callers", "--port=80",
                          "--connections=1", "--log=/dev/full"))
    place.put("log", b"")
    server = place.serve(1, "--log=log")
    ask(server)
    server.line("200")
    server.end("a log with room")
    start, line = (len(each) + 1 for each in lines_of(place, "log"))
    # The log is longer than what a start writes into the register's own log.
    place.put("log", b"- - -\n" * 2000)
    for room in (0, 1, line - 20):
        before = len(place.got("log"))
        most = before + start + room

        def limited(most=most):
            signal.signal(signal.SIGXFSZ, signal.SIG_IGN)
            resource.setrlimit(resource.RLIMIT_FSIZE, (most, most))
        server = place.serve(1, "--log=log", preexec_fn=limited)
        place.check(f"a disk with room for {room} bytes of a line", b"", ask(server))
        server.end(f"a disk with room for {room} bytes of a line", 6)
        place.check(f"what is written of {room} bytes", most, len(place.got("log")))
    server = place.serve(1, "--log=log")
    place.check("a disk with room again", (replies_by(OLD), "200"), (ask(server), server.line("200")))
    server.end("a disk with room again")
    lines = [each for each in lines_of(place, "log") if each != "- - -"]
    place.check("lines after torn ones", [rights("start")] * 4, of_rights(lines))
    place.check("the last line", True, " 200 " in lines[-1])


def verified(place):
    """What a log has of receipts and withdrawals is in the register that made it, and not in a copy from before."""
    place.put("policy", machine.WITHDRAWING.encode())
    place.put("log", b"")
    place.copy("register", "before")
    server = place.serve(None, "--log=log")
    for n in range(5):
        ask(server, post(b"deposits", machine.FILE_B.replace(b"BH1", b"BH%d" % (n + 5)), fields=[]))
    ask(server, head(b"/v1/projects/N1/deposits/2", [], b"DELETE"))
    ask(server)
    server.stop()
    place.check("a register and its log", (b"verified 6\ncompared 6\n", b"", 0),
                place.run("verify", "--store=register", "--log=log"))
    missing = b"".join(b"missing deposit %d Delta N1\n" % n for n in range(2, 7))
    place.check("a copy from before and the log", (b"verified 1\n" + missing + b"missing withdrawal 2 Delta N1\n"
                                                   b"compared 6\n", b"", 1),
                place.run("verify", "--store=before", "--log=log"))
    for name, statements, want in CHANGED:
        place.copy("register", "changed")
        with contextlib.closing(sqlite3.connect(place.path("changed"), isolation_level=None)) as connection:
            for statement in statements:
                connection.execute(statement)
        place.check(f"a register with {name}, and the log", want, place.run("verify", "--store=changed", "--log=log"))


def compared(count, *missing):
    """What `verify` says of a register of so many deposits, and of a log with a line for each of these."""
    lines = "".join(f"missing {each} Delta N1\n" for each in missing)
    return f"verified {count}\n{lines}compared 6\n".encode(), b"", int(bool(missing))


# Changes by statement that no start notices, and one that it does; and what `verify` says of each.
CHANGED = [
    ("another firm of a deposit", ["UPDATE deposits SET firm = 'Echo' WHERE number = 3"], compared(6, "deposit 3")),
    ("another project of a deposit", ["UPDATE deposits SET project = 'N2' WHERE number = 4"], compared(6, "deposit 4")),
    ("a mark deleted", ["DELETE FROM withdrawals"], compared(6, "withdrawal 2")),
    ("the last deposit removed", [f"DELETE FROM {table} WHERE {column} = 6" for table, column in (
        ("deposits", "number"), ("lines", "deposit"), ("steps", "deposit"))], compared(5, "deposit 6")),
    ("another body", ["UPDATE deposits SET body = CAST(replace(CAST(body AS TEXT), 'North', 'South') AS BLOB)"
                      " WHERE number = 5"], (b"", b"groundreg: not a register\n", 4)),
]


def answers(place, count, store):
    """The lists and the extracts of so many deposits by two callers over `serve`, or the end of one that opens nothing."""
    asked = [head(b"/v1/projects/N1/deposits" + page, [], token=token) for token in (b"t-delta", b"t-echo")
             for page in (b"", *(b"/%d" % (n + 1) for n in range(count)))]
    with place.serve(None, store=store) as server:
        return [ask(server, data) for data in asked] if server.listening else server.rest()


def with_bit_changed(data, chance):
    """These bytes with another bit at one place."""
    at = chance.randrange(8 * len(data))
    return data[:at // 8] + bytes([data[at // 8] ^ (1 << at % 8)]) + data[at // 8 + 1:]


def flipped(place):
    """One bit of the `-wal` of a register that was killed. None of the changes passes unnoticed."""
    place.put("policy", machine.WITHDRAWING.encode())
    server = place.serve(None, "--log=log")
    for n in range(8):
        ask(server, post(b"deposits", machine.FILE_B.replace(b"BH1", b"BH%d" % (n + 5)), fields=[]))
    for number in (3, 5):
        ask(server, head(b"/v1/projects/N1/deposits/%d" % number, [], b"DELETE"))
    server.stop()
    before, wal, found = place.got("register"), place.got("register-wal"), collections.Counter()
    # A start may move the `-wal` into the file, so each has a copy.
    place.copy("register", "copy")
    was, refusals = answers(place, 10, "copy"), [f"groundreg: {each}\n".encode() for each in ("not a register",
                                                                                             "store failed")]
    for number in range(1, BITS + 1):
        place.put("kept", before)
        place.put("kept-wal", with_bit_changed(wal, random.Random(f"bit {number}")))
        place.copy("kept", "copy")
        now = answers(place, 10, "copy")
        place.copy("kept", "copy")
        out, said, status = place.run("verify", "--store=copy", "--log=log")
        is_refused = isinstance(now, tuple) and now[1] in refusals and (out, said) == (b"", now[1])
        how = ("refused" if is_refused else "named by `verify`" if status == 1 and b"missing " in out
               else "answered as before" if now == was else "unnoticed")
        place.check(f"bit {number} of the -wal: unnoticed", False, how == "unnoticed")
        found[how] += 1
    print(f"({BITS} changes of one bit: {', '.join(f'{count} {how}' for how, count in sorted(found.items()))})")


def main():
    if len(sys.argv) < 2:
        sys.exit(__doc__)
    passed = failed = 0
    for part in (under_load, rotated, refused, at_socket, gone, back, full, verified, flipped):
        with tempfile.TemporaryDirectory(prefix="reloads") as folder:
            place = servers.Place(sys.argv[1], folder)
            place.make()
            place.right(*servers.asking("deposit", "a"))
            begun = time.monotonic()
            part(place)
            print(f"({part.__name__}: {place.passed} passed, {place.failed} failed, {time.monotonic() - begun:.0f} s)",
                  flush=True)
            passed, failed = passed + place.passed, failed + place.failed
    print(f"{passed} passed, {failed} failed")
    return failed > 0


if __name__ == "__main__":
    sys.exit(main())
