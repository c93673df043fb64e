#!/usr/bin/env python3
"""The program at its limits and one beyond, texts that are nested or repeated without end, and peers that do not
behave.

usage: limits.py PROGRAM [SECONDS]     the last line is 'N passed, M failed'

Above that are the seconds of each start that took more than a tenth of one.

SECONDS (a hundredth) is what the slow peer waits after each of its bytes. Peers speak to one `serve`, and after each of
them a listing is requested, which has to be the one from before. `serve` has to end with 0 after its K connections,
with the statuses that belong to them. Of a thousand connections one after the other each has to be answered as the
second implementation (machine.py) has it, and the greatest resident memory after the last may be 64 KiB above that
after the hundredth (VmHWM, from /proc)."""
import os
import shutil
import socket
import sqlite3
import subprocess
import sys
import tempfile
import time
sys.dont_write_bytecode = True
sys.path.insert(0, os.path.join(os.path.dirname(os.path.abspath(__file__)), "..", "bench"))
import files  # noqa: E402
import machine  # noqa: E402
import servers  # noqa: E402
from machine import ags  # noqa: E402
from servers import DAY, asking, head, post, received, sent  # noqa: E402

LIMIT = machine.LIMIT
CLEAN, TOO_LARGE = (b"clean\n", b"", 0), (b"", b"groundreg: too large\n", 4)
NO_WORDS, DENIED = (b"", b"groundreg: words refused\n", 4), (b"denied 0\n", b"", 2)
LISTING = head(b"/v1/projects/N1/deposits", [])
MEMORY_ROOM = 64


def refused(name):
    return b"", f"groundreg: {name} refused\n".encode(), 4


class Place(servers.Place):
    """A place with a register, and what took how long there."""

    def __init__(self, program, folder):
        super().__init__(program, folder, machine.WITHDRAWING)
        self.slow = []
        self.try_start("init", ["init", "--store=register", "--dictionary=mini"], (b"created\n", b"", 0))

    def try_start(self, name, words, want, given=b""):
        begun = time.monotonic()
        try:
            got = self.run(*words, given=given)
        except subprocess.TimeoutExpired:
            got = "no answer"
        taken = time.monotonic() - begun
        if taken > 0.1:
            self.slow.append(f"{name}: {taken:.2f} s")
        self.check(name, want, got)

    def with_file(self, name, data, words, want):
        """A start with these bytes as the file `given`."""
        self.put("given", data)
        self.try_start(name, words, want)


def filled(data, length, more=b" "):
    return data + more * (length - len(data))


# ---- lengths

def lengths(place):
    a, mini = machine.FILE_A, servers.FILES["mini"]
    for name, data, want in [("a file at the limit", filled(a, LIMIT), CLEAN),
                             ("a file one above it", filled(a, LIMIT + 1), TOO_LARGE),
                             ("one long line", b"x" * LIMIT, (b"5 1 -\n", b"", 1)),
                             ("a line of quotes", b'"' * LIMIT, (b"3 1 -\n", b"", 1)),
                             ("a line of commas", b"," * LIMIT, (b"5 1 -\n", b"", 1)),
                             ("a row of nulls", b'"",' * (LIMIT // 3 - 1) + b'""', (b"3 1 -\n", b"", 1)),
                             ("zeros", bytes(LIMIT), (b"5 1 -\n", b"", 1))]:
        place.try_start(name, [], want, data)
        place.with_file(name + ", by `check`", data, ["check", "--dictionary=mini", "given"], want)
    for make in (files.flat, files.deep, files.ring):
        place.try_start(f"{make.__name__} of bench/files.py", [], CLEAN, make(LIMIT))
    place.with_file("a dictionary at the limit", filled(mini, LIMIT),
                    ["check", "--dictionary=given", "a"], CLEAN)
    place.with_file("a dictionary one above it", filled(mini, LIMIT + 1),
                    ["check", "--dictionary=given", "a"], refused("dictionary"))
    place.with_file("`init` with a dictionary one above it", filled(mini, LIMIT + 1),
                    ["init", "--store=none", "--dictionary=given"], refused("dictionary"))
    for name, entry in (("headings of one group", [b"HEADING", b"LOCA", b"LOCA_%d", b"OTHER", b""]),
                        ("groups", [b"GROUP", b"%d", b"", b"", b"LOCA"])):
        line = ags.line_of([b"DATA", *entry]) + b"\r\n"
        count = (LIMIT - len(mini)) // len(line % 100000)
        text = mini + b"".join(line % n for n in range(100000, 100000 + count))
        place.with_file(f"a dictionary of {count:,} {name}", text, ["check", "--dictionary=given", "a"], CLEAN)
    place.with_file("a deposit one above the limit", filled(a, LIMIT + 1), asking("deposit", "given", embargo=DAY),
                    (b"too large\n", b"", 4))
    place.with_file("the same, which the policy denies", filled(a, LIMIT + 1),
                    asking("deposit", "given", token="t-echo", embargo=DAY), DENIED)
    place.with_file("a deposit at the limit", filled(a, LIMIT), asking("deposit", "given", embargo=DAY),
                    (f"receipt 1 {DAY}\n".encode(), b"", 0))
    place.try_start("its extract", asking("extract", "1"), (a, b"", 0))


# ---- policies, callers, words

def eights(place):
    """Files of 3 to 12 holes, so that what statements of eight rows leave over is each number from 0 to 7: their lines
    and steps are counted in the tables, and the register, opened anew, gives each file back whole, but for the blank
    line at its end. Each hole has a row of LOCA under PROJ, of SAMP under LOCA and of LNMC under SAMP: three steps."""
    for holes in range(3, 13):
        data = (files.FRONT + files.holes(holes) + files.samples(holes, lambda n: "") + files.contents(holes)).encode()
        store = f"eights{holes}"
        place.put("eight", data)
        place.try_start(f"a register for {holes} holes", ["init", f"--store={store}", "--dictionary=mini"],
                        (b"created\n", b"", 0))
        place.try_start(f"a deposit of {holes} holes", asking("deposit", "eight", store=store, embargo=DAY),
                        (f"receipt 1 {DAY}\n".encode(), b"", 0))
        place.copy(store, "copy")
        register = sqlite3.connect(place.path("copy"))
        counts = [register.execute(f"SELECT count(*) FROM {table}").fetchone()[0] for table in ("lines", "steps")]
        register.close()
        place.check(f"lines and steps of {holes} holes", [sum(line != b"" for line in data.split(b"\r\n")), 3 * holes],
                    counts)
        place.try_start(f"an extract of {holes} holes", asking("extract", "1", store=store),
                        (data.removesuffix(b"\r\n"), b"", 0))


def policies(place):
    listed = (f"1 Delta {DAY}\n".encode(), b"", 0)

    def rules(numbers, more=""):
        return "".join(f'[[rule]]\nnumber = {n}\neffect = "permit"\n{more}' for n in numbers).encode()
    inline = b", ".join(b'{number = %d, effect = "permit"}' % n for n in range(1, 10000))
    never = 'firm = "Nobody"\nheading = "LOCA_ID"\nvalue = "' + "x" * 200 + '"\n'
    for name, data, want in [
        ("a policy at the limit", filled(machine.POLICY.encode() + b"#", LIMIT), listed),
        ("a policy one above it", filled(machine.POLICY.encode() + b"#", LIMIT + 1), refused("policy")),
        ("9,999 rules", rules(range(1, 10000)), listed),
        ("10,000 rules", rules(range(1, 10001)), refused("policy")),
        ("10,000 rules, the last of them twice", rules([*range(1, 10000), 9999]), refused("policy")),
        ("9,998 long rules that match nothing, and one", rules(range(1, 9999), never) + rules([9999]), listed),
        ("9,999 inline rules", b"rule = [" + inline + b"]\n", listed),
        ("rules with one number without end", rules([1] * (LIMIT // len(rules([1])))), refused("policy")),
        ("no rules", b"", DENIED),
        ("empty rules without end", b"[[rule]]\n" * (LIMIT // 9), refused("policy")),
        ("a value without end", rules([1], 'heading = "LOCA_ID"\nvalue = "' + "x" * (LIMIT - 100) + '"\n'), DENIED),
        ("a number of a million digits", b"[[rule]]\nnumber = " + b"1" * 1000000 + b"\n", refused("policy")),
        ("100,000 keys of one table", b"".join(b"k%d = 1\n" % n for n in range(100000)), refused("policy")),
        ("numbers 1 and 9999", rules([1, 9999]), listed), ("number 0", rules([0]), refused("policy")),
        ("a name of 32", rules([1]) + b'firm = "' + b"x" * 32 + b'"\n', DENIED),
        ("a name of 33", rules([1]) + b'firm = "' + b"x" * 33 + b'"\n', refused("policy")),
        ("a group of 4", rules([1]) + b'verb = "list"\ngroup = "ABCD"\n', DENIED),
        ("a group of 5", rules([1]) + b'group = "ABCDE"\n', refused("policy")),
        ("a heading of 9", rules([1]) + b'heading = "ABCDEFGHI"\nvalue = ""\n', DENIED),
        ("a heading of 10", rules([1]) + b'heading = "ABCDEFGHIJ"\nvalue = ""\n', refused("policy")),
    ]:
        place.with_file(name, data, asking("list", policy="given"), want)


def nested(place):
    """Texts whose values, keys or headers are within each other. Whatever the depth, a policy of that form is
    refused."""
    for depth in (79, 80, 81, 1000, 10000, 100000, LIMIT // 7):
        forms = [("arrays", b"rule = " + b"[" * depth + b"]" * depth),
                 ("arrays without an end", b"rule = " + b"[" * depth),
                 ("inline tables", b"rule = " + b"{a=" * depth + b"1" + b"}" * depth),
                 ("inline tables in arrays", b"rule = " + b"[{a=" * depth + b"1" + b"}]" * depth),
                 ("a dotted key", b"rule" + b".a" * depth + b" = 1"),
                 ("a header", b"[rule" + b".a" * depth + b"]"),
                 ("a header of an array", b"[[rule" + b".a" * depth + b"]]"),
                 ("dotted keys in inline tables", b"rule = " + b"{a.a.a=" * depth + b"1" + b"}" * depth),
                 ("a value of a rule",
                  b'[[rule]]\nnumber = 1\neffect = "permit"\nfirm = ' + b"[" * depth + b"]" * depth),
                 ("headers, each longer", b"".join(b"[rule" + b".a" * n + b"]\n" for n in range(1, min(depth, 1000)))),
                 ("line ends in arrays", b"rule = " + b"[\r\n" * depth + b"]" * depth),
                 ("brackets alone", b"[" * depth), ("braces alone", b"{" * depth), ("quotes alone", b'"' * depth),
                 ("backslashes", b'rule = "' + b"\\\\" * depth + b'"')]
        for name, data in forms:
            if len(data) <= LIMIT:
                place.with_file(f"{name}, {depth} deep", data, asking("list", policy="given"), refused("policy"))
    place.with_file("callers 100,000 deep", b"caller = " + b"[" * 100000 + b"]" * 100000,
                    asking("list", callers="given"), refused("callers"))


def callers(place):
    listed = (f"1 Delta {DAY}\n".encode(), b"", 0)

    def many(tokens):
        return b"caller = [" + b",".join(b'{token="%s",firm="F",role="r"}' % token for token in tokens) + b"]\n"
    numbered = [b"t%d" % n for n in range(400000)]
    tables = b"".join(b'[[caller]]\ntoken="t%d"\nfirm="F"\nrole="r"\n' % n for n in range(320000))
    alike = [b"x" * 55 + b"%06d" % n for n in range(175000)]
    for name, data, token, want in [
        ("400,000 callers, the first", many(numbered), "t0", listed),
        ("400,000 callers, the last", many(numbered), "t399999", listed),
        ("400,000 callers, none", many(numbered), "t400000", refused("token")),
        ("400,000 callers, the last as the first", many([*numbered[:-1], b"t0"]), "t0", refused("callers")),
        ("400,000 callers, all the same", many([b"t"] * 400000), "t", refused("callers")),
        ("400,000 callers from the last to the first", many(numbered[::-1]), "t7", listed),
        ("320,000 tables of callers", tables, "t319999", listed),
        ("callers at the limit", filled(machine.CALLERS.encode() + b"#", LIMIT), "t-delta", listed),
        ("callers one above it", filled(machine.CALLERS.encode() + b"#", LIMIT + 1), "t-delta", refused("callers")),
        ("a token of 64", many([b"~" * 64]), "~" * 64, listed),
        ("a token of 65", many([b"~" * 65]), "~" * 65, refused("callers")),
        ("tokens that share 60 characters", many(alike), "x" * 55 + "174999", listed),
    ]:
        place.with_file(name, data, asking("list", callers="given", token=token), want)


def words(place):
    text, unknown = (machine.FILE_A, b"", 0), (b"unknown\n", b"", 3)
    for name, project, more, want in [
        ("26,000 groups", "N1", ["--groups=" + ",".join(["LOCA"] * 26000), "1"], text),
        ("a groups' list with a comma too many", "N1", ["--groups=" + "LOCA," * 26000, "1"], refused("groups")),
        ("a project of 32", "x" * 32, ["1"], unknown),
        ("a project of 33", "x" * 33, ["1"], refused("project")),
        ("a project of 130,000", "x" * 130000, ["1"], refused("project")),
        ("number 999999", "N1", ["999999"], unknown),
        ("number 1000000", "N1", ["1000000"], refused("number")),
        ("a number of 130,000 digits", "N1", ["1" * 130000], refused("number")),
        ("an option a thousand times", "N1", ["1", *["--groups=LOCA"] * 1000], NO_WORDS),
        ("10,000 numbers", "N1", ["1"] * 10000, NO_WORDS),
        ("an unknown option of 130,000", "N1", ["1", "--" + "x" * 130000], NO_WORDS),
    ]:
        place.try_start(name, asking("extract", *more, project=project), want)
    for number, want in (("999999", unknown), ("1000000", refused("number")), ("1" * 130000, refused("number"))):
        place.try_start(f"a withdrawal of {number:.20}", asking("withdraw", number), want)
    for day, want in (("1970-01-01", text), ("9999-12-31", text), ("1969-12-31", refused("day")),
                      ("10000-01-01", refused("day")), ("0" * 130000, refused("day"))):
        place.try_start(f"day {day:.20}", asking("extract", "1", day=day), want)


# ---- a server

def padded(length, more=()):
    """A head of a listing of that many bytes."""
    short = head(b"/v1/projects/N1/deposits", [*more, b"P: "])
    return head(b"/v1/projects/N1/deposits", [*more, b"P: " + b"y" * (length - len(short))])


def many_findings(lines):
    """The reply to a check of so many lines `x`, each ended by LF alone: two findings a line."""
    line = '{"code":"2a","line":%d,"subject":""},{"code":"5","line":%d,"subject":""}'
    return machine.rendered(422, f'{{"findings":[{",".join(line % (n, n) for n in range(1, lines + 1))}]}}'.encode())


def heads():
    """(name, bytes, status, reply) of connections at the limits of a head and a body."""
    listing = 200, machine.reply(("listing", [(1, "Delta", DAY)]))[1]

    def refusal(status, text):
        return status, machine.error(status, text)[1]
    bad, unread, large = refusal(400, "bad head"), refusal(400, "bad parameter"), refusal(413, "too large")
    clean, receipt = ((200, machine.reply(answer)[1]) for answer in (("clean",), ("receipt", 1, DAY)))
    numbered = [b"X-%d: 1" % n for n in range(33)]
    page = b"/v1/projects/N1/deposits"
    yield "a head of 8,192 bytes", padded(8192), *listing
    yield "a head of 8,193 bytes", padded(8193), *bad
    yield "a head of 8,192 bytes with 32 fields", padded(8192, numbered[:30]), *listing
    yield "32 fields", head(page, numbered[:31]), *listing
    yield "33 fields", head(page, numbered[:32]), *bad
    yield "a head of 1 MB", padded(1 << 20), *bad
    yield "no line end for as long as a body may be", b"x" * LIMIT, *bad
    yield "line ends for as long", b"\r\n" * (LIMIT // 2), *bad
    yield "8,100 bytes of line ends before a head", b"\r\n" * 4050 + LISTING, *listing
    yield "zeros", bytes(LIMIT), *bad
    yield "a field as long as a body may be", head(page, [b"X: " + b"y" * LIMIT]), *bad
    text = 200, machine.reply(("text", machine.FILE_A))[1]
    yield "1,500 groups", head(page + b"/1?groups=" + b",".join([b"LOCA"] * 1500), []), *text
    yield "2,500 empty pairs", head(page + b"?" + b"&" * 2500, []), *listing
    yield "2,500 percent signs", head(page + b"?" + b"%41" * 2500, []), *unread
    yield "a project of 7,000", head(b"/v1/projects/" + b"x" * 7000 + b"/deposits", []), *unread
    yield "2,000 parts of a path", head(b"/v1/projects" + b"/x" * 2000, []), *refusal(404, "no route")
    for length, checked, deposited in ((LIMIT, clean, receipt), (LIMIT + 1, large, large)):
        yield f"a check of {length} bytes", post(b"check", filled(machine.FILE_A, length)), *checked
        yield f"a deposit of {length} bytes", post(b"deposits", filled(machine.FILE_A, length)), *deposited
    # bench/run asks for four times as many, a reply that this script has no room for
    yield f"a check with {LIMIT // 4:,} findings", post(b"check", b"x\n" * (LIMIT // 8)), *many_findings(LIMIT // 8)
    yield "the greatest length and no body", post(b"check", b"", length=LIMIT), *refusal(400, "short body")
    yield "a length one above it and no body", post(b"check", b"", length=LIMIT + 1), *large
    yield "a length of 9,999,999,999", post(b"check", b"", length=9999999999), *large
    eleven = head(b"/v1/projects/N1/check", [b"Content-Length: 00000000001"], b"POST")
    yield "a length of eleven digits", eleven, *refusal(400, "bad length")
    short = post(b"check", filled(machine.FILE_A, LIMIT - 1), length=LIMIT)
    yield "a body one byte short", short, *refusal(400, "short body")
    for name, number, fields, more, want in [
        ("the most bytes after it", b"999999", [b"Content-Length: %d" % LIMIT], b"x" * LIMIT, refusal(404, "unknown")),
        ("a length of 9,999,999,999", b"999999", [b"Content-Length: 9999999999"], b"", refusal(404, "unknown")),
        ("a number of seven digits", b"1000000", [], b"", unread),
        ("2,500 percent signs", b"1?" + b"%41" * 2500, [], b"", unread),
    ]:
        yield f"a withdrawal with {name}", head(page + b"/" + number, fields, b"DELETE") + more, *want
    longest = post(b"check", filled(machine.FILE_A, LIMIT), length=543)
    yield "a body with the most bytes after it", longest, *clean


def served(place):
    given = list(heads())
    server = place.serve(len(given))
    for name, data, status, want in given:
        begun = time.monotonic()
        got = server.ask(data, False if status == 413 else True)
        place.check(f"{name}, over a connection", (want, str(status)), (got, server.line(str(status))))
        if time.monotonic() - begun > 0.1:
            place.slow.append(f"{name}, over a connection: {time.monotonic() - begun:.2f} s")
    server.end("limits of heads and bodies")


def peers(place, seconds):
    check = post(b"check", machine.FILE_A)
    cuts = list(range(0, len(LISTING), 3)) + list(range(len(LISTING), len(check), 40))
    server = place.serve(7 + 6 * len(cuts))
    before = server.ask(LISTING)
    place.check("a listing", "200", server.line("200"))

    def after(name):
        place.check(f"the listing after {name}", (before, "200"), (server.ask(LISTING), server.line("200")))
    slow, waiting = server.connect(), server.connect()
    sent(waiting, LISTING, False)
    begun = time.monotonic()
    for byte in LISTING:
        slow.sendall(bytes([byte]))
        time.sleep(seconds)
    place.check(f"a peer that sends a byte each {seconds} s", (before, "200"), (received(slow), server.line("200")))
    place.slow.append(f"a peer that sends a byte each {seconds} s: {time.monotonic() - begun:.2f} s")
    place.check("the peer that waited meanwhile", (before, "200"), (received(waiting), server.line("200")))
    broken = b"x\n" * 200000
    deaf = server.connect(4096)
    sent(deaf, post(b"check", broken), True)
    time.sleep(max(2, seconds))
    waiting = server.connect()
    sent(waiting, LISTING, False)
    deaf.close()
    place.check("a peer that never reads, and closes", "fault", server.line("fault"))
    place.check("the peer that waited meanwhile", (before, "200"), (received(waiting), server.line("200")))
    for name, away in (("a reset", servers.reset), ("an end", socket.socket.close), ("an end of one side", None)):
        for cut in cuts:
            data = check[:cut] if cut >= len(LISTING) else LISTING[:cut]
            connection = server.connect()
            connection.sendall(data)
            if away:
                away(connection)
                got = server.line("fault|0|400")
            else:
                connection.shutdown(socket.SHUT_WR)
                status, want = machine.serve(machine.Register(), [], machine.read_callers(machine.CALLERS), DAY, data)
                got = (received(connection), server.line(str(status)))
                got = "0" if got == (want, str(status)) else got
            place.check(f"{name} after {cut} bytes", True, got in ("fault", "0", "400"))
            after(f"{name} after {cut} bytes")
    reader = server.connect(4096)
    sent(reader, LISTING, False)
    slowly = b""
    while piece := reader.recv(1):
        slowly += piece
        time.sleep(min(seconds, 0.01))
    place.check("a peer that reads byte by byte", (before, "200"), (slowly, server.line("200")))
    reader.close()
    place.check("a peer that sends nothing", (b"", "0"), (server.ask(b""), server.line("0")))
    server.end("peers")


def thousand(place):
    """A thousand connections one after the other."""
    rules, by = machine.read_policy(machine.WITHDRAWING), machine.read_callers(machine.CALLERS)
    register = machine.Register()
    register.deposit(rules, by["t-delta"], "N1", DAY, filled(machine.FILE_A, LIMIT), DAY)
    deposit, one = post(b"deposits", machine.FILE_B), b"/v1/projects/N1/deposits/%d"
    asked = [LISTING, head(one % 1, []), deposit, head(one % 2 + b"?groups=LOCA", []), deposit[:700], b"GET", b"",
             head(b"/v1/x", []), post(b"check", b"x\n"), padded(8193), head(one % 2, [], b"DELETE")]
    server, begun = place.serve(1000), time.monotonic()
    memory = [server.memory()]
    for n in range(1000):
        data = asked[n % len(asked)]
        status, want = machine.serve(register, rules, by, DAY, data)
        place.check(f"connection {n + 1} of a thousand", (want, str(status)),
                    (server.ask(data), server.line(str(status))))
        if n in (98, 498, 998):
            memory.append(server.memory())
    place.check("memory that does not grow", True, memory[3] <= memory[1] + MEMORY_ROOM)
    print("(greatest resident memory of `serve` before its first connection and after its 99th, 499th and 999th:"
          f" {', '.join(map(str, memory))} KiB)")
    place.slow.append(f"a thousand connections: {time.monotonic() - begun:.2f} s")
    server.end("a thousand connections")


def main():
    if len(sys.argv) < 2:
        sys.exit(__doc__)
    seconds = float(sys.argv[2]) if len(sys.argv) > 2 else 0.01
    servers.limit_memory()
    folder = tempfile.mkdtemp(prefix="limits")
    place = Place(sys.argv[1], folder)
    for part in (lengths, eights, policies, nested, callers, words, served, thousand):
        part(place)
    peers(place, seconds)
    shutil.rmtree(folder)
    for line in place.slow:
        print(f"  {line}")
    print(f"{place.passed} passed, {place.failed} failed")
    return place.failed > 0


if __name__ == "__main__":
    sys.exit(main())
