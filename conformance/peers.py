#!/usr/bin/env python3
"""Peers that do not behave beside peers that do, refused uploads, failures and the log of `serve`, all over real
sockets.

usage: peers.py PROGRAM     the last line is 'N passed, M failed'

`serve` has a patience of a second or two. A peer that is silent, sends a byte each 100 ms, stops in a body, reads
nothing of a reply of 16 MB or a byte of it each 100 ms, breaks off, sends on without end or never closes is cut in
time, and the request that waits for its end is answered as the second implementation (machine.py) has it. Then 200
peers come at once, five of them such ones, three times; the greatest resident memory (VmHWM, from /proc) may grow by
256 KiB from the first time to the third. A refused POST of 3 MB has to get its status 20 times of 20, by Python's
http.client and by curl.
`conformance/proxy` asks the same through nginx."""
import collections
import http.client
import os
import re
import subprocess
import sys
import tempfile
import threading
import time
sys.dont_write_bytecode = True
import machine  # noqa: E402
import servers  # noqa: E402
from servers import DAY, head, now  # noqa: E402

MOST = 200
ROUNDS = 3
MEMORY_ROOM = 256
TIMES = 20
SLACK = 3
FIELDS = [b"Host: " + servers.NAME.encode(), b"Connection: close"]
LISTING = head(b"/v1/projects/N1/deposits", FIELDS)


def post(target, data, token=b"t-delta", length=None):
    """A request with a body, which closes its connection."""
    return servers.post(target, data, token, length, FIELDS)


# A check whose reply has some 16 MB, and no more than a request may have: two findings for each two bytes, of 82 bytes
# together.
LONG_REPLY = post(b"check", b"x\n" * min(200_000, machine.LIMIT // 2))


# ---- peers that do not behave: each goes on until it is cut, or until the others are done with

def waits(connection, over):
    """Waits for the end of a connection."""
    connection.settimeout(0.1)
    while not over.is_set():
        try:
            if not connection.recv(65536):
                return
        except TimeoutError:
            pass


def silent(connection, over):
    waits(connection, over)


def dribbling(connection, over):
    """Sends a byte of a head each 100 ms, and no end of it."""
    connection.settimeout(0.1)
    for byte in LISTING[:-2] + b"X: " + b"y" * 8000:
        connection.sendall(bytes([byte]))
        try:
            if not connection.recv(1):
                return
        except TimeoutError:
            pass
        if over.is_set():
            return


def stopped(connection, over):
    """Stops in a body."""
    connection.sendall(post(b"check", machine.FILE_A)[:-100])
    waits(connection, over)


def deaf(connection, over):
    """Reads nothing of a long reply."""
    connection.sendall(LONG_REPLY)
    over.wait()


def sipping(connection, over):
    """Reads a byte of a long reply each 100 ms."""
    connection.sendall(LONG_REPLY)
    while connection.recv(1) and not over.wait(0.1):
        pass


def broken(connection, over):
    """Breaks off in the middle, once what was sent is read."""
    connection.sendall(post(b"check", machine.FILE_A)[:-100])
    over.wait(0.1)
    servers.reset(connection)


def endless(connection, over):
    """Sends a body without end, of which the head is refused already."""
    connection.sendall(post(b"check", b"", length=9_999_999_999))
    while not over.is_set():
        connection.sendall(b"x" * 65536)


def lingering(connection, over):
    """Has its reply, and neither closes nor sends."""
    connection.sendall(LISTING)
    waits(connection, over)
    over.wait()


# What `serve` prints of each. The last two have their replies; what they send on is thrown away, and they are waited
# for no longer than two seconds.
KINDS = {silent: "fault", dribbling: "fault", stopped: "fault", deaf: "fault", sipping: "fault", broken: "fault",
         endless: "413", lingering: "200"}
AMONG_MANY = [silent, dribbling, stopped, deaf, broken]


def misbehaves(kind, connect, over):
    """Lets a peer go on, whatever becomes of its connection."""
    connection = connect(4096 if kind in (deaf, sipping) else None)
    try:
        kind(connection, over)
    except OSError:
        pass  # it was cut
    finally:
        connection.close()


# ---- honest requests, which change nothing

def honest(place):
    """Requests over a register that holds file a by Delta, each with its status and the bytes of its reply, by the
    second implementation."""
    rules, callers = machine.read_policy(machine.POLICY), machine.read_callers(machine.CALLERS)
    register = machine.Register()
    register.deposit(rules, callers["t-delta"], "N1", DAY, machine.FILE_A, DAY)
    asked = [LISTING, post(b"check", machine.FILE_B), post(b"deposits", machine.FILE_A),
             head(b"/v1/projects/N1/deposits/1", FIELDS), head(b"/v1/projects/N1/deposits/2", FIELDS),
             post(b"check", b"x\n" * 1000), head(b"/v1/x", FIELDS),
             head(b"/v1/projects/N1/deposits", FIELDS, token=b"nobody"), post(b"deposits", machine.FILE_A, b"t-gamma")]
    return [(data, *machine.serve(register, rules, callers, DAY, data)) for data in asked]


def answered(connect, data):
    """All that comes of a request, at the end of which the connection has to be closed."""
    connection = connect()
    servers.sent(connection, data, True)
    return servers.received(connection)


def parts(reply):
    """Status, type and body of a reply, which are its own behind nginx too."""
    top, _, body = reply.partition(b"\r\n\r\n")
    return top.split(b" ", 2)[1:2], re.findall(rb"\r\nContent-Type: ([^\r]*)", top), body


def at_once(place, name, connect, asked, seen, until):
    """Has peers connect at once, one of each kind and the others with these requests; what `seen` sees of each reply
    has to be that of the model. Those that do not behave go on until `until` returns what it does, which is
    returned with the statuses."""
    over, barrier, turn = threading.Event(), threading.Barrier(MOST), threading.Lock()
    replies, given = [None] * (MOST - len(AMONG_MANY)), [asked[n % len(asked)] for n in range(MOST - len(AMONG_MANY))]

    def connected(*more):
        # Each opens its connection by itself: the system queues 128, and one that finds the queue full in the midst of
        # its handshake sends its bytes again seconds later, when it may have been accepted for longer than the server
        # has patience.
        with turn:
            return connect(*more)

    def ask(n):
        barrier.wait()
        try:
            replies[n] = answered(connected, given[n][0])
        except OSError as fault:
            replies[n] = repr(fault).encode()

    def annoy(kind):
        barrier.wait()
        misbehaves(kind, connected, over)
    asking = [threading.Thread(target=ask, args=(n,)) for n in range(len(replies))]
    annoying = [threading.Thread(target=annoy, args=(kind,)) for kind in AMONG_MANY]
    for thread in asking + annoying:
        thread.start()
    for thread in asking:
        thread.join()
    got = until()
    over.set()
    for thread in annoying:
        thread.join()
    for n, (data, _, want) in enumerate(given):
        place.check(f"request {n} among {MOST} peers {name}", seen(want), seen(replies[n]))
    return [status for _, status, _ in given], got


def new_place(program, folder):
    """A folder whose register holds file a by Delta."""
    place = servers.Place(program, folder)
    place.check("init", (b"created\n", b"", 0), place.run("init", "--store=register", "--dictionary=mini"))
    place.check("a deposit", (b"receipt 1 %s\n" % DAY.encode(), b"", 0), place.run(*servers.asking("deposit", "a")))
    return place


def one_by_one(place):
    """Each kind of peer alone, and a request that waits for its end."""
    server = place.serve(2 * len(KINDS) + 2, "--patience=1")
    data, status, want = honest(place)[0]
    for kind, line in KINDS.items():
        over = threading.Event()
        thread = threading.Thread(target=misbehaves, args=(kind, server.connect, over))
        thread.start()
        time.sleep(0.2)
        begun = time.monotonic()
        place.check(f"the request after a peer that is {kind.__name__}", want, answered(server.connect, data))
        taken = time.monotonic() - begun
        place.check(f"the seconds that it waits ({taken:.2f})", True, taken < 1 + SLACK)
        place.check(f"the lines of both, {kind.__name__}", [line, str(status)],
                    [server.line(line), server.line(str(status))])
        over.set()
        thread.join()
    connection = server.connect()
    for at in range(0, len(data), 40):
        servers.sent(connection, data[at:at + 40], True)
        time.sleep(0.1)
    place.check("a peer that is slow, and not too slow", (want, str(status)),
                (servers.received(connection), server.line(str(status))))
    place.check("a request without a patience of its own", (want, str(status)),
                (answered(server.connect, data), server.line(str(status))))
    server.end("one by one")


def many(place):
    """Two hundred at once, again and again."""
    server, memory = place.serve(ROUNDS * MOST + 1, "--patience=2"), []

    def lines():
        return collections.Counter(server.printed().decode().strip() for _ in range(MOST))
    for turn in range(ROUNDS):
        statuses, got = at_once(place, f"(turn {turn + 1})", server.connect, honest(place), bytes, lines)
        place.check(f"the lines of turn {turn + 1}",
                    collections.Counter([*map(str, statuses), *(KINDS[kind] for kind in AMONG_MANY)]), got)
        memory.append(server.memory())
    # The first turn has the program's buffers grow to what such peers need.
    place.check("memory that does not grow", True, memory[-1] <= memory[1] + MEMORY_ROOM)
    print(f"(greatest resident memory of `serve` after each {MOST} peers: {', '.join(map(str, memory))} KiB)")
    data, status, want = honest(place)[0]
    place.check("the last request", (want, str(status)), (answered(server.connect, data), server.line(str(status))))
    server.end("many")


# ---- refused uploads

def by_http_client(connect, path, token, length):
    """The status that Python's http.client gets for a POST of that many bytes."""
    connection = http.client.HTTPConnection(servers.NAME)
    connection.sock = connect()
    try:
        connection.request("POST", path, body=b"x" * length, headers={"Authorization": f"Bearer {token}"})
        return connection.getresponse().status
    except (OSError, http.client.HTTPException) as fault:
        return repr(fault)
    finally:
        connection.close()


def by_curl(words, place, path, token, length):
    """The same of curl, which gets these words besides, and the token from a file."""
    place.put("upload", b"x" * length)
    place.put("fields", f"Authorization: Bearer {token}\n".encode())
    run = subprocess.run(["curl", "-s", "-o", "reply", "-w", "%{http_code}", "-H", "@fields", "-H", "Expect:",
                          "--data-binary", "@upload", *words, path],
                         cwd=place.folder, capture_output=True, timeout=servers.PATIENCE)
    return int(run.stdout) if run.returncode == 0 else f"curl ended with {run.returncode}"


def uploads(place, name, connect, curl_words, url):
    """Refused POSTs: of 3 MB by nobody, and of one byte too many."""
    path = "/v1/projects/N1/deposits"
    for what, token, length, status in (("3 MB by nobody", "nobody", 3_000_000, 401),
                                        ("one byte too many", "t-delta", machine.LIMIT + 1, 413)):
        place.check(f"{what}, by http.client {name}", [status] * TIMES,
                    [by_http_client(connect, path, token, length) for _ in range(TIMES)])
        if not servers.lacking("curl"):
            place.check(f"{what}, by curl {name}", [status] * TIMES,
                        [by_curl(curl_words, place, url + path, token, length) for _ in range(TIMES)])


def refused(place):
    server = place.serve(4 * TIMES if not servers.lacking("curl") else 2 * TIMES)
    uploads(place, "", server.connect, [], f"http://127.0.0.1:{server.port}")
    server.process.stdout.read()
    server.end("refused uploads")


# ---- days, failures, the log

def failures(place):
    """A store that fails ends `serve` with 5 after the reply, where an option says so; then the register is as it
    was."""
    data, failed = post(b"deposits", machine.FILE_B), machine.error(503, "store failed")[1]
    for more, asked, end in ((["--end-on-failure"], 1, (5, b"groundreg: store failed\n")), ([], 2, (0, b""))):
        server = place.serve(2, *more, preexec_fn=servers.full_disk)
        for n in range(asked):
            place.check(f"deposit {n + 1} on a full disk {more}", (failed, "503"),
                        (answered(server.connect, data), server.line("503")))
        server.end(f"a full disk {more}", *end)
    server = place.serve(1, "--end-on-failure")
    place.check("the deposit sent again", (machine.reply(("receipt", 2, DAY))[1], "200"),
                (answered(server.connect, data), server.line("200")))
    server.end("a disk with room")


def of_each_status():
    """Requests over a register that holds file a by Delta, so that each status but 507 comes, 0 and `fault` with it.
    None breaks off."""
    listing = head(b"/v1/projects/N1/deposits", [])
    return [post(b"deposits", machine.FILE_A), listing, head(b"/v1/projects/N1/deposits/1?groups=LOCA", []),
            post(b"check", machine.FILE_B), post(b"check", b"x\n"), b"GET / HTTP/1.2\r\n\r\n",
            head(b"/v1/projects/N1/deposits?token=t-delta", []),
            head(b"/v1/projects/N1/deposits", [], token=b"nobody"), post(b"deposits", machine.FILE_A, b"t-gamma"),
            head(b"/v1/x\xc3\xa9\\?t-delta", []), head(b"/v1/projects/N1/deposits/9", [], token=b"t-echo"),
            # The log has 256 bytes of a path: here the first byte of a letter of two is the last one.
            head(b"/v1/" + b"x" * 251 + b"\xc3\xa9", []),
            head(b"/v1/projects/N1/deposits", [], b"PUT"), head(b"/v1/projects/N1/deposits/1", [], b"DELETE"),
            head(b"/v1/projects/N1/check", [], b"POST"), post(b"check", b"", length=machine.LIMIT + 1), b"", None,
            post(b"deposits", machine.FILE_B)]


def log(place):
    """Each connection has its line, whatever its status; the log is for its owner alone, and has no token. A log that
    cannot be written ends `serve`."""
    os.umask(0o022)
    rules, callers = machine.read_policy(machine.POLICY), machine.read_callers(machine.CALLERS)
    register = machine.Register()
    register.deposit(rules, callers["t-delta"], "N1", DAY, machine.FILE_A, DAY)
    given, seen = of_each_status(), set()
    server, begun = place.serve(len(given), "--log=log", preexec_fn=servers.full_disk), now()
    for n, data in enumerate(given):
        if data is None:
            shadow = machine.logged(callers, post(b"check", b""), "fault", b"")[2]
            status, want, wanted = "fault", b"", ("Delta contractor POST /v1/projects/N1/check fault", 0, shadow)
            misbehaves(broken, server.connect, threading.Event())
        else:
            is_last = data is given[-1]
            status, want = (machine.error(503, "store failed") if is_last
                            else machine.serve(register, rules, callers, DAY, data))
            wanted = machine.logged(callers, data, status, want)
            connection = server.connect()
            servers.sent(connection, data, data != b"")
            place.check(f"a request that is logged, {data[:60]}", want, servers.received(connection))
        place.check("its line of output", str(status), server.line(str(status)))
        lines = place.got("log").decode("ascii").splitlines()
        parts = re.fullmatch(r"(\S+) (.*) (\d+) (\d+) \d+ (\S+ \S+ \S+ \S+)", lines[-1])
        got = parts[2], int(parts[4]), parts[5]
        if data is None and got == ("- - - - fault", 0, "- - - -"):
            wanted = got  # it broke off before its head was read
        place.check(f"its line of the log, {lines[-1]}", (n + 2, wanted, True),
                    (len(lines), got, begun <= parts[1] <= now()))
        # A request that is refused by its head has a body that is not read, or in part.
        if status in (0, 200, 422, 503):
            place.check(f"its bytes, {lines[-1]}", len(data), int(parts[3]))
        seen.add(str(status))
    server.end("the log")
    place.check("statuses", {"0", "fault", *map(str, set(machine.PHRASES) - {507})}, seen)
    text = place.got("log").decode("ascii")
    place.check("no token", [], [token for token in [*callers, "nobody", "Bearer"] if token in text])
    place.check("rights", {"register": "600", "register-wal": "600", "log": "600"},
                {name: f"{os.stat(place.path(name)).st_mode & 0o777:o}"
                 for name in ("register", "register-wal", "log")})
    data, status, want = honest(place)[0]
    server = place.serve(1, "--log=log")
    place.check("a log that is there", (want, str(status)), (answered(server.connect, data), server.line(str(status))))
    after = place.got("log").decode("ascii")
    place.check("it is appended to", (True, len(given) + 3), (after.startswith(text), after.count("\n")))
    server.end("a log that is there")


def by_clock(place):
    """Without a day of its own, `serve` takes that of the clock, and with --day-by-clock that of each request."""
    before = now()
    for number, more in ((2, ["--day-by-clock"]), (3, [])):
        server = place.serve(1, *more, day=None)
        got = answered(server.connect, post(b"deposits", machine.FILE_B.replace(b"BH1", b"BH%d" % (number + 5))))
        receipts = [machine.reply(("receipt", number, day[:10]))[1] for day in (before, now())]
        place.check(f"the day of a deposit {more}", True, got in receipts)
        server.line("200")
        server.end(f"by the clock {more}")


def main():
    if len(sys.argv) < 2:
        sys.exit(__doc__)
    passed = failed = 0
    for part in (one_by_one, many, refused, failures, log, by_clock):
        with tempfile.TemporaryDirectory(prefix="peers") as folder:
            place = new_place(sys.argv[1], folder)
            begun = time.monotonic()
            part(place)
            print(f"({part.__name__}: {place.passed} passed, {place.failed} failed, {time.monotonic() - begun:.0f} s)",
                  flush=True)
            passed, failed = passed + place.passed, failed + place.failed
    print(f"{passed} passed, {failed} failed")
    return failed > 0


if __name__ == "__main__":
    sys.exit(main())
