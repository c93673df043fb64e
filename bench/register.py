"""Measures a register: what a command on a file costs, beside the same rows written by SQLite itself; requests a
second; the cost of opening."""
import os
import shutil
import socket
import sqlite3
import subprocess
import sys
import tempfile
import time
import dictionaries
import files
sys.path.insert(0, os.path.join(os.path.dirname(os.path.abspath(__file__)), "..", "conformance"))
import servers  # noqa: E402
from servers import asking, head, post, sample  # noqa: E402

LISTING, EXTRACT = (head(b"/v1/projects/N1/deposits" + page, []) for page in (b"", b"/1"))
REQUESTS = 300
# How often requests that change nothing are sent to the program, then to the plain server: the shortest time counts.
TURNS = 3
MANY = 10000


class Place(servers.Place):
    """A place with a new register under a dictionary, whose starts are measured; `limit` is for the program."""

    patience = 3600

    def __init__(self, program, folder, limit, dictionary=dictionaries.large):
        for name in os.listdir(folder):
            os.remove(os.path.join(folder, name))
        policy, callers = (sample(name).decode() for name in ("policy.toml", "callers.toml"))
        super().__init__(program, folder, policy, callers, {"dictionary": dictionary()})
        self.limit = limit
        self.make(dictionary="dictionary")

    def measured(self, *words):
        """Seconds, greatest resident memory in MB and output of a command."""
        with tempfile.NamedTemporaryFile() as note:
            begun = time.monotonic()
            out, said, status = self.run(*words, under=noting(note), preexec_fn=self.limit)
            taken = time.monotonic() - begun
            if status:
                sys.exit(f"{words[0]}: {status}, {out[:80]} {said[:80]}")
            return taken, megabytes(note), out

    def bytes_held(self):
        return sum(os.path.getsize(self.path(name))
                   for name in ("register", "register-wal") if os.path.exists(self.path(name)))

    def asked(self, *parts):
        """Seconds for the requests of each part, one part after the other in one run of the program, which has opened
        the register; and the last reply."""
        with self.serve(sum(map(len, parts)), preexec_fn=self.limit) as server:
            asked = [ask(server.port, requests) for requests in parts]
            server.rest()
        return [taken for taken, _ in asked], asked[-1][1]


def noting(note):
    """The arguments of GNU time that notes the greatest resident memory."""
    return ["/usr/bin/time", "-q", "-f", "%M", "-o", note.name]


def megabytes(note):
    return int(note.read().split()[-1]) / 1024


def ask(port, requests):
    """Seconds for these requests, one connection each, from the first connection to the last reply, and that reply;
    each has to be 200."""
    reply = b""
    begun = time.monotonic()
    for request in requests:
        with socket.create_connection(("127.0.0.1", port)) as connection:
            connection.sendall(request)
            reply = b"".join(iter(lambda: connection.recv(1 << 20), b""))
        if not reply.startswith(b"HTTP/1.1 200"):
            sys.exit(f"a request was answered {reply[:80]}")
    return time.monotonic() - begun, reply


def by_words(place, data):
    """Seconds, MB and output of the deposit of a file, of a listing of another project, which opens the register, of a
    listing, and of an extract."""
    place.put("file", data)
    asked = asking("deposit", "file"), asking("list", project="N2"), asking("list"), asking("extract", "1")
    return [place.measured(*words) for words in asked]


def checked_there(place, data):
    """Status, seconds, bytes of the reply and greatest resident memory in MB of a check over the socket."""
    first, count = b"", 0
    with tempfile.NamedTemporaryFile() as note, place.serve(1, under=noting(note), preexec_fn=place.limit) as server:
        begun = time.monotonic()
        with server.connect() as connection:
            connection.sendall(post(b"check", data))
            while piece := connection.recv(1 << 20):
                first, count = first or piece, count + len(piece)
        taken = time.monotonic() - begun
        server.rest()
        return first[9:12].decode() or "fault", taken, count, megabytes(note)


def built_plainly(folder):
    """The server in plain Rust, or None where there is no rustc."""
    if not shutil.which("rustc"):
        return None
    plain = os.path.join(folder, "plain")
    subprocess.run(["rustc", "-O", "--edition", "2021",
                    os.path.join(os.path.dirname(os.path.abspath(__file__)), "plain.rs"), "-o", plain], check=True)
    return plain


def answered_plainly(plain, folder, requests, reply, kept=()):
    """Seconds that the server in plain Rust takes for these requests, each of which it answers with the bytes of this
    reply. It keeps their bodies in a file, if one is named."""
    path = os.path.join(folder, "reply")
    with open(path, "wb") as file:
        file.write(reply)
    serving = subprocess.Popen([plain, path, str(len(requests)), *kept], stdout=subprocess.PIPE)
    taken, _ = ask(int(serving.stdout.readline()), requests)
    serving.communicate()
    return taken


def by_sqlite(place):
    """Seconds that SQLite takes to write the rows of a register into a file of its own, in one transaction, and to read
    them again."""
    place.copy("register", "copy")
    source = sqlite3.connect(place.path("copy"))
    tables = source.execute("SELECT name, sql FROM sqlite_master WHERE type = 'table' ORDER BY rowid").fetchall()
    rows = {name: source.execute(f"SELECT * FROM {name}").fetchall() for name, _ in tables}
    source.close()
    target = sqlite3.connect(place.path("beside"), isolation_level=None)
    target.executescript("PRAGMA journal_mode = wal; PRAGMA synchronous = full; PRAGMA foreign_keys = on;"
                         + ";".join(sql for _, sql in tables))
    begun = time.monotonic()
    target.execute("BEGIN")
    for name, sql in tables:
        if rows[name]:
            target.executemany(f"INSERT INTO {name} VALUES ({', '.join('?' * len(rows[name][0]))})", rows[name])
    target.execute("COMMIT")
    written = time.monotonic() - begun
    begun = time.monotonic()
    for name, _ in tables:
        target.execute(f"SELECT * FROM {name}").fetchall()
    read = time.monotonic() - begun
    target.close()
    return written, read, os.path.getsize(place.path("beside"))


def socket_times(place, data):
    """Seconds that a deposit of a file and an extract of it take over the socket, where the register was open before:
    the extract is the shortest of three."""
    (posted, *drawn), _ = place.asked([deposit(data)], [EXTRACT], [EXTRACT], [EXTRACT])
    return posted, min(drawn)


def deposit(data):
    return post(b"deposits", data)


def small(number, apart=False):
    """A small file, another one for each number. Where they are `apart`, its row of PROJ is another one too."""
    text = sample("delta.ags").replace(b"FINAL", b"FINAL %d" % number)
    return text.replace(b"North bank", b"Site %d" % number) if apart else text


def hundred(length):
    """A hundred deposits of about so many bytes."""
    text = files.deep(length)
    return [deposit(text.replace(b"North bank", b"Site %02d" % n)) for n in range(100)]


def grown(new_place, size):
    """What a deposit of 1 kB and a listing take in registers of many deposits and of large ones: each served from the
    empty register, in one run of the program."""
    print("\n| A register of | the last 100 deposits, ms each | 10 listings, ms each |\n|---|---|---|")
    for name, requests in (("100 of 1 kB", [deposit(small(n)) for n in range(100)]),
                           (f"{MANY} of 1 kB", [deposit(small(n)) for n in range(MANY)]),
                           (f"100 of {size // 400} bytes", hundred(size // 400)),
                           (f"100 of {size // 4} bytes", hundred(size // 4))):
        place = new_place()
        (_, added, listed), reply = place.asked(requests[:-100], requests[-100:], [LISTING] * 10)
        if reply.count(b'"number"') != len(requests):
            sys.exit(f"a listing has {reply.count(b'number')} lines, and not {len(requests)}")
        print(f"| {name} | {1000 * added / 100:.1f} | {1000 * listed / 10:.1f} |", flush=True)


def requests_a_second(new_place):
    """Requests a second, a connection each, beside a plain Rust server that answers each with the last reply; before a
    listing, one that is not counted. Of requests that change nothing each is the best of some turns, of the program and
    of the plain server one after the other; deposits are asked once."""
    tools = tempfile.mkdtemp(prefix="bench")
    plain = built_plainly(tools)
    place = new_place()
    print(f"\n| {REQUESTS} requests, a connection each | a second"
          " | of a plain Rust server that answers each with the last reply | that has each body on the disk first |\n"
          "|---|---|---|---|")
    # Delta sees all rows of its own deposits; of what Echo sees, each deposit's row of PROJ has to be read
    foreign = LISTING.replace(b"t-delta", b"t-echo")
    deposits, apart = ([deposit(small(n, way)) for n in range(100 + REQUESTS)] for way in (False, True))
    deposited, listed = "deposits of 1 kB", [LISTING] * REQUESTS
    for name, first, requests in (("", [], deposits[:10]),
                                  ("listings of 10 deposits", [LISTING], listed),
                                  ("", [], deposits[10:100]), ("listings of 100 deposits", [LISTING], listed),
                                  (deposited, [], deposits[100:]),
                                  (f"listings of {len(deposits)} deposits", [LISTING], listed),
                                  ("extracts of 1 kB", [], [EXTRACT] * REQUESTS),
                                  ("the same deposit again", [], deposits[:1] * REQUESTS),
                                  ("new", [], apart),
                                  (f"listings of {len(apart)} deposits, each with a row of PROJ of its own",
                                   [LISTING], listed),
                                  ("the same, asked by another firm", [foreign], [foreign] * REQUESTS)):
        if name == "new":
            place = new_place()
        (_, taken), reply = place.asked(first, requests)
        if name in ("", "new"):
            continue
        kept = (place.path("kept"),) if name == deposited else ()
        times = {"": [taken], "plain": [], "kept": []}
        for turn in range(TURNS):
            if turn and name != deposited:
                times[""].append(place.asked(first, requests)[0][1])
            if plain:
                times["plain"].append(answered_plainly(plain, tools, requests, reply))
            if plain and kept:
                times["kept"].append(answered_plainly(plain, tools, requests, reply, kept))
        shown = [f"{len(requests) / min(found):.1f}" if found else "-" for found in times.values()]
        print(f"| {name} | {' | '.join(shown)} |", flush=True)
    shutil.rmtree(tools)


def measure(program, size, limit, dictionary):
    folder = tempfile.mkdtemp(prefix="bench")

    def new_place():
        return Place(program, folder, limit, dictionary)

    print("\n| File | Bytes | deposit, s | MB | list, s | MB | extract, s | MB | deposit over the socket, s"
          " | extract there, s | Register, bytes | SQLite writes the rows, s | reads them | its bytes |\n"
          + "|---" * 14 + "|")
    for make in (files.flat, files.deep, files.ring):
        place = new_place()
        data = make(size)
        (deposited, to_deposit, _), _, (listed, to_list, _), (drawn, to_draw, text) = by_words(place, data)
        held = place.bytes_held()
        written, read, beside = by_sqlite(place)
        posted, got = socket_times(new_place(), data)
        note = "" if len(text) > size // 2 else " (not whole)"
        print(f"| {make.__name__} | {len(data)} | {deposited:.2f} | {to_deposit:.1f} | {listed:.2f} | {to_list:.1f}"
              f" | {drawn:.2f}{note} | {to_draw:.1f} | {posted:.2f} | {got:.2f} | {held}"
              f" | {written:.2f} | {read:.2f} | {beside} |", flush=True)
    requests_a_second(new_place)
    grown(new_place, size)
    place = new_place()
    text = files.deep(size // 4)
    (taken,), _ = place.asked([deposit(text.replace(b"North bank", b"Site %02d" % n)) for n in range(100)])
    opened, memory, _ = place.measured(*asking("list", project="N2"))
    print(f"\n100 deposits of {len(text)} bytes: {taken / 100:.2f} s each over the socket, {place.bytes_held()} bytes;"
          f" opened, and a listing of no deposits, in {opened:.2f} s and {memory:.1f} MB")
    shutil.rmtree(folder)
