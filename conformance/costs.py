#!/usr/bin/env python3
"""What checks, listings and extracts cost, beside others: by ratios, so that it holds on any machine.

usage: conformance/costs.py PROGRAM     the last line is 'N passed, M failed'

Each costly file of bench/costly.py is checked beside the usual file of its length, by seconds of a processor. 65,536
bytes take at most 20 times as long, and 50 MB. Of 1,048,576 bytes the files that docs/OPERATING.md speaks of may take
longer, and none takes more than 8 times the memory. A deposit of too many steps is answered `out of memory` at most
two seconds after its check. A listing of files whose row of PROJ has a FILE_FSET costs what one of files without it
does. One of a file whose row of PROJ reaches 700 rows, shown or hidden, looks at each of them: it takes at most 40 times
as long as one of a usual file. An extract of a deposit that is hidden costs
what that of a withdrawn one costs, and of one that never was, also through nginx, and there what one of a project
without a register costs: medians of 300 requests."""
import contextlib
import os
import statistics
import sys
import tempfile
import threading
import time
sys.dont_write_bytecode = True
sys.path.insert(0, os.path.join(os.path.dirname(os.path.abspath(__file__)), "..", "bench"))
import costly  # noqa: E402
import files  # noqa: E402
import office  # noqa: E402
import room  # noqa: E402
import servers  # noqa: E402
from servers import head, post, sample  # noqa: E402

MB = 1 << 20
MOST, MOST_MB, MOST_TIMES_MB = 20, 50, 8
# Those whose groups have different KEY headings of one parent group: their time grows with the square of the length. At
# 1 MB each may take twice as many times the usual file as docs/MEASURED.md has: a busy machine slows the largest most.
SLOWER = {"subsets_of_all": 140, "subsets_alike": 70, "subsets_of_two": 45, "subsets_of_ten": 40}
REFUSED = (costly.own_parent, costly.linked_to_all)
# Under this limit of memory; seconds of a processor beyond those of the check.
LIMIT, MOST_SECONDS = 1 << 30, 2
WITHDRAWING = b'\n[[rule]]\nnumber = 90\neffect = "permit"\nverb = "withdraw"\n'
LISTING = head(b"/v1/projects/N1/deposits", [])
ASKED, ALIKE = 300, 1.5
REACHED, MOST_OF_REACHED = 700, 40


def try_files(place, program):
    path = place.path("file.ags")
    for size in costly.SIZES:
        place.put("file.ags", files.deep(size))
        usual, memory, _ = costly.checked(program, path)
        for make in costly.ALL:
            name = f"{make.__name__} of {size} bytes"
            place.put("file.ags", make(size))
            taken, most, said = costly.checked(program, path)
            times = SLOWER.get(make.__name__, MOST) if size == MB else MOST
            place.check(f"{name}: at most {times} times the usual file ({taken / usual:.1f})", True,
                        taken <= times * usual)
            place.check(f"{name}: what it says", "", said)
            if size < MB:
                place.check(f"{name}: at most {MOST_MB} MB ({most:.1f})", True, most <= MOST_MB)
            else:
                place.check(f"{name}: at most {MOST_TIMES_MB} times the memory ({most / memory:.1f})", True,
                            most <= MOST_TIMES_MB * memory)


def processor_seconds(process):
    """The seconds of a processor that a process has had."""
    with open(f"/proc/{process.pid}/stat", encoding="ascii") as file:
        fields = file.read().rpartition(")")[2].split()
    return sum(map(int, fields[11:13])) / os.sysconf("SC_CLK_TCK")


def try_refused(place):
    """Deposits of too many steps, beside the checks of the same files."""
    place.make(store="steps")
    for size in costly.SIZES:
        for make in REFUSED:
            name, data, taken = f"{make.__name__} of {size} bytes", make(size), []
            with place.serve(None, store="steps", preexec_fn=room.limit_of(LIMIT)) as server:
                for page, status in ((b"check", b"HTTP/1.1 200"), (b"deposits", b"HTTP/1.1 503")):
                    begun = processor_seconds(server.process)
                    reply = server.ask(post(page, data))
                    taken.append(processor_seconds(server.process) - begun)
                    place.check(f"{name}: {page.decode()}", status, reply[:12])
                place.check(f"{name}: why", True, reply.endswith(b'{"error":"out of memory"}'))
            print(f"{name}: checked in {taken[0]:.2f} s, refused in {taken[1]:.2f} s", flush=True)
            place.check(f"{name}: refused within {MOST_SECONDS} s of its check", True,
                        taken[1] - taken[0] <= MOST_SECONDS)


def with_file_set(text):
    """That file with a set of files at its row of PROJ, which one file is in."""
    text = text.replace(b'"HEADING","PROJ_ID","PROJ_NAME"', b'"HEADING","PROJ_ID","PROJ_NAME","FILE_FSET"', 1)
    text = text.replace(b'"UNIT","",""\r\n"TYPE","ID","X"\r\n"DATA","P7","North bank"',
                        b'"UNIT","","",""\r\n"TYPE","ID","X","X"\r\n"DATA","P7","North bank","FS1"', 1)
    return text + files.group("FILE", ["FILE_FSET", "FILE_NAME"], ["", ""], ["X", "X"], [["FS1", "a.pdf"]]).encode()


def with_linked_project(text, cell):
    """That file with a record link at its row of PROJ."""
    text = text.replace('"HEADING","PROJ_ID","PROJ_NAME"', '"HEADING","PROJ_ID","PROJ_NAME","PROJ_ALL"', 1)
    return text.replace('"UNIT","",""\r\n"TYPE","ID","X"\r\n"DATA","P7","North bank"',
                        f'"UNIT","","",""\r\n"TYPE","ID","X","RL"\r\n"DATA","P7","North bank","{cell}"', 1)


def reaching_all():
    """A file whose row of PROJ links to the rows of a group of its own DICT, each of which is a parent of each, and to a
    hole that others do not see."""
    own = files.own_dict([["HEADING", "PROJ", "PROJ_ALL", "OTHER", ""], ["GROUP", "OWN", "", "", "OWN"],
                          ["HEADING", "OWN", "OWN_A", "OTHER", ""]])
    held = (files.group("OWN", ["OWN_A"], [""], ["X"], [[""]] * REACHED)
            + files.group("LOCA", ["LOCA_ID", "LOCA_STAT"], ["", ""], ["ID", "X"], [["BH1", "PRELIM"]]))
    abbreviations = files.group("ABBR", ["ABBR_HDNG", "ABBR_CODE", "ABBR_DESC"], [""] * 3, ["X"] * 3,
                                [["LOCA_STAT", "PRELIM", "Preliminary"]])
    return (with_linked_project(files.FRONT, "OWN+LOCA|BH1") + own + held + abbreviations).encode()


def medians(ask, requests):
    """The median time of each of these requests, which come one after the other, some hundred times."""
    taken = {name: [] for name in requests}
    for _ in range(ASKED):
        for name, data in requests.items():
            begun = time.perf_counter()
            ask(data)
            taken[name].append(time.perf_counter() - begun)
    return {name: statistics.median(each) for name, each in taken.items()}


def alike(ask, requests, times=ALIKE):
    """Medians of requests none of which should take so many times another. A busy machine disturbs them, so they are taken
    up to three times, until that is so."""
    for _ in range(3):
        found = medians(ask, requests)
        if max(found.values()) <= times * min(found.values()):
            break
    return found


def told(what, found):
    print(f"{what}: " + ", ".join(f"{name} {1000 * each:.3f} ms" for name, each in found.items()), flush=True)


def try_listings(place):
    """Listings of nine deposits of 200 kB, whose rows of PROJ have a set of files or none."""
    with contextlib.ExitStack() as stack:
        running = {}
        for name, changed in (("without", lambda text: text), ("with", with_file_set)):
            place.make(store=name)
            running[name] = server = stack.enter_context(served(place, name))
            for number in range(9):
                text = changed(files.deep(200_000)).replace(b"North bank", b"North bank %d" % number)
                reply = server.ask(post(b"deposits", text))
                place.check(f"a deposit {name} a set of files", b"HTTP/1.1 200", reply[:12])
            place.check(f"a listing {name} a set of files", 9, server.ask(LISTING).count(b'"number"'))
        found = alike(lambda server: server.ask(LISTING), running)
    told("listings with and without sets of files", found)
    place.check("a set of files costs a listing next to nothing", True, found["with"] <= ALIKE * found["without"])


def try_reaching(place):
    """Listings of a deposit whose row of PROJ reaches rows that all reach each other, and of a usual one: by its firm, and
    by another one, from which the first is hidden."""
    hostile, asked = reaching_all(), {}
    with contextlib.ExitStack() as stack:
        for name, text, seen in (("usual", files.deep(len(hostile)), 1), ("reaching all", hostile, 0)):
            place.make(store=name)
            server = stack.enter_context(served(place, name))
            reply = server.ask(post(b"deposits", text))
            place.check(f"a deposit, {name}", b"HTTP/1.1 200", reply[:12])
            pages = [head(b"/v1/projects/N1/deposits", [], token=token) for token in (b"t-delta", b"t-echo")]
            place.check(f"listings, {name}", [1, seen], [server.ask(page).count(b'"number"') for page in pages])
            asked |= {(name, firm): (server, page) for firm, page in zip(("own", "other"), pages)}
        found = alike(lambda each: each[0].ask(each[1]), asked, MOST_OF_REACHED)
    told("listings", {", ".join(name): each for name, each in found.items()})
    for firm in ("own", "other"):
        place.check(f"a listing of what a row of PROJ reaches: at most {MOST_OF_REACHED} times a usual one, {firm}", True,
                    found["reaching all", firm] <= MOST_OF_REACHED * found["usual", firm])


@contextlib.contextmanager
def served(place, store, *words):
    """A server without an end, whose lines are read, or it would wait once the pipe is full."""
    with place.serve(None, *words, store=store) as server:
        threading.Thread(target=server.process.stdout.read, daemon=True).start()
        yield server


def try_hidden(place):
    """Extracts of deposits of 1 MB that the caller may not see."""
    place.make(store="hidden")
    with served(place, "hidden") as server:
        for number, embargo in ((1, b"2024-12-31"), (2, b"2024-05-01")):
            text = files.deep(MB - 100).replace(b"North bank", b"North bank %d" % number)
            reply = server.ask(post(b"deposits?embargo=" + embargo, text))
            place.check(f"deposit {number}", b"HTTP/1.1 200", reply[:12])
        reply = server.ask(head(b"/v1/projects/N1/deposits/2", [], b"DELETE"))
        place.check("deposit 2 is withdrawn", b"HTTP/1.1 200", reply[:12])
        pages = {name: "/v1/projects/N1/deposits/%d" % number
                 for name, number in (("hidden", 1), ("withdrawn", 2), ("absent", 3))}
        asked = {name: head(page.encode(), [], token=b"t-echo") for name, page in pages.items()}
        replies = {name: server.ask(data) for name, data in asked.items()}
        place.check("all are answered alike", {name: replies["absent"] for name in asked}, replies)
        place.check("which is unknown", b"HTTP/1.1 404", replies["absent"][:12])
        found = alike(server.ask, asked)
        told("extracts", found)
        place.check("each costs what the others cost", True, max(found.values()) <= ALIKE * min(found.values()))
        if lacks := servers.lacking("nginx", "openssl"):
            print(f"left out, since this machine has no {lacks}: the site")
        else:
            try_site(place, server, pages)


def try_site(place, server, pages):
    """The same through nginx with the sample site, which sends a project without a register to the empty one."""
    with tempfile.TemporaryDirectory() as folder, tempfile.TemporaryDirectory() as beside:
        of_none = servers.Place(place.program, beside, sample("empty.toml").decode(), sample("callers.toml").decode())
        of_none.make()
        with served(of_none, "register") as empty:
            ask_site(place, server.port, empty.port, folder, pages)


def ask_site(place, port, other, folder, pages):
    """The site in a folder, with the ports of the register and of the empty one."""
    site = servers.Site(folder, f"~^N1$ http://127.0.0.1:{port};\n", other, servers.certificate_in(folder))
    connection = office.Connection(site.port, site.certificate)

    def ask(page):
        connection.request("GET", page, headers={"Authorization": "Bearer t-echo"})
        reply = connection.getresponse()
        return reply.status, reply.read()
    pages = {**pages, "of a project without a register": "/v1/projects/N9/deposits/1"}
    replies = {name: ask(page) for name, page in pages.items()}
    place.check("all are answered alike by the site", {name: (404, b'{"error":"unknown"}') for name in pages}, replies)
    found = alike(ask, pages)
    told("extracts through nginx", found)
    place.check("each costs there what the others cost", True, max(found.values()) <= ALIKE * min(found.values()))
    connection.close()
    site.end()


def main():
    if len(sys.argv) != 2:
        sys.exit(__doc__)
    program = os.path.abspath(sys.argv[1])
    with tempfile.TemporaryDirectory() as folder:
        place = servers.Place(program, folder, sample("policy.toml").decode() + WITHDRAWING.decode(),
                              sample("callers.toml").decode())
        try_files(place, program)
        try_refused(place)
        try_listings(place)
        try_reaching(place)
        try_hidden(place)
    print(f"{place.passed} passed, {place.failed} failed")
    return place.failed > 0


if __name__ == "__main__":
    sys.exit(main())
