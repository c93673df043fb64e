#!/usr/bin/env python3
"""Measures registers that are served: the memory of an idle one, and requests a second through one nginx to one
register and to a hundred; or ten thousand that start on demand.

usage: bench/office.py PROGRAM [SECONDS]
       bench/office.py PROGRAM demand [REGISTERS [USED [RUNNING]]]
The first prints two tables. The first has, for registers of 0, 100 and 10,000 deposits of 1 kB under a dictionary of the
published size and under the sample of ten groups, the resident memory of `serve`
that listens (VmRSS and, of what it shares with others, its part: Pss), the greatest since its start (VmHWM), the
seconds of that start, and how many would fit into 24 GB by Pss. The second has the requests that CLIENTS processes got
answered in SECONDS (10), one after the other over connections that they keep, under the first: listings and extracts of
1 kB.
`demand` prints a table of REGISTERS (10,000) registers, of which USED (50), with ten deposits of 1 kB under a dictionary
of the published size, are asked. Each of these is started by its first request, as
samples/systemd/groundreg-demand@.service says. Beside them: RUNNING (2,000) such registers that all run.
Where no systemd runs, systemd-socket-activate stands for it: one process for each register that is asked, and one that
listens at the sockets of all others, as systemd itself would. It has the memory of all (Pss), and the milliseconds of a
first and of a later request at the register's socket."""
import collections
import http.client
import multiprocessing
import os
import re
import resource
import shutil
import statistics
import subprocess
import sys
import tempfile
import threading
import time
import types
sys.dont_write_bytecode = True
here = os.path.dirname(os.path.abspath(__file__))
sys.path[:0] = [here, os.path.join(here, "..", "conformance")]
import dictionaries  # noqa: E402
import machine  # noqa: E402
import servers  # noqa: E402
import machines  # noqa: E402

CLIENTS = 4
DEPOSITS = (0, 100, 10_000)
MANY = 100
ALL = 24 * 10**9
GREATEST = "1000000"


def served(place):
    """A register that is served. What it prints for each connection is read, or it would wait once the pipe is full."""
    server = place.serve(GREATEST)
    threading.Thread(target=server.process.stdout.read, daemon=True).start()
    return server


def filled(program, folder, count, dictionary=dictionaries.large):
    """A folder with a register of so many deposits of 1 kB under a dictionary."""
    os.makedirs(folder)
    place = servers.Place(program, folder)
    place.put("dictionary", dictionary())
    place.make(dictionary="dictionary")
    if count:
        server = served(place)
        for n in range(count):
            data = machine.FILE_B.replace(b"North bank", b"Site %d" % n)
            server.ask(servers.post(b"deposits", data), False)
        server.stop()
    return place


def memory(process):
    """VmRSS, Pss and VmHWM in KiB. What is swapped out counts as Pss too."""
    text = ""
    for name in ("status", "smaps_rollup"):
        with open(f"/proc/{process.pid}/{name}", encoding="ascii") as file:
            text += file.read()
    resident, part, swapped, greatest = (int(re.search(rf"^{name}:\s*(\d+)", text, re.M)[1])
                                         for name in ("VmRSS", "Pss", "SwapPss", "VmHWM"))
    return [resident, part + swapped, greatest]


def idle(program, folder):
    print("| Dictionary | Deposits of 1 kB | VmRSS, KiB | Pss, KiB | VmHWM, KiB | start, s | in 24 GB |\n"
          + "|---" * 7 + "|")
    for at, (name, dictionary) in enumerate(dictionaries.ALL.items()):
        for count in DEPOSITS:
            place = filled(program, os.path.join(folder, f"idle{at}_{count}"), count, dictionary)
            begun = time.monotonic()
            server = served(place)
            taken = time.monotonic() - begun
            resident, part, greatest = memory(server.process)
            server.stop()
            print(f"| {name} | {count} | {resident} | {part} | {greatest} | {taken:.2f} | {ALL // (part * 1024)} |",
                  flush=True)


class Connection(http.client.HTTPConnection):
    """A connection to the site by TLS. It is made anew where nginx ended it, as it does after a thousand requests."""

    def __init__(self, port, certificate):
        super().__init__(servers.NAME)
        self.port, self.certificate = port, certificate

    def connect(self):
        self.sock = servers.Site.connect(self)


def asked(site_port, certificate, projects, target, seconds, counts, at):
    """Asks for this target of one project after the other until the time is over, and counts what was answered."""
    connection = Connection(site_port, certificate)
    count, until = 0, time.monotonic() + seconds
    while time.monotonic() < until:
        connection.request("GET", f"/v1/projects/{projects[(at * 37 + count) % len(projects)]}/deposits{target}",
                           headers={"Authorization": "Bearer t-delta"})
        reply = connection.getresponse()
        reply.read()
        if reply.status != 200:
            raise SystemExit(f"a request was answered {reply.status}")
        count += 1
    counts[at] = count


def rate(site, projects, target, seconds):
    """Requests a second."""
    counts = multiprocessing.Array("q", CLIENTS)
    given = (site.port, site.certificate, projects, target, seconds, counts)
    clients = [multiprocessing.Process(target=asked, args=(*given, at)) for at in range(CLIENTS)]
    for client in clients:
        client.start()
    for client in clients:
        client.join()
    return sum(counts) / seconds


def behind_nginx(program, folder, seconds):
    print("\n| Registers behind one nginx | listings of one deposit a second | extracts of 1 kB a second"
          " | MB of all, Pss |\n|---|---|---|---|")
    certificate, running, text = servers.certificate_in(folder), [], ""
    try:
        for n in range(MANY):
            place = filled(program, os.path.join(folder, f"many{n}"), 0)
            place.right(*servers.asking("deposit", "a", project=f"P{n}"))
            running.append(served(place))
            text += f"~^P{n}$ http://127.0.0.1:{running[-1].port};\n"
        site = servers.Site(os.path.join(folder, "nginx"), text, running[0].port, certificate, workers=4)
        for count in (1, MANY):
            projects = [f"P{n}" for n in range(count)]
            held = sum(memory(server.process)[1] for server in running[:count]) / 1024
            listings, extracts = (rate(site, projects, target, seconds) for target in ("", "/1"))
            print(f"| {count} | {listings:.0f} | {extracts:.0f} | {held:.0f} |", flush=True)
        site.end()
    finally:
        for server in running:
            server.stop()


def kept(machine_of_all, name, source):
    """Copies a register to a project of a machine, without samples/project, which makes one at a time."""
    store = machine_of_all.store(name)
    os.makedirs(os.path.dirname(store))
    for part in ("", "-wal"):
        if os.path.exists(source + part):
            with open(source + part, "rb") as file, open(store + part, "wb") as copy:
                data = file.read()
                copy.write(data.rstrip(b"\0"))
                copy.truncate(len(data))
    machines.write(os.path.join(machine_of_all.etc, f"{name}.conf"), f"PROJECT={name}\nSTORE={store}\n")
    shutil.copyfile(os.path.join(machine_of_all.etc, "policy.toml"),
                    os.path.join(machine_of_all.etc, f"{name}.policy.toml"))


def time_of_request(path):
    """The milliseconds of a listing at a socket."""
    begun, connection = time.monotonic(), servers.connection_at(path, servers.PATIENCE)
    servers.sent(connection, servers.head(b"/v1/projects/N1/deposits", []), True)
    if not servers.received(connection).startswith(b"HTTP/1.1 200"):
        raise SystemExit(f"no listing at {path}")
    return (time.monotonic() - begun) * 1000


def processes_of(folder):
    """The processes whose arguments name the folder, with the program of each."""
    for each in filter(str.isdigit, os.listdir("/proc")):
        try:
            with open(f"/proc/{each}/cmdline", "rb") as file:
                words = file.read().split(b"\0")
        except OSError:
            continue
        if any(folder.encode() in word for word in words):
            yield int(each), os.path.basename(words[0]).decode()


def shown(name, folder, times):
    """A row of the table: how many processes of each program, the memory of all, and both times."""
    counts, total = collections.Counter(), 0
    for number, program in processes_of(folder):
        if program not in ("sh", "sleep"):  # they stand for what systemd does
            counts[program] += 1
            total += memory(types.SimpleNamespace(pid=number))[1]
    told = ", ".join(f"{count} {program}" for program, count in sorted(counts.items()))
    times = [f"{statistics.median(each):.1f}; {max(each):.1f}" for each in times]
    print(f"| {name} | {told} | {total / 1024:.0f} | {times[0]} | {times[1]} |", flush=True)


def on_demand(program, folder, registers, used, running):
    source = filled(program, os.path.join(folder, "source"), 10)
    empty = filled(program, os.path.join(folder, "empty"), 0, dictionaries.small)
    print("| Registers | Processes | MB of all, Pss | a first request, ms: median; longest | a later one |\n"
          + "|---" * 5 + "|")
    texts = [source.got(name).decode() for name in ("policy", "callers")]
    begun = time.monotonic()
    office = machines.Machine(os.path.abspath(program), os.path.join(folder, "demand"), *texts)
    for n in range(registers):
        kept(office, f"P{n}", (source if n < used else empty).path("register"))
    taken = time.monotonic() - begun
    try:
        held = os.path.dirname(office.demanded("P0"))
        os.makedirs(held)
        others = [word for n in range(used, registers) for word in ("-l", os.path.join(held, f"P{n}"))]
        resource.setrlimit(resource.RLIMIT_NOFILE, (registers + 100, registers + 100))
        office.start(["systemd-socket-activate", *others, "/bin/true"], stderr=subprocess.DEVNULL)
        while registers > used and not os.path.exists(office.demanded(f"P{registers - 1}")):
            time.sleep(0.1)
        for n in range(used):
            office.demand(f"P{n}")
        times = [[time_of_request(office.demanded(f"P{n}")) for n in range(used)] for _ in range(2)]
        shown(f"{registers}, of which {used} are asked", office.root, times)
    finally:
        office.end()
    all_run(program, folder, texts, source, running)
    print(f"({registers} copies of a register were made in {taken:.0f} s)")


def all_run(program, folder, texts, source, running):
    office = machines.Machine(os.path.abspath(program), os.path.join(folder, "running"), *texts)
    try:
        for n in range(running):
            kept(office, f"P{n}", source.path("register"))
            office.serve(f"P{n}")
        some = range(0, running, max(1, running // 50))
        times = [[time_of_request(office.socket(f"P{n}")) for n in some] for _ in range(2)]
        shown(f"{running} that all run", office.root, times)
    finally:
        office.end()


def main():
    if len(sys.argv) < 2:
        sys.exit(__doc__)
    if sys.argv[2:3] == ["demand"]:
        given = [int(sys.argv[n]) if len(sys.argv) > n else usual for n, usual in ((3, 10_000), (4, 50), (5, 2000))]
        if servers.lacking("systemd-socket-activate"):
            sys.exit("left out, since this machine has no systemd-socket-activate")
        with tempfile.TemporaryDirectory(prefix="servers") as folder:
            return on_demand(sys.argv[1], folder, *given)
    program, seconds = sys.argv[1], float(sys.argv[2]) if len(sys.argv) > 2 else 10
    with tempfile.TemporaryDirectory(prefix="servers") as folder:
        idle(program, folder)
        if servers.lacking("nginx", "openssl"):
            print(f"left out, since this machine has no {servers.lacking('nginx', 'openssl')}")
        else:
            behind_nginx(program, folder, seconds)


if __name__ == "__main__":
    main()
