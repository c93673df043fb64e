"""What tests and measurements of the program share: a folder in which it is started, `serve` there, connections to it,
and the sample site of nginx."""
import datetime
import os
import random
import resource
import select
import shutil
import signal
import socket
import sqlite3
import ssl
import struct
import subprocess
import sys
import time
sys.dont_write_bytecode = True
import machine  # noqa: E402
from machine import ags  # noqa: E402

PATIENCE = 300
MEMORY = 4 << 30
DAY = "2024-06-01"
SAMPLES = os.path.join(os.path.dirname(os.path.abspath(__file__)), "..", "samples")
sys.path.append(SAMPLES)
import nginx_site  # noqa: E402
NAME, certificate_in = nginx_site.NAME, nginx_site.certificate_in
# The small dictionary, and files without findings under it.
FILES = {"mini": machine.spelled_dictionary(ags.built_in().standard), "a": machine.FILE_A, "b": machine.FILE_B,
         "c": machine.file_c()}
# What makes a register of format 1 of one of format 2.
TO_FORMAT_1 = ["DROP TABLE withdrawals", "UPDATE meta SET num = 1 WHERE name = 'format'"]


def sample(name):
    with open(os.path.join(SAMPLES, name), "rb") as file:
        return file.read()


# ---- the program

class Wrong(Exception):
    """A start that did not end as it had to."""


class Place:
    """A folder in which the program is started: its files, which the model's `computer` has too, and the registers that
    are made there; what passed and failed."""

    patience = PATIENCE

    def __init__(self, program, folder, policy=machine.POLICY, callers=machine.CALLERS, files=None):
        self.program, self.folder, self.passed, self.failed = os.path.abspath(program), folder, 0, 0
        self.computer = machine.Computer()
        for name, data in {"policy": policy.encode(), "callers": callers.encode(), **(files or FILES)}.items():
            self.put(name, data)

    def path(self, name):
        return os.path.join(self.folder, name)

    def put(self, name, data):
        with open(self.path(name), "wb") as file:
            file.write(data)
        self.computer.files[name] = data

    def got(self, name):
        with open(self.path(name), "rb") as file:
            return file.read()

    def copy(self, name, copy):
        """Copies a register file and the log beside it, which belongs to it. Of a name that nothing has, no copy is
        left."""
        for end in ("", "-wal"):
            there, here = self.path(name + end), self.path(copy + end)
            if os.path.exists(here):
                os.remove(here)
            if os.path.exists(there):
                shutil.copy(there, here)

    def copy_as_format_1(self, name, copy):
        """Copies a register as one of format 1. Its log has a page that was written last."""
        self.copy(name, "work")
        setting = "UPDATE meta SET num = {} WHERE name = 'format'".format
        for statements in (TO_FORMAT_1, ["BEGIN", setting(0), setting(1), "COMMIT"]):
            connection = sqlite3.connect(self.path("work"), isolation_level=None)
            for statement in statements:
                connection.execute(statement)
            self.copy("work", copy)  # before the connection ends, which puts the log into the file
            connection.close()

    def check(self, name, want, got):
        self.passed += got == want
        self.failed += got != want
        if got != want:
            print(f"{name}\n  wanted {want!r:.600}\n  got    {got!r:.600}", flush=True)

    def start(self, *words, under=(), **more):
        """A start that goes on; `under` are the arguments of a program that starts it, `more` is of subprocess."""
        return subprocess.Popen([*under, self.program, *words], cwd=self.folder, stdin=subprocess.DEVNULL,
                                stdout=subprocess.PIPE, stderr=subprocess.PIPE, **more)

    def run(self, *words, under=(), given=b"", **more):
        """Standard output, standard error and status of a start."""
        run = subprocess.run([*under, self.program, *words], cwd=self.folder, input=given, capture_output=True,
                             timeout=self.patience, **more)
        return run.stdout, run.stderr, run.returncode

    def right(self, *words, want=None):
        """What a start prints. It has to end with 0 and, where `want` is given, to print that."""
        out, said, status = self.run(*words)
        if status or want not in (None, out):
            raise Wrong(f"{words} ended with {status}: {out[:80]} {said[:80]}")
        return out

    def make(self, store="register", dictionary="mini"):
        self.right("init", f"--store={store}", f"--dictionary={dictionary}", want=b"created\n")

    def serve(self, connections, *words, **more):
        """`serve` on a register, once it listens."""
        server = Server(self, connections, *words, **more)
        server.listening = server.printed()
        return server


# What is said where the next start will need more than three quarters of the memory that is allowed.
NEARLY_FULL = b"groundreg: the next start needs more than three quarters of the memory that is allowed\n"


def asking(command, *more, **other):
    """The arguments of a command that asks a register; `other` are the options that are not as usual."""
    options = {"store": "register", "policy": "policy", "callers": "callers", "token": "t-delta", "project": "N1",
               "day": DAY}
    return [command, *(f"--{name}={value}" for name, value in {**options, **other}.items()), *more]


class Server:
    """`serve` on a register of a place, with further words of it. `listening` is the line that it prints first, once
    that is read."""

    listening = b""

    def __init__(self, place, connections, *words, store="register", day=DAY, at=None, **more):
        """`connections` is None where there is no end to them; `at` is the path of a Unix socket."""
        self.place, self.port, self.at = place, free_port(), at
        self.process = place.start("serve", f"--store={store}", "--policy=policy", "--callers=callers",
                                   f"--socket={at}" if at else f"--port={self.port}",
                                   f"--connections={connections}" if connections else "--unending",
                                   *([f"--day={day}"] if day else []), *words, **more)

    def __enter__(self):
        return self

    def __exit__(self, *_):
        self.stop()

    def connect(self, receives=None):
        if self.at:
            return connection_at(self.place.path(self.at), self.place.patience)
        return connection_to(self.port, self.place.patience, receives)

    def ask(self, data, is_ended=True):
        connection = self.connect()
        sent(connection, data, not is_ended)
        return received(connection)

    def printed(self):
        """The next line that is printed."""
        return printed_line(self.process, self.place.patience)

    def line(self, want):
        """The next line that is printed has to be one of these."""
        line = self.printed().decode().strip()
        return line if line in want.split("|") else f"line {line!r}, wanted {want}"

    def memory(self):
        """The greatest resident memory so far, in KiB."""
        with open(f"/proc/{self.process.pid}/status", encoding="ascii") as file:
            return int(next(line for line in file if line.startswith("VmHWM:")).split()[1])

    def rest(self):
        """What is printed yet, what is said, and the status, at its end."""
        out, said = self.process.communicate(timeout=self.place.patience)
        return out, said, self.process.returncode

    def end(self, name, status=0, said=b""):
        try:
            self.place.check(f"{name}: the end", (b"", said, status), self.rest())
        except subprocess.TimeoutExpired:
            self.place.check(f"{name}: the end", "an end", "none")
            self.process.kill()

    def stop(self):
        self.process.kill()
        self.process.wait()


def printed_line(process, seconds):
    """The next line of a program's output, or what there is of it after so many seconds."""
    line, deadline = b"", time.monotonic() + seconds
    while not line.endswith(b"\n") and select.select([process.stdout], [], [], max(0, deadline - time.monotonic()))[0]:
        piece = os.read(process.stdout.fileno(), 1)
        if not piece:
            break
        line += piece
    return line


def now():
    """The moment by the clock, as the log has it; the day is its first ten characters."""
    return datetime.datetime.now(datetime.timezone.utc).strftime("%Y-%m-%dT%H:%M:%SZ")


def limit_memory():
    """What the launcher does: no more than 4 GiB for the program."""
    resource.setrlimit(resource.RLIMIT_AS, (MEMORY, MEMORY))


def full_disk():
    """A file that would grow beyond the first page of a register's log is one that cannot be written."""
    signal.signal(signal.SIGXFSZ, signal.SIG_IGN)
    resource.setrlimit(resource.RLIMIT_FSIZE, (4096, 4096))


# ---- connections

def free_port():
    """A port below those that connections are given, on which nobody listens."""
    while True:
        port = random.randrange(10000, 32000)
        with socket.socket() as probe:
            try:
                probe.bind(("127.0.0.1", port))
                return port
            except OSError:
                pass


def connection_to(port, seconds, receives=None, source=None):
    """A connection with this patience, and with room for so many bytes that nobody has read yet."""
    connection = socket.socket()
    connection.settimeout(seconds)
    if source:
        connection.bind((source, 0))
    if receives:
        connection.setsockopt(socket.SOL_SOCKET, socket.SO_RCVBUF, receives)
    connection.connect(("127.0.0.1", port))
    return connection


def connection_at(path, seconds):
    """A connection to a Unix socket with this patience."""
    connection = socket.socket(socket.AF_UNIX)
    connection.settimeout(seconds)
    connection.connect(path)
    return connection


def head(target, fields, method=b"GET", token=b"t-delta"):
    lines = [b"%s %s HTTP/1.1" % (method, target), b"Authorization: Bearer " + token, *fields, b"", b""]
    return b"\r\n".join(lines)


def post(page, data, token=b"t-delta", length=None, fields=()):
    """A request with a body, to a page of project N1."""
    length = b"Content-Length: %d" % (len(data) if length is None else length)
    return head(b"/v1/projects/N1/" + page, [*fields, length], b"POST", token) + data


def sent(connection, data, keeps_open):
    try:
        connection.sendall(data)
        if not keeps_open:
            connection.shutdown(socket.SHUT_WR)
    except OSError:
        pass  # the reply came before all was sent


def received(connection):
    """All that comes until the end."""
    out = bytearray()
    try:
        while piece := connection.recv(65536):
            out += piece
    except ConnectionResetError:
        pass  # it was closed while we were still sending
    connection.close()
    return bytes(out)


def reset(connection):
    connection.setsockopt(socket.SOL_SOCKET, socket.SO_LINGER, struct.pack("ii", 1, 0))
    connection.close()


# ---- nginx

# The site without its limits of connections. nginx may count one that its client has closed.
ANY_CONNECTIONS = [
    ("limit_conn_status 429;\n    limit_conn connections_of_address 20;\n", "limit_conn_status 429;\n"),
    ("        limit_conn connections_of_address 20;\n        limit_conn connections_of_project 50;\n", "")]

# What the site limits, without limits: a test asks more often than people do.
WITHOUT_LIMITS = [("rate=20r/s", "rate=1000000r/s"), ("rate=50r/s", "rate=1000000r/s"),
                  ("rate=2r/s", "rate=1000000r/s"), *ANY_CONNECTIONS]


def address_of(place):
    """What the site passes requests to: a port of loopback, or the path of a socket."""
    return f"http://127.0.0.1:{place}" if str(place).isdigit() else f"http://unix:{place}"


class Site:
    """nginx with the sample site, on a port of loopback: with a certificate of the moment, this text as the map of
    projects (None: no map), and the port or socket of a register for all others. `changes` are pairs: a text that the
    site has once, and what is there instead. The site's limits are left out but where `limits` is set."""

    def __init__(self, folder, projects, other, certificate, changes=(), workers=0, limits=False):
        self.folder, self.port, self.plain, self.certificate = folder, free_port(), free_port(), certificate
        os.makedirs(folder, exist_ok=True)
        if projects is not None:
            with open(os.path.join(folder, "projects.map"), "w", encoding="utf-8") as file:
                file.write(projects)
        self.configure(other, [*changes, *([] if limits else WITHOUT_LIMITS)], workers)
        self.process = subprocess.Popen(nginx_site.command(folder), stderr=subprocess.DEVNULL)
        wait_for(self.port)

    def configure(self, other, changes, workers):
        """Writes the site and nginx's own configuration, which includes it."""
        nginx_site.write(self.folder, [("/etc/groundreg/projects.ma[p]", f"{self.folder}/projects.ma[p]"),
                                       ("/etc/ssl/register.crt;", f"{self.certificate}.crt;"),
                                       ("/etc/ssl/register.key;", f"{self.certificate}.key;"),
                                       ("/etc/ssl/certs/ca-certificates.crt", f"{self.certificate}.crt"),
                                       ("listen 443 ssl;", f"listen 127.0.0.1:{self.port} ssl;"),
                                       *[(f"    listen [::]:{usual};\n",
                                          f"    listen [::1]:{here};\n" if has_ipv6() else "")
                                         for usual, here in (("443 ssl", f"{self.port} ssl"), ("80", self.plain))],
                                       ("listen 80;", f"listen 127.0.0.1:{self.plain};"),
                                       ("/var/log/nginx/groundreg.log", f"{self.folder}/log"),
                                       ("http://unix:/run/groundreg/empty/socket;", f"{address_of(other)};"), *changes],
                         workers)

    def connect(self, receives=None, source=None):
        """A connection by TLS, from this address of loopback if one is named."""
        context = ssl.create_default_context(cafile=f"{self.certificate}.crt")
        return context.wrap_socket(connection_to(self.port, PATIENCE, receives, source), server_hostname=NAME)

    def end(self):
        self.process.terminate()
        self.process.wait()


def wait_for(port):
    """Waits until somebody listens on the port."""
    deadline = time.monotonic() + PATIENCE
    while time.monotonic() < deadline:
        with socket.socket() as probe:
            if probe.connect_ex(("127.0.0.1", port)) == 0:
                return
        time.sleep(0.02)


def has_ipv6():
    """Whether this machine has ::1."""
    try:
        with socket.socket(socket.AF_INET6) as probe:
            probe.bind(("::1", 0))
            return True
    except OSError:
        return False


def lacking(*names):
    """The first of these programs that this machine lacks, if there is one."""
    return next((name for name in names if shutil.which(name) is None), None)
