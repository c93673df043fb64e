"""The service over HTTP, at a Unix socket. Each request is answered by a process of its own, which ends with it: it has
the file while it answers. The answer is computed by a second process, which is ended when its time is over: Python out
of memory may run on without an end."""
import gc
import http.server
import json
import os
import resource
import select
import signal
import socketserver
import time

import ags
from . import answers

# As serve has them: seconds that a peer may be silent, bytes of a file, bytes of memory.
PATIENCE, MEMORY = 30, 4 << 30
SECONDS, AT_ONCE = 60, 2
# How a process ends that has no answer.
FAILED, NO_MEMORY = 1, 2


class TooLong(Exception):
    """The answer takes longer than it may."""


def too_long(*_):
    raise TooLong


def computed(answer, data, dictionary, place):
    """In a process that ends here: writes status and kind as a line, and the answer below it."""
    ended = FAILED
    try:
        try:
            status, (kind, out) = 200, answer(data, dictionary)
        except answers.REFUSALS as refusal:
            status, kind, out = 422, answers.JSON, json.dumps({"error": str(refusal)}).encode()
        with open(place, "wb") as pipe:
            pipe.write(f"{status} {kind}\n".encode() + out)
        ended = 0
    except MemoryError:
        ended = NO_MEMORY
    finally:
        os._exit(ended)


def read_until(place, deadline):
    """What comes from a pipe until it is closed."""
    out = bytearray()
    while select.select([place], [], [], max(0, deadline - time.monotonic()))[0]:
        piece = os.read(place, 1 << 20)
        if not piece:
            return bytes(out)
        out += piece
    raise TooLong


def apart(answer, data, dictionary, seconds):
    """What another process computes in so many seconds, and how it ended. It is ended in any case."""
    given, place = os.pipe()
    process = os.fork()
    if process == 0:
        signal.signal(signal.SIGALRM, signal.SIG_IGN)
        os.close(given)
        computed(answer, data, dictionary, place)
    os.close(place)
    try:
        out = read_until(given, time.monotonic() + seconds)
        return out, os.waitstatus_to_exitcode(os.waitpid(process, 0)[1])
    except TooLong:
        os.kill(process, signal.SIGKILL)
        os.waitpid(process, 0)
        raise
    finally:
        os.close(given)


class Handler(http.server.BaseHTTPRequestHandler):
    """POST /assist/NAME with a file as its body; GET /assist/ says which names there are."""
    timeout = PATIENCE
    server_version, sys_version = "assist", ""

    def reply(self, status, kind, data):
        self.send_response(status)
        for name, value in (("Content-Type", kind), ("Content-Length", str(len(data))), ("Cache-Control", "no-store")):
            self.send_header(name, value)
        self.end_headers()
        self.wfile.write(data)

    def error(self, status, text):
        self.reply(status, answers.JSON, json.dumps({"error": text}).encode())

    def do_GET(self):  # noqa: N802
        if self.path != "/assist/":
            return self.error(404, "no route")
        return self.reply(200, answers.JSON, json.dumps({"answers": list(answers.OFFERED)}).encode())

    def do_POST(self):  # noqa: N802
        answer = answers.OFFERED.get(self.path.removeprefix("/assist/"))
        length = self.headers.get("Content-Length", "")
        if answer is None:
            return self.error(404, "no route")
        if not length.isdigit():
            return self.error(411, "length required")
        if int(length) > ags.LIMIT:
            return self.error(413, "too large")
        data = self.rfile.read(int(length))
        if len(data) < int(length):
            return self.error(400, "short body")
        return self.answered(answer, data)

    def answered(self, answer, data):
        try:
            told, ended = apart(answer, data, self.server.dictionary, self.server.seconds)
        except TooLong:
            return self.error(503, "too long")
        if ended:
            return self.error(500, "failed") if ended == FAILED else self.error(503, "out of memory")
        head, _, out = told.partition(b"\n")
        status, kind = head.decode().split(" ", 1)
        return self.reply(int(status), kind, out)

    def log_message(self, *_):
        """Nothing is kept, who asked what neither."""

    def address_string(self):
        return "-"


class Server(socketserver.ForkingMixIn, socketserver.UnixStreamServer):
    """At most so many requests are answered at once; others wait."""
    max_children = AT_ONCE
    request_queue_size = 64

    def __init__(self, path, dictionary, seconds, memory):
        self.dictionary, self.seconds, self.memory = dictionary, seconds, memory
        super().__init__(path, Handler)

    def finish_request(self, request, client_address):
        """In the process of the request."""
        resource.setrlimit(resource.RLIMIT_AS, (self.memory, self.memory))
        signal.signal(signal.SIGALRM, too_long)
        signal.alarm(self.seconds + PATIENCE)
        gc.disable()
        try:
            super().finish_request(request, client_address)
        except (TooLong, OSError):
            pass  # the peer is slow, or gone

    def handle_error(self, request, client_address):
        """A fault of one request ends that one alone."""


def serve(path, dictionary=None, seconds=SECONDS, memory=MEMORY):
    """Answers at a socket of this path, until SIGTERM or Ctrl-C. Who may connect is decided by the umask."""
    if os.path.exists(path):
        os.remove(path)
    with Server(path, dictionary, seconds, memory) as server:
        signal.signal(signal.SIGTERM, signal.default_int_handler)
        print(f"listening {path}", flush=True)
        try:
            server.serve_forever()
        except KeyboardInterrupt:
            os.remove(path)
