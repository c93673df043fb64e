"""The command lines of README.md, run as they are there, in their order.

A block that begins with ```console has them: a line `$ COMMAND`, and below it what the command prints. A line `$
NAME=VALUE` is kept for the lines after it. A command that ends with `&` goes on beside those after it; what it prints
meanwhile is below what the next command itself prints."""
import os
import re
import select
import shutil
import socket
import subprocess
import time

PATIENCE = 30
PORT = "8017"


def blocks(text):
    """(command, the lines that it prints) of each command in a document."""
    out = []
    for block in re.findall(r"^```console\n(.*?)^```$", text, re.DOTALL | re.MULTILINE):
        for line in block.splitlines():
            if line.startswith("$ "):
                out.append((line[2:], []))
            else:
                out[-1][1].append(line)
    return out


def is_there(command):
    """Whether this machine has the program that a command starts; curl and sqlite3 it may lack."""
    return command.split()[0] not in ("curl", "sqlite3") or shutil.which(command.split()[0]) is not None


class Session:
    """A folder in which the lines run, and the one program that goes on beside them."""

    def __init__(self, folder):
        self.folder, self.port, self.kept, self.beside = folder, port_for(), "", None

    def printed_beside(self, count):
        """So many further lines of the program that goes on beside, or what comes of them in time."""
        out, deadline = b"", time.monotonic() + PATIENCE
        while self.beside and out.count(b"\n") < count:
            if not select.select([self.beside.stdout], [], [], max(0, deadline - time.monotonic()))[0]:
                break
            piece = os.read(self.beside.stdout.fileno(), 1)
            if not piece:
                break
            out += piece
        return as_lines(out)

    def run(self, command, wanted):
        """The lines that a command prints, and after them those of the program beside that are wanted."""
        command = command.replace(PORT, self.port)
        if re.match(r"[A-Z]+=", command):
            self.kept += command + "\n"
            return []
        start = {"cwd": self.folder, "stdout": subprocess.PIPE, "stderr": subprocess.STDOUT}
        if command.endswith("&"):
            self.beside = subprocess.Popen(["bash", "-c", self.kept + "exec " + command.removesuffix("&")],
                                           stdin=subprocess.DEVNULL, **start)
            return self.printed_beside(len(wanted))
        run = subprocess.run(["bash", "-c", self.kept + command], stdin=subprocess.DEVNULL, timeout=PATIENCE, **start)
        own = as_lines(run.stdout)
        return own + self.printed_beside(len(wanted) - len(own))

    def end(self):
        """What the program beside prints until it ends by itself."""
        rest = self.printed_beside(1000)
        if self.beside:
            self.beside.kill()
            self.beside.wait()
        return rest


def port_for():
    """The port that the lines name, or another where somebody listens on it."""
    with socket.socket() as probe:
        probe.setsockopt(socket.SOL_SOCKET, socket.SO_REUSEADDR, 1)
        try:
            probe.bind(("127.0.0.1", int(PORT)))
        except OSError:
            probe.bind(("127.0.0.1", 0))
        return str(probe.getsockname()[1])


def as_lines(data):
    return data.decode("latin-1").replace("\r\n", "\n").splitlines()


def answers(text, folder):
    """(command, what the document says that it prints, what it prints) of each command; None where the machine lacks
    its program."""
    session = Session(folder)
    for command, wanted in blocks(text):
        if not is_there(command):
            yield command, wanted, None
        else:
            yield command, [line.replace(PORT, session.port) for line in wanted], session.run(command, wanted)
    yield "(after the last line)", [], session.end()
