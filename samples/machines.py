"""Machines of an office in folders, as the user who starts them, where no systemd runs: for samples/two_machines, and for
tests. A machine has what samples/project makes, what the units start, and the sample site of nginx."""
import contextlib
import ctypes
import os
import re
import shlex
import signal
import subprocess
import time

import nginx_site

here = os.path.dirname(os.path.abspath(__file__))
BUILT = "/opt/groundreg/current/lib/groundreg"
TOOLS = "/opt/groundreg/current/bin"
PATIENCE = 120
NETWORK, MOUNTS = 0x40000000, 0x00020000


def leave(kind):
    """Leaves the machine's network or its mounts for one's own, which end with this process; OSError where that is not
    permitted. It has to be called before any thread is started."""
    libc = ctypes.CDLL(None, use_errno=True)
    if libc.unshare(kind):
        number = ctypes.get_errno()
        raise OSError(number, os.strerror(number))


def read(path):
    with open(path, encoding="utf-8") as file:
        return file.read()


def write(path, text):
    os.makedirs(os.path.dirname(path), exist_ok=True)
    with open(path, "w", encoding="utf-8") as file:
        file.write(text)


def new_file(path):
    """An empty file, to which a process appends what it prints while it is read here."""
    with contextlib.suppress(FileNotFoundError):
        os.remove(path)
    return open(path, "a+b")


def wait_for_line(process, file):
    """Waits until a process has written its first line, that it listens, to this file."""
    deadline = time.monotonic() + PATIENCE
    while time.monotonic() < deadline and process.poll() is None:
        file.seek(0)
        if file.readline().endswith(b"\n"):
            return
        time.sleep(0.02)
    raise OSError(f"{process.args} does not listen (status {process.poll()})")


class Machine:
    """A machine: its folder, and what runs there. `under` are the arguments of a command that starts another one there,
    as `ip netns exec NAME`. A project without a name is the one register of groundreg.service."""

    def __init__(self, program, folder, policy, callers, under=()):
        self.program, self.root, self.under, self.processes = program, folder, list(under), []
        self.etc, self.site = os.path.join(folder, "etc", "groundreg"), os.path.join(folder, "site")
        dictionary = read(os.path.join(here, "mini.ags"))
        for name, text in (("dictionary.ags", dictionary), ("callers.toml", callers), ("policy.toml", policy)):
            write(os.path.join(self.etc, name), text)

    def make(self, name):
        """What `samples/project` answers."""
        run = subprocess.run([os.path.join(here, "project"), name, "--root", self.root, "--program", self.program],
                             capture_output=True)
        return run.returncode, run.stderr

    def text(self, name):
        return read(os.path.join(self.etc, name))

    def store(self, name):
        """The file of a project's register."""
        return os.path.join(self.root, "var", "lib", "groundreg", name, "register" if name else "site.register")

    def socket(self, name):
        """Where the register of a project listens."""
        return os.path.join(self.root, "run", "groundreg", name, "socket")

    def log(self, name):
        """The log of a project's register."""
        return os.path.join(self.root, "var", "log", "groundreg", name, "requests.log")

    def map(self):
        """The map of projects, with the sockets below this machine's folder."""
        return self.text("projects.map").replace("/run/", f"{self.root}/run/")

    def put_map(self):
        """Takes the map over into the site, which reads it when it is reloaded."""
        write(os.path.join(self.site, "projects.map"), self.map())

    def command(self, name, key="ExecStart"):
        """What the unit starts, or does by another key, below this machine's folder."""
        unit = read(os.path.join(here, "systemd", f"groundreg{'@' if name else ''}.service")).replace("\\\n", "")
        settings = dict(line.split("=", 1) for line in self.text(f"{name}.conf").splitlines()) if name else {}
        here_is = {BUILT: self.program, TOOLS: os.path.join(here, "..", "bin"), "/etc/groundreg": self.etc,
                   "/run/": f"{self.root}/run/", "/var/log/": f"{self.root}/var/log/", "%i": name,
                   "${STORE}": settings.get("STORE")}
        line, known = re.search(rf"^{key}=(.*)$", unit, re.M)[1], "|".join(map(re.escape, here_is))
        assert not re.search("/(?:opt|etc|run|var)/", re.sub(known, "", line)), line
        return shlex.split(re.sub(known, lambda match: here_is[match[0]], line))

    def start(self, command, **more):
        # In a session of its own, so that all that it starts can be ended with it.
        process = subprocess.Popen([*self.under, *command], stdin=subprocess.DEVNULL, start_new_session=True, **more)
        self.processes.append(process)
        return process

    def serve(self, name):
        """Starts what the unit starts, with the folders that systemd makes, and waits until it listens. What it prints
        goes to a file."""
        for path in (self.socket(name), self.log(name)):
            os.makedirs(os.path.dirname(path), exist_ok=True)
        with new_file(os.path.join(self.root, f"printed.{name}")) as printed:
            process = self.start(self.command(name), cwd=os.path.dirname(self.store(name)), stdout=printed, umask=0o077)
            wait_for_line(process, printed)
        return process

    def reload(self, name):
        """What the unit does at `systemctl reload`: what is printed, and the status."""
        run = subprocess.run([*self.under, *self.command(name, "ExecReload")], cwd=os.path.dirname(self.store(name)),
                             stdout=subprocess.PIPE, stderr=subprocess.STDOUT, text=True, umask=0o077)
        return run.stdout, run.returncode

    def demand(self, name, idle="10min"):
        """What stands for groundreg-demand@NAME.socket and its service: the register starts at its first request, and is
        stopped once nobody has asked for so long."""
        unit = read(os.path.join(here, "systemd", "groundreg-demand@.service"))
        waits, passes_on = (re.search(rf"^{key}=(.*)$", unit, re.M)[1] for key in ("ExecStartPre", "ExecStart"))
        waits = re.fullmatch(r"/bin/sh -c '(.*)'", waits)[1]
        text = (f"{shlex.join(self.command(name))} > /dev/null & register=$!\n"
                f"(while kill -0 $$ 2> /dev/null; do sleep 0.2; done; kill $register) &\n"
                f"{waits}\nexec {passes_on}".replace("--exit-idle-time=10min", f"--exit-idle-time={idle}"))
        text = text.replace("/run/groundreg/%i/socket", self.socket(name))
        for path in (self.socket(name), self.log(name), self.demanded(name)):
            os.makedirs(os.path.dirname(path), exist_ok=True)
            if path != self.log(name) and os.path.exists(path):
                os.remove(path)  # as systemd removes it with the unit's folder
        with new_file(os.path.join(self.root, f"said.{name}")) as said:
            process = self.start(["systemd-socket-activate", "-l", self.demanded(name), "/bin/sh", "-c", text],
                                 cwd=os.path.dirname(self.store(name)), stderr=said, umask=0o077)
            wait_for_line(process, said)
        return process

    def demanded(self, name):
        """The socket of a register that starts at its first request."""
        return os.path.join(self.root, "run", "groundreg-demand", name)

    def open_site(self, changes, workers=0):
        """Starts the sample site with these changes of its text, and with the paths below this machine's folder."""
        os.makedirs(self.site, exist_ok=True)
        self.put_map()
        paths = [("/etc/groundreg/projects.ma[p]", f"{self.site}/projects.ma[p]"),
                 ("/etc/groundreg/machines.ma[p]", f"{self.etc}/machines.ma[p]"),
                 ("/var/log/nginx/groundreg.log", f"{self.site}/log"),
                 ("http://unix:/run/groundreg/empty/socket;", f"http://unix:{self.socket('empty')};")]
        nginx_site.write(self.site, [*paths, *changes], workers)
        return self.start(nginx_site.command(self.site))

    def stop(self, process):
        """Ends a process as systemd ends a unit."""
        process.terminate()
        process.wait()
        self.processes.remove(process)

    def end(self):
        """Ends all processes at once, as where the power fails."""
        for process in self.processes:
            with contextlib.suppress(ProcessLookupError):
                os.killpg(process.pid, signal.SIGKILL)
        for process in self.processes:
            process.wait()
        self.processes.clear()
