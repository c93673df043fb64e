"""The page in a real browser, as one caller of a register that `serve` serves behind nginx: what its tests share."""
import os
import re
import signal
import socket
import subprocess
import sys
import time

sys.dont_write_bytecode = True
import browser  # noqa: E402
import machine  # noqa: E402
import servers  # noqa: E402

home = os.path.dirname(os.path.dirname(os.path.realpath(__file__)))
# The state of a socket that listens, and the address of loopback, as Linux has them.
LISTENS, LOOPBACK = "0A", "0100007F"
ROWS = """
return [...document.querySelectorAll(arguments[0] + ' .rows tbody:not(.space) tr')]
  .map((row) => [...row.cells].map((cell) => cell.textContent));"""
# Chooses in a list: what a click on its option does.
CHOOSE = """
const list = document.querySelector(arguments[0]);
list.selectedIndex = [...list.options].findIndex((option) => option.text.startsWith(arguments[1]));
list.dispatchEvent(new Event('change'));"""
# Waits until a deposit is asked about, or has an answer.
UNTIL_ASKED = """
return new Promise((resolve) => {
  const look = () => document.getElementById('question').open ? resolve('asked')
    : document.querySelector('#deposit-result *') || document.getElementById('fault').textContent ? resolve('answered')
    : setTimeout(look, 20);
  look();
});"""
# Draws nothing later than this: what is shown is whole.
UNTIL_DRAWN = """
return new Promise((resolve) => requestAnimationFrame(() => requestAnimationFrame(() => resolve(true))));"""


class Demo:
    """samples/demo, running, with temporary folders in a folder: its address."""

    def __init__(self, program, folder):
        self.folder = folder
        os.makedirs(folder)
        self.process = subprocess.Popen([os.path.join(home, "samples", "demo"), "--program", os.path.abspath(program)],
                                        stdin=subprocess.DEVNULL, stdout=subprocess.PIPE,
                                        env={**os.environ, "TMPDIR": folder})
        told = servers.printed_line(self.process, servers.PATIENCE).decode()
        self.address = told.removeprefix("The page: ").strip()

    def answers(self):
        """Whether somebody listens at its address."""
        with socket.socket() as probe:
            return probe.connect_ex(("127.0.0.1", int(self.address.strip("/").split(":")[-1]))) == 0

    def folders(self):
        return os.listdir(self.folder)

    def listening(self):
        """The addresses at which processes of this user listen on its port, as Linux has them."""
        port, found = f":{int(self.address.strip('/').split(':')[-1]):04X}", set()
        for name in ("tcp", "tcp6"):
            with open(f"/proc/net/{name}", encoding="ascii") as file:
                for _, local, _, state, *more in (line.split() for line in file.readlines()[1:]):
                    if local.endswith(port) and state == LISTENS:
                        found.add((local.partition(":")[0], int(more[3])))
        return found

    def end(self):
        """What it prints, and its status. It is ended as by Ctrl-C."""
        self.process.send_signal(signal.SIGINT)
        return self.process.communicate(timeout=servers.PATIENCE)[0].decode(), self.process.returncode


class Page:
    """The page in a browser, as one caller of a register that `serve` serves behind nginx."""

    def __init__(self, program, folder, pictures):
        self.place = servers.Place(program, folder, machine.WITHDRAWING)
        self.place.make()
        self.downloads, self.pictures, self.pictured = os.path.join(folder, "downloads"), pictures, 0
        os.makedirs(self.downloads)
        os.makedirs(pictures, exist_ok=True)
        self.server = self.place.serve(1000)
        self.site = servers.Site(os.path.join(folder, "site"), f"~^N1$ http://127.0.0.1:{self.server.port};\n",
                                 self.server.port, servers.certificate_in(folder),
                                 changes=[("/usr/share/groundreg/web", os.path.join(home, "web")),
                                          ("/run/groundreg-assist/socket", os.path.join(folder, "assist"))])
        self.browser = browser.Browser([servers.NAME], self.downloads)
        self.url = f"https://{servers.NAME}:{self.site.port}/"
        self.model, self.rules = machine.Register(), machine.read_policy(machine.WITHDRAWING)
        self.callers = machine.read_callers(machine.CALLERS)
        self.program, self.folder = program, folder
        self.demo = self.demonstration("demo")

    def demonstration(self, name):
        """A new one, in a folder of this name."""
        return Demo(self.program, os.path.join(self.folder, name))

    def check(self, name, want, got):
        self.place.check(name, want, got)
        if got != want:
            self.picture(f"failed: {name}")

    def picture(self, name):
        """Leaves a picture of the page as it is."""
        self.pictured += 1
        plain = re.sub("[^A-Za-z0-9_ -]", "_", name)
        self.browser.picture(os.path.join(self.pictures, f"{self.pictured:02} {plain}.png"))

    def file(self, name, data):
        self.place.put(name, data)
        return self.place.path(name)

    def enter(self, token, project="N1"):
        self.browser.type("#project", project)
        self.browser.type("#token", token)
        self.browser.click("#use")

    def downloaded(self, name):
        """The bytes of a saved file, once it is whole."""
        path, deadline = os.path.join(self.downloads, name), time.monotonic() + servers.PATIENCE
        while not os.path.exists(path) and time.monotonic() < deadline:
            time.sleep(0.05)
        time.sleep(0.2)
        with open(path, "rb") as file:
            data = file.read()
        os.remove(path)
        return data

    def table(self, selector):
        """The texts of a table's rows that are in sight."""
        return self.browser.run(ROWS, selector)

    def choose(self, selector, option):
        self.browser.run(CHOOSE, selector, option)

    def start_assist(self, path, *words):
        """bin/assist at a socket, once it listens, with the socket's folder for all that it may write."""
        folder = os.path.dirname(path)
        process = subprocess.Popen([os.path.join(home, "bin", "assist"), "--socket", path, *words], cwd=folder,
                                   stdin=subprocess.DEVNULL, stdout=subprocess.PIPE,
                                   env={**os.environ, "TMPDIR": folder})
        line = servers.printed_line(process, servers.PATIENCE).decode()
        self.check("bin/assist listens", f"listening {path}\n", line)
        return process

    def look(self, name, data):
        """Looks at a file, which is not sent."""
        b = self.browser
        b.click("#tab-look")
        b.run("document.getElementById('look-result').replaceChildren();")
        b.run("document.getElementById('look-file').value = '';")
        b.choose("#look-file", self.file(name, data))
        b.wait("#look-result .title")

    def view(self, name, place="#look-result"):
        """Chooses a view of what is shown there."""
        self.browser.click(f"{place} [data-view='{name}']")
        self.browser.run(UNTIL_DRAWN)

    def send(self, path, embargo=""):
        """Chooses a file and deposits it. What the page asks before that is agreed to, and returned."""
        b = self.browser
        b.choose("#deposit-file", path)
        b.type("#embargo", embargo)
        b.click("#deposit-send")
        return self.agree()

    def agree(self):
        """What is asked before a deposit, once it is answered by yes; nothing where nothing is asked."""
        b = self.browser
        if b.run(UNTIL_ASKED) != "asked":
            return []
        said = b.run("return [...document.querySelectorAll('#question-list li')].map((each) => each.textContent);")
        b.click("#question-yes")
        return said

    def end(self):
        self.browser.end()
        if self.demo.process.returncode is None:
            self.demo.end()
        self.site.end()
        self.server.stop()
