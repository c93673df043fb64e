"""A headless Chromium, driven by the WebDriver protocol through Debian's chromedriver."""
import base64
import json
import subprocess
import sys
import tempfile
import time
import urllib.error
import urllib.request
sys.dont_write_bytecode = True
import servers  # noqa: E402

PATIENCE = 120
ELEMENT = "element-6066-11e4-a52e-4f735466cecf"
KEYS = {"left": "\ue012", "up": "\ue013", "right": "\ue014", "down": "\ue015", "tab": "\ue004", "enter": "\ue007",
        "escape": "\ue00c"}


class Failed(Exception):
    """An answer of the browser that is an error."""


class Browser:
    """One window of a new profile. `hosts` are names that lead to 127.0.0.1."""

    def __init__(self, hosts, downloads):
        self.port, self.profile = servers.free_port(), tempfile.TemporaryDirectory(prefix="browser")
        self.driver = subprocess.Popen(["chromedriver", f"--port={self.port}"], stdout=subprocess.DEVNULL,
                                       stderr=subprocess.DEVNULL)
        words = ["--headless=new", "--no-sandbox", "--disable-gpu", "--disable-dev-shm-usage",
                 "--ignore-certificate-errors", f"--user-data-dir={self.profile.name}", "--window-size=1920,1080",
                 "--host-resolver-rules=" + ",".join(f"MAP {host} 127.0.0.1" for host in hosts),
                 "--disable-background-networking", "--no-first-run"]
        wanted = {"browserName": "chrome", "acceptInsecureCerts": True,
                  "goog:chromeOptions": {"args": words, "prefs": {"download.default_directory": downloads}},
                  "goog:loggingPrefs": {"browser": "ALL"}}
        self.session = ""
        deadline = time.monotonic() + PATIENCE
        while not self.session:
            try:
                self.session = "/session/" + self.ask("POST", "/session",
                                                      {"capabilities": {"alwaysMatch": wanted}})["sessionId"]
            except (OSError, Failed):
                if time.monotonic() > deadline:
                    raise
                time.sleep(0.1)
        self.ask("POST", "/timeouts", {"script": PATIENCE * 1000, "pageLoad": PATIENCE * 1000})

    def ask(self, method, path, value=None):
        data = None if value is None else json.dumps(value).encode()
        request = urllib.request.Request(f"http://127.0.0.1:{self.port}{self.session}{path}", data,
                                         {"Content-Type": "application/json"}, method=method)
        try:
            with urllib.request.urlopen(request, timeout=PATIENCE * 2) as answer:
                return json.load(answer)["value"]
        except urllib.error.HTTPError as error:
            raise Failed(json.load(error)["value"]["message"]) from None

    def go(self, url):
        self.ask("POST", "/url", {"url": url})

    def size(self, width, height):
        self.ask("POST", "/window/rect", {"width": width, "height": height})

    def run(self, script, *values):
        """What a script's `return` gives."""
        return self.ask("POST", "/execute/sync", {"script": script, "args": list(values)})

    def find(self, selector):
        return self.ask("POST", "/element", {"using": "css selector", "value": selector})[ELEMENT]

    def click(self, selector):
        self.ask("POST", f"/element/{self.find(selector)}/click", {})

    def type(self, selector, text):
        element = self.find(selector)
        self.ask("POST", f"/element/{element}/clear", {})
        self.ask("POST", f"/element/{element}/value", {"text": text})

    def choose(self, selector, path):
        """Chooses a file in an input for files."""
        self.ask("POST", f"/element/{self.find(selector)}/value", {"text": path})

    def press(self, *keys):
        """Presses keys where the focus is."""
        actions = [{"type": kind, "value": KEYS.get(key, key)} for key in keys for kind in ("keyDown", "keyUp")]
        self.ask("POST", "/actions", {"actions": [{"type": "key", "id": "keys", "actions": actions}]})

    def command(self, name, **values):
        """What a command of the browser's own protocol for tools answers."""
        return self.ask("POST", "/goog/cdp/execute", {"cmd": name, "params": values})

    def seconds_of(self, act):
        """The processor time that the page's own thread takes for something, whatever else the machine does."""
        def taken():
            metrics = self.command("Performance.getMetrics")["metrics"]
            return next(each["value"] for each in metrics if each["name"] == "TaskDuration")
        self.command("Performance.enable", timeDomain="threadTicks")
        begun = taken()
        act()
        return taken() - begun

    def pdf(self):
        """What the page prints, on the paper that its styles name."""
        return base64.b64decode(self.command("Page.printToPDF", printBackground=True, preferCSSPageSize=True)["data"])

    def address(self):
        return self.ask("GET", "/url")

    def text(self, selector):
        """The text that is seen of an element; nothing where there is none."""
        return self.run("return document.querySelector(arguments[0])?.innerText ?? '';", selector)

    def wait(self, selector, holds=bool):
        """The text of an element once it holds, or what it is when the patience is over."""
        deadline = time.monotonic() + PATIENCE
        while not holds(text := self.text(selector)) and time.monotonic() < deadline:
            time.sleep(0.05)
        return text

    @staticmethod
    def until(want, measured):
        """What is measured once it is `want`, or when the patience is over: the page hears of a mouse or finger later."""
        deadline = time.monotonic() + PATIENCE
        while (found := measured()) != want and time.monotonic() < deadline:
            time.sleep(0.05)
        return found

    def errors(self):
        """What the console has of errors, without those of replies that are no success."""
        return [line["message"] for line in self.ask("POST", "/se/log", {"type": "browser"})
                if line["level"] == "SEVERE" and "the server responded with a status" not in line["message"]]

    def picture(self, path, place=None):
        """Leaves a picture of the window, or of a place of the page, at a path."""
        data = self.command("Page.captureScreenshot", clip=place, captureBeyondViewport=True)["data"] if place \
            else self.ask("GET", "/screenshot")
        with open(path, "wb") as file:
            file.write(base64.b64decode(data))

    def end(self):
        try:
            self.ask("DELETE", "")
        except (OSError, Failed):
            pass
        self.driver.terminate()
        self.driver.wait()
        try:
            self.profile.cleanup()
        except OSError:
            pass  # a process of the browser wrote once more
