"""The page with the service bin/assist: findings by cause, a file fixed, a workbook; what the service refuses; and the
demonstration, of which nothing is left."""
import http.client
import http.server
import io
import json
import os
import re
import socket
import socketserver
import subprocess
import sys
import tempfile
import threading
import time
import zipfile

sys.dont_write_bytecode = True
import ground_file  # noqa: E402
import machine  # noqa: E402
import servers  # noqa: E402
from machine import LIMIT  # noqa: E402
from page_driver import LOOPBACK, home  # noqa: E402
from page_plan import TEXTS  # noqa: E402
from page_states import without_borehole  # noqa: E402

# A cell of a sheet: its place, and a text or a number.
CELL = r'<c r="([A-Z]+[0-9]+)"[^>]*>(?:<is><t[^>]*>([^<]*)</t></is>|<v>([^<]*)</v>)</c>'
# bin/assist with 200 MB of memory for an answer.
WITH_LITTLE_MEMORY = "import sys; from assisting import service; service.serve(sys.argv[1], None, 20, 200 << 20)"
NO_TABLES = ("its rows cannot be laid out: it has the finding 5 1 -. Fix these first: bin/fix FILE -o NEW --diff does "
             "what it can, and bin/explain says how")


def open_demo(page, token):
    b = page.browser
    b.go(page.demo.address)
    b.size(1280, 1000)
    page.enter(f"sample-token-{token}")


def of_causes(page):
    """Lines with LF alone are one cause; the file is offered fixed, and the fixed one is clean."""
    b = page.browser
    open_demo(page, "delta")
    data = ground_file.data()
    lines = data.count(b"\n")
    b.choose("#check-file", page.file("unix.ags", data.replace(b"\r\n", b"\n")))
    b.wait("#check-result .causes", lambda text: "1 cause." in text)
    page.check("one cause", [["1. Rule 2a, Line ends"], [f"{lines} findings, {lines} lines, from 1 to {lines}"]],
               [b.run(TEXTS, "#check-result .cause h3"), b.run(TEXTS, "#check-result .cause .hint:first-of-type")[:1]])
    b.wait("#check-result [data-act='fix']")
    b.click("#check-result [data-act='fix']")
    page.check("what was changed", True, b.wait("#check-result .fixed").startswith("1 change made. It has no findings"))
    b.click("#check-result [data-save='fixed']")
    page.check("the fixed file", data, page.downloaded("fixed-unix.ags"))
    page.check("the page is short", True, b.run("return document.documentElement.scrollHeight < 3000;"))


def of_parents(page):
    """The parent that is missing is named, with the row to write, which is copied as a line of the file."""
    b, data = page.browser, ground_file.data()
    open_demo(page, "delta")
    b.choose("#check-file", page.file("no_parent.ags", without_borehole(data)))
    b.wait("#check-result .causes", lambda text: "BH99" in text and "Fix in this order" in text)
    page.check("the parent that is missing is named", True,
               "no LOCA row has LOCA_ID=BH99." in b.text("#check-result .cause"))
    rows = [row for row in ground_file.rows_of(data, "LNMC") if row["LOCA_ID"] == "BH05"]
    keys = ("LOCA_ID", "SAMP_TOP", "SAMP_REF", "SAMP_TYPE", "SAMP_ID")
    empty = len(ground_file.groups_of(data)["LOCA"]["HEADING"]) - 1
    want = ['"DATA","BH99"' + ',""' * empty,
            *('"DATA",' + ",".join(f'"{row[key]}"' for key in keys) + ',""' for row in rows)]
    page.check("what to write", want, b.run(TEXTS, "#check-result .to-write"))
    b.run("const writeText = async (text) => { window.copied = text; };"
          "Object.defineProperty(navigator, 'clipboard', { value: { writeText } });")
    b.click("#check-result [data-act='copy-rows']")
    page.check("what is copied", ["1 row copied.", want[0] + "\r\n"],
               [b.wait("#status", lambda text: "copied" in text), b.run("return window.copied;")])


def of_other_rows(page):
    """A key that two rows have is shown with the line of the other row."""
    b, data = page.browser, ground_file.data()
    open_demo(page, "delta")
    lines = data.split(b"\r\n")
    strata = [at for at, line in enumerate(lines) if line.startswith(b'"DATA","BH01"') and b"TOPSOIL" in line]
    again = lines[strata[0]].replace(b"TOPSOIL", b"topsoil")
    twice = b"\r\n".join([*lines[:strata[0] + 1], again, *lines[strata[0] + 1:]])
    b.choose("#check-file", page.file("twice.ags", twice))
    b.wait("#check-result .causes", lambda text: "Fix in this order" in text)
    cause = b.text("#check-result .cause")
    page.check("both rows are named", [True, True],
               [f"line {strata[0] + 1}" in cause or f"lines {strata[0] + 1}" in cause, str(strata[0] + 2) in cause])


def of_workbook(page):
    """An extract is saved as a workbook: a sheet a group, numbers as numbers."""
    b = page.browser
    open_demo(page, "delta")
    b.click("#tab-deposits")
    b.click("#list")
    b.wait("#deposits-result .caption")
    b.click("[data-extract='1']")
    b.wait("#extract-result .title")
    page.view("Tables", "#extract-result")
    b.wait("#extract-result [data-save='xlsx']")
    b.click("#extract-result [data-save='xlsx']")
    with zipfile.ZipFile(io.BytesIO(page.downloaded("deposit-1.xlsx"))) as book:
        names = re.findall('<sheet name="([^"]*)"', book.read("xl/workbook.xml").decode())
        loca = book.read(f"xl/worksheets/sheet{names.index('LOCA') + 1}.xml").decode()
    groups = ground_file.groups_of(ground_file.data())
    page.check("a sheet a group", [], [name for name in groups if name not in names])
    cells = {place: text or number for place, text, number in re.findall(CELL, loca)}
    column = next(place[0] for place, text in cells.items() if text == "LOCA_NATE")
    page.check("headings, units and types", ["HEADING", "UNIT", "TYPE", "LOCA_NATE", "m", "2DP"],
               [cells[f"{letter}{row}"] for letter in ("A", column) for row in (1, 2, 3)])
    numbers = [float(number) for place, _, number in re.findall(CELL, loca) if place[0] == column and number]
    page.check("numbers are numbers", [float(row["LOCA_NATE"]) for row in groups["LOCA"]["rows"]], numbers)
    page.look("own.ags", ground_file.data())
    page.view("Tables")
    page.check("a file that is looked at is not sent", 0,
               b.run("return document.querySelectorAll('#look-result [data-save=xlsx]').length;"))


def asked(path, method, target, body=b"", length=None):
    """Status and JSON of an answer of the service at a socket."""
    connection = http.client.HTTPConnection("localhost")
    connection.sock = socket.socket(socket.AF_UNIX)
    connection.sock.settimeout(120)
    connection.sock.connect(path)
    connection.putrequest(method, target)
    if length is not None:
        connection.putheader("Content-Length", length)
    connection.endheaders(body or None)
    answer = connection.getresponse()
    told = json.loads(answer.read())
    connection.close()
    return answer.status, told


def of_refusals(page):
    """What the service refuses is named; an answer that takes too long is given up, and it answers on."""
    with tempfile.TemporaryDirectory() as folder:
        path = os.path.join(folder, "socket")
        process = page.start_assist(path, "--seconds", "3")
        try:
            for name, words, want in (
                    ("what it answers", ("GET", "/assist/"), (200, {"answers": ["explain", "fix", "tables"]})),
                    ("no such answer", ("POST", "/assist/nothing", b"x", "1"), (404, {"error": "no route"})),
                    ("no length", ("POST", "/assist/explain"), (411, {"error": "length required"})),
                    ("too large", ("POST", "/assist/explain", b"", str(LIMIT + 1)), (413, {"error": "too large"})),
                    ("too long", ("POST", "/assist/explain", b'"DATA","x"\n' * 1_000_000, "11000000"),
                     (503, {"error": "too long"})),
                    ("no tables", ("POST", "/assist/tables", b"x\r\n", "3"), (422, {"error": NO_TABLES}))):
                page.check(name, want, asked(path, *words))
            page.check("it answers on", 200, asked(path, "GET", "/assist/")[0])
            page.check("it holds nothing once it has answered", ["", ["socket"]],
                       [children_once_ended(process.pid), os.listdir(folder)])
        finally:
            process.terminate()
            process.wait()
        page.check("its socket is removed", False, os.path.exists(path))
        of_memory(page, path)


def children_once_ended(process):
    """The processes that a process has started, once there are none, or what they are when the patience is over."""
    deadline = time.monotonic() + servers.PATIENCE
    while True:
        with open(f"/proc/{process}/task/{process}/children", encoding="ascii") as file:
            found = file.read()
        if not found or time.monotonic() > deadline:
            return found
        time.sleep(0.1)


class Listener(http.server.BaseHTTPRequestHandler):
    """Instead of the service: what it is sent is kept, and it has no answer."""
    heard = []

    def do_GET(self):  # noqa: N802
        self.reply(200, b'{"answers": ["explain"]}')

    def do_POST(self):  # noqa: N802
        self.heard.append((self.path, dict(self.headers), self.rfile.read(int(self.headers["Content-Length"]))))
        self.reply(503, b"{}")

    def reply(self, status, data):
        self.send_response(status)
        self.send_header("Content-Length", str(len(data)))
        self.end_headers()
        self.wfile.write(data)

    def log_message(self, *_):
        """Nothing is printed."""

    def address_string(self):
        return "-"


def of_what_is_sent(page):
    """The service is sent the file, and no token: nginx passes no field but the length."""
    b, data = page.browser, machine.FILE_A.replace(b"\r\n", b"\n")
    with socketserver.UnixStreamServer(os.path.join(page.folder, "assist"), Listener) as listener:
        threading.Thread(target=listener.serve_forever, daemon=True).start()
        b.go(page.url)
        page.enter("t-delta")
        b.choose("#check-file", page.file("lines.ags", data))
        b.wait("#check-result .causes", lambda text: "2a" in text)
        deadline = time.monotonic() + servers.PATIENCE
        while not Listener.heard and time.monotonic() < deadline:
            time.sleep(0.1)
        listener.shutdown()
    (path, fields, body), *more = Listener.heard
    page.check("what the service is sent", ["/assist/explain", data, [], ["Connection", "Content-Length", "Host"]],
               [path, body, more, sorted(fields)])
    page.check("without its answer there are the rules", ["2a"],
               b.run("return [...document.querySelectorAll('#check-result .cause')].map((c) => c.dataset.code);"))


def of_memory(page, path):
    """An answer that takes more memory than it may is given up, and the service answers on."""
    process = subprocess.Popen([sys.executable, "-c", WITH_LITTLE_MEMORY, path], stdin=subprocess.DEVNULL,
                               stdout=subprocess.PIPE, cwd=os.path.join(home, "tools"))
    try:
        page.check("a service with little memory", f"listening {path}\n",
                   servers.printed_line(process, servers.PATIENCE).decode())
        data = b'"DATA","x"\r\n' * 1_000_000
        status, told = asked(path, "POST", "/assist/explain", data, str(len(data)))
        # Python out of memory ends, or runs on until its time is over.
        page.check("out of memory", [503, True], [status, told["error"] in ("out of memory", "too long")])
        page.check("with little memory it answers on", 200, asked(path, "GET", "/assist/")[0])
        page.check("with little memory nothing of it is left", "", children_once_ended(process.pid))
    finally:
        process.terminate()
        process.wait()


def of_demo(page):
    """The demonstration listens on loopback, as the caller's own user. It prints the address and three tokens, and
    Ctrl-C leaves nothing."""
    b = page.browser
    b.go("about:blank")
    page.check("it listens on loopback alone, as this user", {(LOOPBACK, os.getuid())}, page.demo.listening())
    told, status = page.demo.end()
    page.check("what it prints", ["sample-token-delta", "sample-token-echo", "sample-token-harbour", 0],
               [line.split()[0] for line in told.splitlines() if line.startswith("  ")] + [status])
    page.check("nothing of it is left", [False, []], [page.demo.answers(), page.demo.folders()])
    b.go(page.url)


STEPS = (of_causes, of_parents, of_other_rows, of_workbook, of_what_is_sent, of_refusals, of_demo)
