#!/usr/bin/env python3
"""Hostile input: files, policies, callers, dictionaries, heads and bodies of requests, changed at random, and what the
program and the second implementation (machine.py, the model) answer to each.

usage: hostile.py PROGRAM [COUNT [SEED [KIND[:FIRST]..]]]     the last line is 'N passed, M failed'

Of each KIND (file, policy, callers, dictionary, head, body; all where none is named) COUNT texts are made of sound
ones: bytes changed, put in, taken out, cut off or doubled, words and lines of the format exchanged, up to eight times.
Each file, policy, callers and dictionary is one start of the program by command line; heads and bodies are connections
to `serve`, fifty to a start, and each is one turn. Statuses, standard output, standard error and each byte of a reply
are compared. A start that ends by a signal, 101, 134 or 139, or not within a minute, is said to be one. A seed gives
the same turns each time; `hostile.py PROGRAM 1 SEED policy:17` does turn 17 alone. What was answered is counted, so
that a reader sees what the changes reach.

A policy or callers that the program takes and Python's tomllib does not is tried on the model once more, spelled in
TOML 1.0 (`older_toml`): the program reads TOML 1.1."""
import collections
import os
import random
import re
import shutil
import subprocess
import sys
import tempfile
import time
sys.dont_write_bytecode = True
import bodies  # noqa: E402
import compare  # noqa: E402
import machine  # noqa: E402
import servers  # noqa: E402
import stories  # noqa: E402

A_START = 50
CRASHES = {101, 134, 139}
DAYS = ["2024-05-31", "2024-06-01", "2024-06-02"]
TOKENS = re.compile(rb'"[^"\r\n]*"|[A-Za-z0-9_.%-]+')
# A text between quotes, a comment or one character of TOML.
PIECE = re.compile(r'"""(?:[^"\\]|\\.|"(?!""))*"{3,5}|\'\'\'.*?\'{3,5}|"(?:[^"\\\n]|\\.)*"|\'[^\'\n]*\''
                   r"|#[^\n]*|.", re.S)
ODD_BYTES = b'\x00\x01\t\n\r "\'\\,:;=[]{}#/?&%+-_|0aA~\x7f\x80\xbf\xc3\xff'

TOML_WORDS = rb"""rule caller number effect firm role project verb group owner embargo heading value from until token
"permit" "deny" "*" "see" "list" "extract" "check"
"deposit" "withdraw" "own" "other" "past" "running" "Delta" "Echo" "LOCA" "SAMP" "LOCA_STAT" "PRELIM" "S1" "N1"
"contractor" "consultant" "2024-05-31" "2024-06-01" "2024-06-02" "2024-02-30" "9999-12-31" "t-delta" "t-echo" '' '''
[[rule]] [rule]
[[caller]] [rule.x] [[rule.x]] [[ ]] [ ] { } {} = , . # 1 0 -1 9999 10000 0x10 0o17 0b1 1_0 +7 007 1e3 1.5 inf nan true
false 2024-06-01 2024-06-01T10:00:00Z 10:00:00
9223372036854775807 9223372036854775808 "\u0041" "\U00110000" "\ud800" "\x41" "\e" "\q" \" rule.x "rule"
'number' """.split() + [b'"""', b'"a\tb"', b"\r\n", b"\n", b"\xef\xbb\xbf", b'"' + b"x" * 33 + b'"', b" = "]
AGS_WORDS = [*compare.WORDS, *rb"""GROUP HEADING UNIT TYPE DATA PROJ TRAN ABBR DICT FILE LNMC "KEY+REQUIRED" "REQUIRED"
"OTHER" "DICT_TYPE" "DICT_GRP" "DICT_HDNG" "DICT_STAT" "DICT_PGRP" "PROJ_ID"
"TRAN_DLIM" "TRAN_RCON" "UNIT_UNIT" "TYPE_TYPE" "ABBR_HDNG" "SPEC_DPTH" "0DP" "9SF" "2SCI" "MC" "YN" "DMS" "DT" "T" "U"
"XN" "PT" "PU" "yyyy-mm-dd" "yyyy-mm-ddThh:mm" "hh:mm"
"2024-02-30" "24:00" "1.5E+3" "-0.00" "+" "|" "PROJ|P7" "-" "F1" "a""b" """.split(),
             b" , ", b"\r\n\r\n", b"\n", b"\r", b"\xef\xbb\xbf", b'"",""', b'"DATA","BH1"']
HEAD_WORDS = rb"""GET POST PUT HEAD DELETE HTTP/1.1 HTTP/1.0 HTTP/1.2 HTTP/2 HTTP/1.1x /v1/projects/N1/check
/v1/projects/N1/deposits /v1/projects/N1/deposits/1 /v1/projects//deposits
/v1/projects/N1/deposits/ ?groups=LOCA ?groups= ?groups ?embargo=2024-06-01 ?embargo= & ? % %2C %67 %zz %00 %ff # * //
Host: Authorization: authorization: AUTHORIZATION: Bearer bearer Basic
t-delta t-echo t-gamma Content-Length: content-length: Transfer-Encoding: chunked 0 00 007 543 9999999999 99999999999
18446744073709551616 -1 +1 1e3 0x1f N1 N2 -_
Expect: 100-continue X: :""".split() + [
    b"\r\n", b"\n", b"\r", b"\r\n\r\n", b"\n\n", b" ", b"\t", b"\r\n ", b"\r\nX: " + b"y" * 200,
    b"\r\nAuthorization: Bearer t-delta", b"\r\nContent-Length: 0", *(b"%d" % (machine.LIMIT + n) for n in (0, 1))]
POLICIES = [
    'rule = [{number = 1, effect = "permit"}, {number = 2, effect = "deny", verb = "see", group = "LOCA"}]\n',
    "rule = []\n",
    "[[rule]]\nnumber = 0x1F\neffect = 'permit'\n[[\"rule\"]]\nnumber = 1_000\n'effect' = \"\"\"deny\"\"\"\n",
    'rule = [\n  {number = +5, effect = "\\u0070ermit", firm = "*"}, # one\n'
    '  {number = 0b111, effect = \'\'\'deny\'\'\', heading = "LOCA_STAT", value = "a\\tb\\"c"},\n]\n',
    '# all\r\n[[rule]]\r\nnumber=1\r\neffect="permit"\r\nverb="list"\r\n\r\n'
    '[[rule]]\r\nnumber=3\r\neffect="permit"\r\nowner="own"\r\nembargo="*"\r\n']


# ---- changes

def one_change(chance, data, words):
    """A text with a byte, a piece, a word or a line of it changed."""
    at = chance.randrange(len(data) + 1)
    end = min(len(data), at + chance.choice((1, 1, 2, 4, 20, 100)))
    kind = chance.randrange(21)
    if kind < 3:
        byte = chance.choice(ODD_BYTES) if chance.random() < 0.7 else chance.randrange(256)
        return data[:at] + bytes([byte]) + data[at + kind % 2:]
    if kind < 5:
        return data[:at] + data[end:]
    if kind < 7:
        return data[:end] + data[at:end] + data[end:]
    if kind == 7:
        return data[:at]
    if kind < 10:
        return data[:at] + chance.choice(words) + data[at:]
    if kind < 18:
        found = list(TOKENS.finditer(data))
        if not found:
            return data
        place, other = chance.choice(found), chance.choice(found)
        if kind == 17:
            return data[:place.start()] + other[0] + data[place.end():]
        return data[:place.start()] + (chance.choice(words) if kind < 16 else b"") + data[place.end():]
    lines = data.split(b"\n")
    at, other = chance.randrange(len(lines)), chance.randrange(len(lines))
    if kind == 18:
        lines.insert(at, lines[other])
    elif kind == 19:
        lines[at], lines[other] = lines[other], lines[at]
    else:
        del lines[at]
    return b"\n".join(lines)


def toml_change(chance, data, words):
    """A text of TOML with a value, a key or a line of it changed."""
    lines = data.split(b"\n")
    at = chance.randrange(len(lines))
    key, equals, _ = lines[at].partition(b" = ")
    kind = chance.randrange(8)
    if kind == 0:
        del lines[at]
    elif kind == 1 or not equals:
        lines.insert(at, chance.choice([line for line in lines if b" = " in line] or [b""]))
    elif kind == 2:
        lines[at] = chance.choice(words) + equals + lines[at][len(key) + 3:]
    else:
        lines[at] = key + equals + (b"%d" % chance.randrange(100) if key == b"number"
                                    else chance.choice([word for word in words if word.startswith(b'"')]))
    return b"\n".join(lines)


def changed(chance, data, words):
    for _ in range(chance.choice((1, 1, 1, 2, 2, 3, 5, 8))):
        luck = chance.random()
        if words is AGS_WORDS and luck < 0.4:
            data = compare.change(data, chance)
        elif words is TOML_WORDS and luck < 0.6:
            data = toml_change(chance, data, words)
        else:
            data = one_change(chance, data, words)
    return data


def older_escape(found):
    return "\\u00" + found[2] if found[2] else "\\u001b" if found[1] == "e" else found[0]


def older_toml(text):
    """A text of TOML 1.1 in the spelling of TOML 1.0: no mark, no line ends, comments and last commas within braces, no
    `\\e` and `\\x`."""
    out, braces = [], 0
    for piece in PIECE.findall(text.removeprefix("\ufeff")):
        if piece.startswith('"'):
            piece = re.sub(r"\\(x([0-9A-Fa-f]{2})|e|.)", older_escape, piece, flags=re.S)
        braces += (piece == "{") - (piece == "}")
        if braces and (piece in "\r\n" or piece.startswith("#")):
            piece = " "
        if piece == "}":
            while out and out[-1] in " \t":
                out.pop()
            if out and out[-1] == ",":
                out.pop()
        out.append(piece)
    return "".join(out)


# ---- the program and the model side by side

class Side(servers.Place):
    """A place with a register of three deposits, known to the program and to the model."""

    patience = 60

    def __init__(self, program, folder):
        super().__init__(program, folder, machine.WITHDRAWING)
        self.counts = collections.Counter()
        self.same(["init", "--store=first", "--dictionary=mini"])
        for token, file in (("t-delta", "b"), ("t-foxtrot", "c"), ("t-delta", "a")):
            self.same(servers.asking("deposit", file, store="first", token=token, day="2024-05-01",
                                     embargo=servers.DAY))

    def fresh(self, name):
        """A copy of the register under another name."""
        self.copy("first", name)
        self.computer.files[name] = register = machine.Register()
        first = self.computer.files["first"]
        register.files, register.deposits = dict(first.files), list(first.deposits)
        return register

    def away(self, name):
        self.copy("none", name)
        self.computer.files.pop(name, None)

    def answer(self, words, given=b""):
        got = self.run(*words, given=given)
        if got[2] < 0 or got[2] in CRASHES:
            raise stories.Differs((words, given, "CRASH"), self.computer.run(words, "", given), got)
        return got

    def same(self, words, given=b"", texts=()):
        """Compares a start of the program; the texts of TOML among its files may be in TOML 1.1."""
        got, want = self.answer(words, given), self.computer.run(words, "", given)
        if got != want and texts and want[1].endswith(b" refused\n"):
            kept = {name: self.computer.files[name] for name in texts}
            try:
                self.computer.files.update({name: older_toml(data.decode()).encode() for name, data in kept.items()})
                want = self.computer.run(words, "", given)
                self.counts["in TOML 1.1"] += 1
            except UnicodeDecodeError:
                pass
            self.computer.files.update(kept)
        if got != want:
            raise stories.Differs((words, given, {name: self.computer.files[name] for name in texts}), want, got)
        self.counts[said(want)] += 1
        return want


def said(answer):
    """The kind of an answer of the program, to be counted."""
    out, fault, status = answer
    words = (fault or out).decode("latin-1").split()
    kind = " ".join(words[1:3]) if fault else words[0] if words and status in (2, 3, 4, 5) else ""
    return f"{status} {kind}".strip()


def start_of_line(chance, side, files):
    """The arguments of a request over a fresh copy of the register, or over the register where nothing is
    deposited."""
    command = chance.choice(["list", "extract", "extract", "deposit", "withdraw"])
    store = "first"
    if command in ("deposit", "withdraw"):
        side.fresh("store")
        store = "store"
    words = [command, f"--store={store}", "--project=" + chance.choice(["N1", "N1", "N1", "N2"]),
             "--day=" + chance.choice(DAYS), *(f"--{name}={file}" for name, file in files.items())]
    return words + {"list": [], "deposit": [chance.choice("abc")]}.get(command, [chance.choice("1234")])


def any_file(chance, names, share, count):
    """A file of those that are known, or one of so many at random, with this chance; else one of `names`."""
    if chance.random() < share:
        made = [bodies.body(chance) for _ in range(count)]
        return chance.choice([machine.FILE_A, machine.FILE_B, machine.file_c(), *made])
    return names[chance.randrange(len(names))]


def file_turn(chance, side, names):
    base = any_file(chance, names, 0.5, 2)
    data = changed(chance, base, AGS_WORDS)
    if chance.random() < 0.6:
        return side.same([], data)
    side.put("file", data)
    return side.same(["check", "--dictionary=mini", "file"])


def policy_turn(chance, side, names):
    base = chance.choice([machine.POLICY, machine.WITHDRAWING, bodies.policy(chance),
                          stories.any_policy(chance) or "\n", chance.choice(POLICIES)])
    side.put("p", changed(chance, base.encode(), TOML_WORDS))
    words = start_of_line(chance, side, {"policy": "p", "callers": "callers"})
    return side.same([*words, "--token=" + chance.choice(["t-delta", "t-echo", "t-foxtrot", "t-gamma"])], texts=["p"])


def callers_turn(chance, side, names):
    base = stories.callers(chance)
    if chance.random() < 0.2:
        tables = (f'{{token = "{token}", firm = "Delta", role = "contractor"}}' for token in ("t-delta", "t-echo", "x"))
        base = "caller = [" + ", ".join(tables) + "]\n"
    data = changed(chance, base.encode(), TOML_WORDS)
    side.put("k", data)
    tokens = [token.decode() for token in re.findall(rb"token *= *[\"']([!-~]*?)[\"']", data)] + ["t-delta", "t-echo"]
    return side.same([*start_of_line(chance, side, {"policy": "policy", "callers": "k"}),
                      "--token=" + chance.choice(tokens)], texts=["k"])


def dictionary_turn(chance, side, names):
    data = changed(chance, stories.dictionary(chance), AGS_WORDS)
    side.put("d", data)
    if chance.random() < 0.1:
        side.away("made")
        want = side.same(["init", "--store=made", "--dictionary=d"])
        return want if want[2] else side.same(servers.asking("deposit", chance.choice("abc"), store="made"))
    file = chance.choice(["a", "b", "c", "file"])
    if file == "file":
        side.put("file", names[chance.randrange(len(names))])
    return side.same(["check", "--dictionary=d", file])


# ---- connections

def head_of_turn(chance, names):
    """The bytes of a connection whose head is changed."""
    data = stories.request(chance, ["t-delta", "t-echo", "t-foxtrot", "t-gamma"],
                           [machine.FILE_A, machine.FILE_B, machine.file_c(), b""], 3)
    end = data.find(b"\r\n\r\n") + 4
    end = end if end > 3 else len(data)
    return changed(chance, data[:end], HEAD_WORDS) + data[end:]


def body_of_turn(chance, names):
    """The bytes of a connection whose body is changed, under a head that is right or wrong by some bytes in its
    length."""
    base = any_file(chance, names, 0.6, 1)
    data = changed(chance, base, AGS_WORDS)
    length = max(0, len(data) + (chance.choice([-1, 1, -2, 100]) if chance.random() < 0.1 else 0))
    target, token = chance.choice([(b"check", b"t-echo"), (b"check", b"t-delta"), (b"deposits", b"t-delta"),
                                   (b"deposits?embargo=2024-06-01", b"t-foxtrot")])
    return servers.post(target, data, token, length)


def answered(chance, server, data):
    """All that a connection answers to these bytes, sent whole or in pieces."""
    connection = server.connect()
    cut = chance.randrange(len(data) + 1) if chance.random() < 0.1 else 0
    if cut:
        servers.sent(connection, data[:cut], True)
        time.sleep(0.0005)
    servers.sent(connection, data[cut:], False)
    return servers.received(connection)


def session(side, given, chance):
    """Compares the connections of one start of `serve`; how many were right before the first that was not, and that
    one."""
    register, printed = side.fresh("served"), ""
    rules, callers = machine.read_policy(machine.WITHDRAWING), machine.read_callers(machine.CALLERS)
    with side.serve(len(given), store="served") as server:
        for n, data in enumerate(given):
            status, want = machine.serve(register, rules, callers, servers.DAY, data)
            try:
                got = answered(chance, server, data)
            except OSError as fault:
                got = f"{fault}, status {server.process.poll()}".encode()
            if got != want:
                is_crash = server.process.poll() not in (None, 0)
                return n, stories.Differs((data, "CRASH" if is_crash else ""), want, got)
            told = want.rpartition(b":")[2][:12].decode("latin-1") if status in (400, 404) else ""
            side.counts[f"{status} {told}".strip()] += 1
            printed += f"{status}\n"
        try:
            got, want = server.rest(), (printed.encode(), b"", 0)
        except subprocess.TimeoutExpired:
            got, want = "none", "an end"
        return (len(given), None) if got == want else (len(given) - 1, stories.Differs("the end of `serve`", want, got))


def by_words(turn, side, seed, kind, numbers, names):
    """Turns that are a start each; yields the differences."""
    for number in numbers:
        try:
            turn(random.Random(f"{seed} {kind} {number}"), side, names)
        except stories.Differs as difference:
            yield number, difference
        except subprocess.TimeoutExpired:
            yield number, stories.Differs("a start", "an answer within a minute", "none")


def by_socket(make, side, seed, kind, numbers, names):
    """Turns that are a connection each. After a difference a new start gets the rest."""
    numbers = list(numbers)
    while numbers:
        chances = [random.Random(f"{seed} {kind} {number}") for number in numbers[:A_START]]
        right, difference = session(side, [make(chance, names) for chance in chances], chances[0])
        if difference:
            yield numbers[right], difference
        numbers = numbers[right + (difference is not None):]


KINDS = {"file": (by_words, file_turn), "policy": (by_words, policy_turn), "callers": (by_words, callers_turn),
         "dictionary": (by_words, dictionary_turn),
         "head": (by_socket, head_of_turn), "body": (by_socket, body_of_turn)}


def main():
    if len(sys.argv) < 2:
        sys.exit(__doc__)
    count, seed = (int(sys.argv[n]) if len(sys.argv) > n else usual for n, usual in ((2, 300), (3, 1)))
    servers.limit_memory()
    files, names, failed, asked = os.path.join(os.path.dirname(os.path.abspath(__file__)), "files"), [], 0, 0
    for name in sorted(os.listdir(files)):
        if name.endswith(".ags"):
            with open(os.path.join(files, name), "rb") as file:
                names.append(file.read())
    for word in sys.argv[4:] or KINDS:
        kind, _, first = word.partition(":")
        folder = tempfile.mkdtemp(prefix="hostile")
        side, begun = Side(sys.argv[1], folder), time.monotonic()
        side.counts.clear()
        way, turn = KINDS[kind]
        for number, difference in way(turn, side, seed, kind, range(int(first or 1), int(first or 1) + count), names):
            failed += 1
            what, want, got = difference.args
            print(f"{kind} {number} of seed {seed}: {what!r}\n  wanted {want!r}\n  got    {got!r}", flush=True)
        asked += count
        told = ", ".join(f"{text}: {times}" for text, times in sorted(side.counts.items()))
        print(f"({count} of {kind}, {time.monotonic() - begun:.0f} s; answers {told})", flush=True)
        shutil.rmtree(folder)
    print(f"{asked - failed} passed, {failed} failed")
    return failed > 0


if __name__ == "__main__":
    sys.exit(main())
