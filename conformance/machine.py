#!/usr/bin/env python3
"""The second implementation of a register, which the tests call the model: written apart from the product and straight
from its definitions.

It has the policy and the callers, what a caller may see of a file, the extract, the five requests with the state that
each leaves, a request as it is read from the bytes of a connection with the bytes of its reply, the command line, and
which formats of a register it takes. Lines, dictionaries, findings and steps are those of tools/ags, and what rules
decide is that of tools/policies. It proves nothing; it is here so that the product's answers are computed twice.

usage: machine.py       tries the worked examples below on itself; the last line is 'N passed, M failed'"""
import hashlib
import json
import os
import re
import sys
import urllib.parse

sys.path.append(os.path.join(os.path.dirname(os.path.dirname(os.path.realpath(__file__))), "tools"))
import ags  # noqa: E402
from policies import (DAY_KEYS, VERBS, Refused, day_of, decide, is_group_name, is_name,  # noqa: E402, F401
                      read_callers, read_policy)

# Bytes of a file, a policy, callers, a dictionary, and a body over HTTP; the scripts here take it from this place.
LIMIT = ags.LIMIT
MOST = 999999
FORMAT = 2  # of a register that is made; one of format 1 has no marks


def spelled_dictionary(entries):
    """The text of a dictionary of these entries: one group DICT, as it is written."""
    rows = [[b"GROUP", e[1], b"", b"", e[2]] if e[0] == "G" else [b"HEADING", *e[1:4], b""] for e in entries]
    headings = [b"DICT_TYPE", b"DICT_GRP", b"DICT_HDNG", b"DICT_STAT", b"DICT_PGRP"]
    return ags.written([(b"DICT", headings, [b""] * 5, [b"X"] * 5, rows)])


# ---- what a caller may see of a file

def is_permitted(rules, caller, deposit, day, g, row):
    if g.name in ags.DEFINITIONS:
        return True
    facts = {"group": g.name, "own": deposit["firm"] == caller["firm"], "past": day >= deposit["embargo"],
             "headings": g.headings, "cells": row.items}
    return decide(rules, caller, deposit["project"], "see", day, facts)[0] == "permit"


def shown_rows(rules, caller, deposit, day, file):
    """The numbers of the rows from which only permitted rows are reached."""
    may = [is_permitted(rules, caller, deposit, day, g, row) for g, row in file.rows]
    return {n for n in range(len(file.rows)) if all(may[m] for m in file.reach(n))}


def extract_text(file, shown, groups):
    """The asked rows that are shown with all that they reach, as a file. No groups asks for all; PROJ is always
    asked."""
    asked = {n for n, (g, _) in enumerate(file.rows) if not groups or g.name in groups or g.name == b"PROJ"}
    drawn = {m for n in asked & shown for m in file.reach(n)}
    parts = []
    for g in file.groups:
        rows = [row.items for n, (h, row) in enumerate(file.rows) if h is g
                and (g.name in ags.DEFINITIONS or n in drawn)]
        if rows:
            parts.append((g.name, g.headings, g.unit.items, g.type.items, rows))
    return ags.written(parts)


# ---- requests and the state

def unmarked(firm, project, embargo, data):
    """A deposit as it is taken: it is not withdrawn."""
    return {"firm": firm, "project": project, "embargo": embargo, "bytes": data, "withdrawn": False}


class Register:
    """The deposits that are held, each with its mark, under a dictionary, and at most so many.
    In a register of format 1 no deposit is marked."""

    def __init__(self, words=None, most=MOST):
        self.words = words or ags.built_in()
        self.most = most
        self.format = FORMAT
        self.deposits = []
        self.files = {}

    def file_of(self, data):
        if data not in self.files:
            self.files[data] = ags.rows_of(data, self.words)
        return self.files[data]

    def is_seen(self, rules, caller, deposit, day):
        """Whether the row of PROJ is shown."""
        file = self.file_of(deposit["bytes"])
        shown = shown_rows(rules, caller, deposit, day, file)
        return any(g.name == b"PROJ" and n in shown for n, (g, _) in enumerate(file.rows))

    def checked(self, data):
        if len(data) > LIMIT:
            return ("too large",)
        _, found = ags.first_findings(ags.File(data), self.words)
        return ("findings", found) if found else None

    def deposit(self, rules, caller, project, embargo, data, day):
        effect, number = decide(rules, caller, project, "deposit", day)
        if effect == "deny":
            return "denied", number
        refused = self.checked(data)
        if refused:
            return refused
        for n, held in enumerate(self.deposits, 1):
            if (held["firm"], held["project"], held["bytes"]) == (caller["firm"], project, data):
                return "receipt", n, held["embargo"]
        if len(self.deposits) == self.most:
            return ("full",)
        self.deposits.append(unmarked(caller["firm"], project, embargo, data))
        return "receipt", len(self.deposits), embargo

    def check(self, rules, caller, project, data, day):
        effect, number = decide(rules, caller, project, "check", day)
        if effect == "deny":
            return "denied", number
        return self.checked(data) or ("clean",)

    def list(self, rules, caller, project, day):
        effect, number = decide(rules, caller, project, "list", day)
        if effect == "deny":
            return "denied", number
        of_project = [(n, held) for n, held in enumerate(self.deposits, 1) if held["project"] == project]
        return "listing", [(n, held["firm"], held["embargo"]) for n, held in of_project
                           if not held["withdrawn"] and self.is_seen(rules, caller, held, day)]

    def extract(self, rules, caller, project, number, groups, day):
        effect, rule = decide(rules, caller, project, "extract", day)
        if effect == "deny":
            return "denied", rule
        if not 1 <= number <= len(self.deposits) or self.deposits[number - 1]["project"] != project:
            return ("unknown",)
        held = self.deposits[number - 1]
        if held["withdrawn"] or not self.is_seen(rules, caller, held, day):
            return ("unknown",)
        file = self.file_of(held["bytes"])
        return "text", extract_text(file, shown_rows(rules, caller, held, day, file), groups)

    def withdraw(self, rules, caller, project, number, day):
        effect, rule = decide(rules, caller, project, "withdraw", day)
        if effect == "deny":
            return "denied", rule
        if not 1 <= number <= len(self.deposits):
            return ("unknown",)
        held = self.deposits[number - 1]
        if held["project"] != project or held["firm"] != caller["firm"]:
            return ("unknown",)
        self.deposits[number - 1] = {**held, "withdrawn": True}
        return "withdrawn", number


# ---- a connection

PHRASES = {200: "OK", 400: "Bad Request", 401: "Unauthorized", 403: "Forbidden", 404: "Not Found",
           405: "Method Not Allowed", 411: "Length Required", 413: "Payload Too Large", 422: "Unprocessable Entity",
           503: "Service Unavailable", 507: "Insufficient Storage"}
TOKEN = rb"[!#$%&'*+.^_`|~0-9A-Za-z-]+"
REQUEST_LINE = re.compile(rb"(?:\r?\n)*(" + TOKEN + rb") ([\x21-\x7e\x80-\xff]+) HTTP/1\.[01]\r?\n")
FIELD = re.compile(rb"(" + TOKEN + rb"):([\t\x20-\x7e\x80-\xff]*)\r?\n")


def rendered(status, body, kind="application/json"):
    fields = f"Content-Type: {kind}\r\nContent-Length: {len(body)}\r\nConnection: close\r\n\r\n"
    head = f"HTTP/1.1 {status} {PHRASES[status]}\r\n{fields}"
    return status, head.encode() + body


def as_json(status, value):
    return rendered(status, json.dumps(value, separators=(",", ":"), sort_keys=True, ensure_ascii=False).encode())


def error(status, text):
    return as_json(status, {"error": text})


def head_of(data):
    """(method, target, fields, what follows), or None where no prefix is a head."""
    line = REQUEST_LINE.match(data)
    if not line:
        return None
    try:
        line[2].decode()
    except UnicodeDecodeError:
        return None
    at, fields = line.end(), []
    while True:
        end = re.compile(rb"\r?\n").match(data, at)
        if end:
            return (line[1], line[2], fields, data[end.end():]) if end.end() <= 8192 and len(fields) <= 32 else None
        field = FIELD.match(data, at)
        if not field:
            return None
        fields.append((field[1].lower(), field[2].strip(b" \t")))
        at = field.end()


def pairs_of(query):
    """The pairs of a query, decoded."""
    def decode(piece):
        return urllib.parse.unquote_to_bytes(piece.replace(b"+", b" ")).decode("utf-8", "replace")
    return [(decode(p.partition(b"=")[0]), decode(p.partition(b"=")[2])) for p in query.split(b"&") if p]


def groups_in(text):
    """The names that a list of groups has; none where it is empty; None where one is no name."""
    names = text.split(",") if text else []
    return [name.encode() for name in names] if all(is_group_name(name) for name in names) else None


def number_in(text):
    return int(text) if re.fullmatch(r"[1-9][0-9]{0,5}", text) else None


def values(fields, name):
    return [value for key, value in fields if key == name]


def token_in(fields):
    """The token that a head's fields give, or None."""
    given = values(fields, b"authorization")
    return given[0][7:].decode("latin-1") if len(given) == 1 and given[0].startswith(b"Bearer ") else None


def reply(answer):
    """The bytes of the reply to an answer."""
    kind = answer[0]
    if kind == "receipt":
        return as_json(200, {"number": answer[1], "embargo": answer[2]})
    if kind == "clean":
        return as_json(200, {"clean": True})
    if kind == "withdrawn":
        return as_json(200, {"withdrawn": answer[1]})
    if kind == "listing":
        return as_json(200, {"deposits": [{"number": n, "firm": firm, "embargo": embargo}
                                          for n, firm, embargo in answer[1]]})
    if kind == "text":
        return rendered(200, answer[1], "text/plain; charset=us-ascii")
    if kind == "denied":
        return as_json(403, {"denied": answer[1]})
    if kind == "findings":
        return as_json(422, {"findings": [{"code": code, "line": line, "subject": ags.shown(text)}
                                          for line, code, text in answer[1]]})
    return error({"unknown": 404, "too large": 413, "full": 507}[kind], kind)


def serve(register, rules, callers, day, data):
    """The status and the reply for what a connection gives until it ends; 0 and nothing for no byte."""
    if not data:
        return 0, b""
    head = head_of(data)
    if head is None:
        return error(400, "bad head")
    method, target, fields, rest = head
    path, _, query = target.partition(b"?")
    route = re.fullmatch(rb"/v1/projects/([^/]+)/(check|deposits(?:/([^/]+))?)", path)
    if not route:
        return error(404, "no route")
    project, page, number = route[1].decode(), route[2].partition(b"/")[0].decode(), route[3]
    kind = {("check", b"POST", False): "check", ("deposits", b"POST", False): "deposit",
            ("deposits", b"GET", False): "list", ("deposits", b"GET", True): "extract",
            ("deposits", b"DELETE", True): "withdraw"}.get((page, method, number is not None))
    if kind is None:
        return error(405, "method")
    token = token_in(fields)
    if token not in callers:
        return error(401, "no caller")
    length = 0
    if kind in ("check", "deposit"):
        lengths = values(fields, b"content-length")
        if values(fields, b"transfer-encoding") or not lengths:
            return error(411, "length required")
        if len(lengths) > 1 or not re.fullmatch(rb"[0-9]{1,10}", lengths[0]):
            return error(400, "bad length")
        length = int(lengths[0])
        if length > LIMIT:
            return error(413, "too large")
    known = {"deposit": "embargo", "extract": "groups"}.get(kind)
    pairs = pairs_of(query)
    bad = not is_name(project) or (number is not None and number_in(number.decode()) is None)
    bad = bad or len(pairs) > 1 or any(name != known for name, _ in pairs)
    value = pairs[0][1] if pairs else None
    if kind == "deposit" and value is not None:
        bad = bad or day_of(value) is None
    groups = groups_in(value or "") if kind == "extract" and not bad else []
    if bad or groups is None:
        return error(400, "bad parameter")
    if len(rest) < length:
        return error(400, "short body")
    caller, body = callers[token], rest[:length]
    if kind == "check":
        return reply(register.check(rules, caller, project, body, day))
    if kind == "deposit":
        return reply(register.deposit(rules, caller, project, value or day, body, day))
    if kind == "list":
        return reply(register.list(rules, caller, project, day))
    if kind == "withdraw":
        return reply(register.withdraw(rules, caller, project, number_in(number.decode()), day))
    return reply(register.extract(rules, caller, project, number_in(number.decode()), groups, day))


def logged(callers, data, status, text):
    """What the log of `serve` has of a connection: who asked what and the status; the bytes of the reply; number,
    groups, the rule that denied, and the token's shadow."""
    head = head_of(data)
    if head is None:
        return f"- - - - {status}", len(text), "- - - -"
    method, target, fields, _ = head
    token = token_in(fields)
    caller = callers.get(token, {"firm": "-", "role": "-"})
    path = "".join(chr(b) if 32 < b < 127 and b != 92 else f"\\x{b:02x}" for b in target.partition(b"?")[0][:256])
    front = f"{caller['firm']} {caller['role']} {method.decode()} {path} {status}"
    number, groups, rule = asked_of(method, target, text)
    shadow = hashlib.sha256(token.encode()).hexdigest()[:8] if token in callers else "-"
    return front, len(text), f"{number} {groups} {rule} {shadow}"


# The replies by which the desk has not been asked.
OF_THE_ENGINE = ("bad head", "no route", "method", "no caller", "length required", "bad length", "too large",
                 "bad parameter", "short body")


def asked_of(method, target, text):
    """Number, groups and rule of a request, by its reply: `-` for each where the desk was not asked."""
    body = text.partition(b"\r\n\r\n")[2]
    if not text or any(body == b'{"error":"%s"}' % refusal.encode() for refusal in OF_THE_ENGINE):
        return "-", "-", "-"
    path, _, query = target.partition(b"?")
    number = path.rpartition(b"/")[2].decode() if re.search(rb"/deposits/[^/]+$", path) else "-"
    groups = "-"
    if method == b"GET" and number != "-":
        groups = b",".join(groups_in(dict(pairs_of(query)).get("groups", "")) or []).decode() or "-"
    receipt = re.fullmatch(rb'\{"embargo":"[-0-9]+","number":(\d+)\}', body)
    denied = re.fullmatch(rb'\{"denied":(\d+)\}', body)
    return receipt[1].decode() if receipt else number, groups, denied[1].decode() if denied else "-"


# ---- the command line

ASKING = "store policy callers token token-file project day progress"
OPTIONS = {"init": "store dictionary", "check": "dictionary", "deposit": ASKING + " embargo",
           "extract": ASKING + " groups", "list": ASKING, "withdraw": ASKING, "migrate": "store progress",
           "verify": "store log progress", "version": "",
           "serve": "store policy callers port socket connections unending day day-by-clock patience end-on-failure log "
                    "reload progress"}
FLAGS = {"day-by-clock", "end-on-failure", "progress", "unending"}
# Options of which one has to be given, and not both.
ONE_OF = (("token", "token-file"), ("port", "socket"), ("connections", "unending"))
MAY_LACK = {"day", "embargo", "groups", "patience", "log", "reload", *FLAGS, *(name for pair in ONE_OF for name in pair)}
PLACES = {"init": 0, "check": 1, "deposit": 1, "extract": 1, "list": 0, "withdraw": 1, "migrate": 0, "serve": 0,
          "verify": 0, "version": 0}


def version():
    """What `version` prints: the newest version of CHANGELOG.md, and the format."""
    folder = os.path.dirname(os.path.abspath(__file__))
    with open(os.path.join(folder, "..", "CHANGELOG.md"), encoding="utf-8") as file:
        newest = re.search(r"^## (\S+)", file.read(), re.M)[1]
    return f"groundreg {newest}\nregister format {FORMAT}\n".encode()


VERSION = version()


class Fault(Exception):
    """What ends a run before its answer: the text after `groundreg: ` and the status."""


class Damaged:
    """A database that is no register, with the number that its row `format` has, or None where there is no such row."""

    def __init__(self, number=None):
        self.format = number


def ended_by(fault):
    return b"", f"groundreg: {fault.args[0]}\n".encode("utf-8", "surrogateescape"), fault.args[1]


def words_of(words):
    """The command, its options and its further arguments. A byte that is no text is in an argument as Python's own
    surrogate for it."""
    if not words or words[0] not in OPTIONS or any("\udc80" <= c <= "\udcff" for word in words for c in word):
        raise Fault("words refused", 4)
    command, rest, options, places = words[0], list(words[1:]), {}, []
    while rest:
        word = rest.pop(0)
        if not word.startswith("-") or word == "-":
            places.append(word)
            continue
        name, is_joined, value = word[2:].partition("=")
        if not word.startswith("--") or name not in OPTIONS[command].split() or name in options:
            raise Fault("words refused", 4)
        if name in FLAGS and is_joined:
            raise Fault("words refused", 4)
        if not is_joined and name not in FLAGS:
            if not rest or (rest[0].startswith("-") and rest[0] != "-"):
                raise Fault("words refused", 4)
            value = rest.pop(0)
        options[name] = value
    needed = set(OPTIONS[command].split()) - MAY_LACK
    if len(places) != PLACES[command] or not needed <= set(options):
        raise Fault("words refused", 4)
    for name, most in (("port", 65535), ("connections", 1000000), ("patience", 3600)):
        if name in options and not (re.fullmatch(r"[0-9]+", options[name]) and 1 <= int(options[name]) <= most):
            raise Fault("words refused", 4)
    if "day" in options and "day-by-clock" in options:
        raise Fault("words refused", 4)
    for one, other in ONE_OF:
        if one in OPTIONS[command].split() and (one in options) == (other in options):
            raise Fault("words refused", 4)
    return command, options, places


def printed(answer):
    """What the program prints of an answer, and its status."""
    kind = answer[0]
    if kind == "receipt":
        return f"receipt {answer[1]} {answer[2]}\n".encode(), 0
    if kind == "withdrawn":
        return f"withdrawn {answer[1]}\n".encode(), 0
    if kind == "listing":
        return "".join(f"{n} {firm} {embargo}\n" for n, firm, embargo in answer[1]).encode(), 0
    if kind == "text":
        return answer[1], 0
    if kind == "denied":
        return f"denied {answer[1]}\n".encode(), 2
    if kind == "findings":
        return "".join(finding.printed() + "\n" for finding in answer[1]).encode(), 1
    return (kind + "\n").encode(), {"clean": 0, "unknown": 3, "too large": 4, "full": 5}[kind]


class Computer:
    """What is at each path (bytes, a Register, what is Damaged, or nothing), the folders that exist, and what each run
    of the program makes of them."""

    def __init__(self, folders=("",)):
        self.files = {}
        self.folders = set(folders)

    def read(self, path):
        if not isinstance(self.files.get(path), bytes):
            raise Fault(f"cannot read {path}", 6)
        return self.files[path]

    def text(self, path, name, read):
        try:
            return read(self.read(path).decode())
        except (UnicodeDecodeError, Refused):
            raise Fault(f"{name} refused", 4) from None

    def dictionary(self, path):
        data = self.read(path)
        try:
            return ags.read_dictionary(data)[0]
        except ags.NoDictionary:
            raise Fault("dictionary refused", 4) from None

    def token(self, options):
        """The token that is given, or that of a file, without one line end after it."""
        if "token" in options:
            return options["token"]
        text = self.read(options["token-file"]).decode("latin-1")
        return text[:-2] if text.endswith("\r\n") else text.removesuffix("\n")

    def can_open(self, path):
        """Whether a database may be opened there: the path is no folder and is in one."""
        return os.path.basename(path) != "" and path not in self.folders and os.path.dirname(path) in self.folders

    def store(self, path, number=FORMAT):
        """The register at a path, of the format that a command takes: 1 by `migrate`, 2 by the others."""
        found = self.files.get(path)
        if isinstance(found, (Register, Damaged)) and found.format not in (None, number):
            raise Fault(f"register version {found.format}", 4)
        if not isinstance(found, Register):
            is_read = not found or isinstance(found, Damaged)
            raise Fault("not a register", 4) if is_read and self.can_open(path) else Fault("store failed", 5)
        return found

    def run(self, words, today, standard_input=b""):
        """(standard output, standard error, status); of `serve` those of a start without a connection."""
        if words and words[0] == "serve":
            return self.serve(words, today, [])[0]
        try:
            out, status = self.answer(words, today, standard_input)
            return out, b"", status
        except Fault as fault:
            return ended_by(fault)

    def serve(self, words, today, given, is_free=True):
        """What `serve` prints as far as it gets, with the status, and the reply to each connection. `given` are the
        bytes of each, None for one that is broken off. `is_free`: the port is free."""
        try:
            _, options, _ = words_of(words)
            rules = self.text(options["policy"], "policy", read_policy)
            callers = self.text(options["callers"], "callers", read_callers)
            day = day_of(options.get("day", today))
            if day is None:
                raise Fault("day refused", 4)
            if "log" in options and not self.can_open(options["log"]):
                raise Fault(f"cannot write {options['log']}", 6)
            register = self.store(options["store"])
            if not is_free:
                raise Fault("cannot listen", 6)
        except Fault as fault:
            return ended_by(fault), []
        replies, out = [], f"listening 127.0.0.1:{int(options['port'])}\n"
        for data in given:
            status, reply_bytes = ("fault", b"") if data is None else serve(register, rules, callers, day, data)
            out += f"{status}\n"
            replies.append(reply_bytes)
        return (out.encode(), b"", 0), replies

    def answer(self, words, today, standard_input):
        if not words:
            return self.check(standard_input, None)
        command, options, places = words_of(words)
        if command == "init":
            dictionary = self.dictionary(options["dictionary"])
            found = self.files.get(options["store"])
            if found or not self.can_open(options["store"]):
                is_database = isinstance(found, (Register, Damaged))
                raise Fault("store not empty", 4) if is_database else Fault("store failed", 5)
            self.files[options["store"]] = Register(dictionary)
            return b"created\n", 0
        if command == "check":
            return self.check(None, (options["dictionary"], places[0]))
        if command == "migrate":
            self.store(options["store"], 1).format = FORMAT
            return b"migrated\n", 0
        if command == "version":
            return VERSION, 0
        if command == "verify":
            return b"verified %d\n" % len(self.store(options["store"]).deposits), 0
        rules = self.text(options["policy"], "policy", read_policy)
        callers = self.text(options["callers"], "callers", read_callers)
        token = self.token(options)
        if token not in callers:
            raise Fault("token refused", 4)
        if not is_name(options["project"]):
            raise Fault("project refused", 4)
        day = day_of(options.get("day", today))
        embargo = day_of(options.get("embargo", day or ""))
        if day is None or embargo is None:
            raise Fault("day refused", 4)
        has_number = command in ("extract", "withdraw")
        groups, number = groups_in(options.get("groups", "")), number_in(places[0]) if has_number else None
        if groups is None:
            raise Fault("groups refused", 4)
        if has_number and number is None:
            raise Fault("number refused", 4)
        body = self.read(places[0]) if command == "deposit" else None
        register, caller, project = self.store(options["store"]), callers[token], options["project"]
        if command == "deposit":
            return printed(register.deposit(rules, caller, project, embargo, body, day))
        if command == "list":
            return printed(register.list(rules, caller, project, day))
        if command == "withdraw":
            return printed(register.withdraw(rules, caller, project, number, day))
        return printed(register.extract(rules, caller, project, number, groups, day))

    def check(self, data, places):
        dictionary = None
        if places is not None:
            dictionary = self.dictionary(places[0])
            data = self.read(places[1])
        if len(data) > LIMIT:
            raise Fault("too large", 4)
        return printed(Register(dictionary).checked(data) or ("clean",))


# ---- worked examples

SENT = "2024-05-01"  # the day on which their deposits are sent


def spelled(text):
    return "".join(line + "\r\n" for line in text.strip("\n").split("\n")).encode()


HEAD_LINES = spelled('''
"GROUP","PROJ"
"HEADING","PROJ_ID","PROJ_NAME"
"UNIT","",""
"TYPE","ID","X"
"DATA","P7","North bank"

"GROUP","TRAN"
"HEADING","TRAN_ISNO","TRAN_DLIM","TRAN_RCON"
"UNIT","","",""
"TYPE","X","X","X"
"DATA","1","|","+"

"GROUP","UNIT"
"HEADING","UNIT_UNIT","UNIT_DESC"
"UNIT","",""
"TYPE","X","X"
"DATA","m","metre"

"GROUP","TYPE"
"HEADING","TYPE_TYPE","TYPE_DESC"
"UNIT","",""
"TYPE","X","X"
"DATA","ID","Unique identifier"
"DATA","X","Text"
''')
FILE_A = HEAD_LINES + spelled('''

"GROUP","LOCA"
"HEADING","LOCA_ID"
"UNIT",""
"TYPE","ID"
"DATA","BH1"
''').join([b"\r\n", b""])
FILE_B = HEAD_LINES + spelled('''
"DATA","2DP","Two decimals"
"DATA","RL","Record link"

"GROUP","LOCA"
"HEADING","LOCA_ID","LOCA_STAT"
"UNIT","",""
"TYPE","ID","X"
"DATA","BH1","FINAL"
"DATA","BH2","PRELIM"

"GROUP","SAMP"
"HEADING","LOCA_ID","SAMP_TOP","SAMP_REF","SAMP_LINK"
"UNIT","","m","",""
"TYPE","ID","2DP","X","RL"
"DATA","BH1","1.50","S1",""
"DATA","BH2","2.00","S2",""

"GROUP","LNMC"
"HEADING","LOCA_ID","SAMP_TOP","SAMP_REF","SPEC_DPTH","LNMC_MC"
"UNIT","","m","","m",""
"TYPE","ID","2DP","X","2DP","X"
"DATA","BH1","1.50","S1","1.55","23"
"DATA","BH2","2.00","S2","2.05","18.4"
''')
C_LINES = spelled('''
"DATA","BH1","1.50","S1","SAMP|BH1|3.00|S9"
"DATA","BH2","2.00","S2",""
"DATA","BH1","3.00","S9","SAMP|BH1|1.50|S1"
"DATA","BH1","4.00","S4","SAMP|BH1|1.50|S1"
''')


def lines(data):
    return data.splitlines(keepends=True)


def file_c():
    b = lines(FILE_B)
    b[32] = b'"DATA","BH2","FINAL"\r\n'
    return b"".join(b[:38] + lines(C_LINES) + b[40:])


def without(data, *numbers):
    return b"".join(line for n, line in enumerate(lines(data), 1) if n not in numbers)


def with_cell(heading, kind, cell, last_group):
    """The second file with one more cell in the row of PROJ, and a group after it."""
    rows = lines(FILE_B)
    rows[1:5] = [row[:-2] + b',"%s"\r\n' % more for row, more in zip(rows[1:5], (heading, b"", kind, cell))]
    return b"".join(rows) + b"\r\n" + last_group


# its dictionary, with a heading of record links for PROJ
LINKING = b"""\
"GROUP","DICT"\r
"HEADING","DICT_TYPE","DICT_GRP","DICT_HDNG","DICT_STAT","DICT_PGRP"\r
"UNIT","","","","",""\r
"TYPE","X","X","X","X","X"\r
"DATA","HEADING","PROJ","PROJ_LINK","OTHER",""\r
"""

FILES = b"""\
"GROUP","FILE"\r
"HEADING","FILE_FSET","FILE_NAME"\r
"UNIT","",""\r
"TYPE","X","X"\r
"DATA","FS1","plan.pdf"\r
"""

POLICY = """
[[rule]]
number = 5
effect = "deny"
verb = "deposit"
firm = "Gamma"
[[rule]]
number = 10
effect = "permit"
verb = "deposit"
role = "contractor"
[[rule]]
number = 20
effect = "permit"
verb = "check"
[[rule]]
number = 30
effect = "permit"
verb = "list"
[[rule]]
number = 40
effect = "permit"
verb = "extract"
[[rule]]
number = 50
effect = "permit"
verb = "see"
owner = "own"
[[rule]]
number = 60
effect = "deny"
verb = "see"
embargo = "running"
[[rule]]
number = 70
effect = "deny"
verb = "see"
group = "LOCA"
heading = "LOCA_STAT"
value = "PRELIM"
[[rule]]
number = 75
effect = "deny"
verb = "see"
group = "SAMP"
heading = "SAMP_REF"
value = "S9"
[[rule]]
number = 80
effect = "permit"
verb = "see"
"""
# the same, and contractors may withdraw
WITHDRAWING = POLICY.replace("""[[rule]]
number = 50
""", """[[rule]]
number = 45
effect = "permit"
verb = "withdraw"
role = "contractor"
[[rule]]
number = 50
""")
CALLERS = "".join(f'[[caller]]\ntoken = "t-{firm.lower()}"\nfirm = "{firm}"\nrole = "{role}"\n' for firm, role in
                  (("Delta", "contractor"), ("Gamma", "contractor"), ("Foxtrot", "contractor"), ("Echo", "consultant")))


def refusal(read, text):
    try:
        read(text)
    except Refused as reason:
        return str(reason)
    except ags.NoDictionary as reason:
        return reason.name
    return "read"


def head(line, token=None, *fields):
    rows = [line, *([f"Authorization: Bearer {token}"] if token else []), *fields]
    return "".join(row + "\r\n" for row in rows).encode() + b"\r\n"


def examples():
    """(name, what the model gives, what the specification gives)"""
    rules, by = read_policy(POLICY), read_callers(CALLERS)
    delta, gamma, foxtrot, echo = (by["t-" + firm] for firm in ("delta", "gamma", "foxtrot", "echo"))
    june, may = "2024-06-01", "2024-05-31"
    c = file_c()
    yield "lengths of the files", (len(FILE_A), len(FILE_B)), (543, 1048)

    register = Register()
    yield "deposit by Gamma", register.deposit(rules, gamma, "N1", june, FILE_A, SENT), ("denied", 5)
    yield "deposit by Echo", register.deposit(rules, echo, "N1", june, FILE_A, SENT), ("denied", 0)
    yield "deposit of A", register.deposit(rules, delta, "N1", june, FILE_A, SENT), ("receipt", 1, june)
    yield "the same again", register.deposit(rules, delta, "N1", "2030-01-01", FILE_A, SENT), ("receipt", 1, june)
    yield "by Foxtrot", register.deposit(rules, foxtrot, "N1", june, FILE_A, SENT), ("receipt", 2, june)
    for spaces, want in ((4193762, ("receipt", 3, june)), (16776673, ("receipt", 4, june)), (16776674, ("too large",))):
        yield f"A and {spaces} spaces", register.deposit(rules, delta, "N1", june, FILE_A + b" " * spaces, SENT), want
    yield "extract of A", register.extract(rules, echo, "N1", 1, [], june), ("text", FILE_A)
    yield "the day before", register.extract(rules, echo, "N1", 1, [], may), ("unknown",)
    yield "its listing", register.list(rules, echo, "N1", may), ("listing", [])

    small = Register(most=1)
    other = FILE_A.replace(b"BH1", b"BH2")
    got = [small.deposit(rules, delta, "N1", june, data, SENT)[0] for data in (FILE_A, other, FILE_A)]
    yield "with room for one", got, ["receipt", "full", "receipt"]

    register = Register()
    register.deposit(rules, delta, "N1", june, FILE_B, SENT)
    hidden = without(FILE_B, 33, 40, 47)
    for_loca = b"".join(lines(FILE_B)[:32])
    yield "lengths of the extracts", (len(hidden), len(for_loca)), (956, 626)
    yield "extract of B by Echo", register.extract(rules, echo, "N1", 1, [], june), ("text", hidden)
    yield "extract of B by Delta", register.extract(rules, delta, "N1", 1, [], june), ("text", FILE_B)
    yield "with LNMC alone", register.extract(rules, echo, "N1", 1, [b"LNMC"], june), ("text", hidden)
    yield "with LOCA alone", register.extract(rules, echo, "N1", 1, [b"LOCA"], june), ("text", for_loca)
    yield "the extract deposited", register.deposit(rules, delta, "N1", june, hidden, SENT), ("receipt", 2, june)
    yield "its extract", register.extract(rules, delta, "N1", 2, [], june), ("text", hidden)

    register = Register()
    register.deposit(rules, delta, "N1", june, c, SENT)
    yield "extract of C by Echo", register.extract(rules, echo, "N1", 1, [], june), ("text", without(c, 39, 41, 42, 48))
    yield "extract of C by Delta", register.extract(rules, delta, "N1", 1, [], june), ("text", c)

    register = Register()
    hidden, shown, itself = (with_cell(b"PROJ_LINK", b"RL", cell, LINKING)
                             for cell in (b"LOCA|BH2", b"LOCA|BH1", b"PROJ|P7"))
    last = b"".join(lines(FILE_A)[6:]) + b"\r\n" + b"".join(lines(FILE_A)[:5])
    bodies = [hidden, shown, with_cell(b"FILE_FSET", b"X", b"FS1", FILES), last, itself]
    got = [register.deposit(rules, delta, "N1", june, body, SENT)[:2] for body in bodies]
    yield "what the row of PROJ reaches", got, [("receipt", n) for n in range(1, 6)]
    for name, caller, day, want in [("by Echo", echo, june, [2, 3, 4, 5]),
                                    ("by Echo the day before", echo, may, []),
                                    ("by Delta", delta, may, [1, 2, 3, 4, 5])]:
        listing = "listing", [(n, "Delta", june) for n in want]
        yield f"its listing {name}", register.list(rules, caller, "N1", day), listing

    spaced = b"\xef\xbb\xbf" + FILE_A.replace(b'"DATA","P7","North bank"', b'"DATA" , "P7","North ""bank"""')[:-2]
    register = Register()
    register.deposit(rules, delta, "N1", june, spaced, SENT)
    text = FILE_A.replace(b"North bank", b'North ""bank""')
    yield "one spelling", register.extract(rules, delta, "N1", 1, [], june), ("text", text)

    register = Register()
    run = [register.check(rules, echo, "N1", FILE_A, june)[0], register.check(rules, echo, "N1", b"", june)[0],
           register.deposit(rules, delta, "N1", june, FILE_A, june)[0], register.list(rules, echo, "N1", june)[0],
           register.extract(rules, echo, "N2", 1, [], june)[0], register.list(rules, echo, "N2", june)[1],
           len(register.extract(rules, echo, "N1", 1, [b"NONE"], june)[1])]
    yield "a run", run, ["clean", "findings", "receipt", "listing", "unknown", [], 466]

    yield from withdrawals(rules, by)
    yield from rule_days(by["t-delta"], echo)

    q = POLICY
    for name, text, want in [
        ("20 then 10", q.replace("number = 5\n", "number = 90\n"), "Order"),
        ("no effect", '[[rule]]\nnumber = 1\n', "BadValue"),
        ("colour", '[[rule]]\nnumber = 0\neffect = "permit"\n[[rule]]\ncolour = 1\n', "UnknownKey"),
        ("not closed", "[[rule", "Syntax"), ("empty", "", "read"),
        ("one table", "[rule]\ncolour = 1\n", "BadValue"),
        ("a number", "rule = 3", "BadValue"), ("inline", 'rule = [{number = 1, effect = "permit"}]', "read"),
        ("the verb withdraw", '[[rule]]\nnumber = 1\neffect = "deny"\nverb = "withdraw"\n', "read"),
        ("another verb", '[[rule]]\nnumber = 1\neffect = "deny"\nverb = "withdrawn"\n', "BadValue"),
        *((f"days: {more}", ruled(40, *more), want) for more, want in DAYS_READ),
    ]:
        yield f"policy: {name}", refusal(read_policy, text), want
    twice = CALLERS.replace("t-gamma", "t-delta")
    yield "a token twice", refusal(read_callers, twice), "DuplicateToken"
    yield "A as a dictionary", refusal(ags.read_dictionary, FILE_A), "NoDict"

    def ask(register, data, day=SENT):
        status, text = serve(register, rules, by, day, data)
        return status, text.split(b"\r\n\r\n", 1)[-1].decode()

    register = Register()
    post = "POST /v1/projects/N1/deposits?embargo=2024-06-01 HTTP/1.1"
    check, listing = "POST /v1/projects/N1/check HTTP/1.1", "GET /v1/projects/N1/deposits{} HTTP/1.1"
    one = "GET /v1/projects/N1/deposits/{} HTTP/1.1"
    size, longer = "Content-Length: {}", FILE_A + b" " * 4193762
    for name, data, want in [
        ("nothing", b"", (0, "")), ("no route", head("GET /v1/x HTTP/1.1"), (404, '{"error":"no route"}')),
        ("method", head("PUT /v1/projects/N1/check HTTP/1.1"), (405, '{"error":"method"}')),
        ("no length", head(check, "t-echo"), (411, '{"error":"length required"}')),
        ("too large", head(check, "t-echo", size.format(LIMIT + 1)), (413, '{"error":"too large"}')),
        ("a long body that is not sent", head(check, "t-echo", size.format(len(longer))),
         (400, '{"error":"short body"}')),
        ("a long body", head(check, "t-echo", size.format(len(longer))) + longer, (200, '{"clean":true}')),
        ("short body", head(check, "t-echo", size.format(543)) + FILE_A[:542], (400, '{"error":"short body"}')),
        ("clean", head(check, "t-echo", size.format(543)) + FILE_A, (200, '{"clean":true}')),
        ("ten digits", head(check, "t-echo", size.format("0000000543")) + FILE_A + b"more", (200, '{"clean":true}')),
        ("a sign", head(check, "t-echo", size.format("+543")) + FILE_A, (400, '{"error":"bad length"}')),
        ("007", head(one.format("007"), "t-echo"), (400, '{"error":"bad parameter"}')),
        ("cut", b"GET /v1/projects/N1/deposits HTTP/1.1\r\n", (400, '{"error":"bad head"}')),
        ("by Gamma", head(post, "t-gamma", size.format(543)) + FILE_A, (403, '{"denied":5}')),
        ("without a caller", head(post, None, size.format(543)) + FILE_A, (401, '{"error":"no caller"}')),
        ("deposit", head(post, "t-delta", size.format(543)) + FILE_A, (200, '{"embargo":"2024-06-01","number":1}')),
        ("number 999", head(one.format("999"), "t-echo"), (404, '{"error":"unknown"}')),
        ("its text", head(one.format("1"), "t-delta"), (200, FILE_A.decode())),
        ("groups, decoded", head(one.format("1?%67roups=LOCA%2CSAMP"), "t-echo"), (404, '{"error":"unknown"}')),
        ("a group too many", head(one.format("1?groups=LOCA,"), "t-echo"), (400, '{"error":"bad parameter"}')),
        ("a slash too many", head(one.format(""), "t-echo"), (404, '{"error":"no route"}')),
        ("empty pairs", head(listing.format("?&&"), "t-echo"), (200, '{"deposits":[]}')),
        ("LF alone", head(listing.format(""), "t-echo").replace(b"\r\n", b"\n"), (200, '{"deposits":[]}')),
        ("HTTP/1.2", head(listing.format(""), "t-echo").replace(b"1.1", b"1.2"), (400, '{"error":"bad head"}')),
        ("33 fields", head(listing.format(""), "t-echo", *["X: 1"] * 32), (400, '{"error":"bad head"}')),
        ("a name with a quote", head(check, "t-echo", size.format(544))
         + FILE_A.replace(b'"GROUP","LOCA"', b'"GROUP","l""\x01\\"'),
         (422, '{"findings":[{"code":"19","line":26,"subject":"l\\"?\\\\"}]}')),
    ]:
        got = ask(register, data)
        yield f"connection: {name}", got, want
    yield from deletions(by)
    status, text = serve(Register(), rules, by, "2024-05-01", head(post, "t-delta", size.format(543)) + FILE_A)
    yield "a whole reply", text, (
        b'HTTP/1.1 200 OK\r\nContent-Type: application/json\r\nContent-Length: 35\r\n'
        b'Connection: close\r\n\r\n{"embargo":"2024-06-01","number":1}')


def ruled(number, *more, policy=POLICY):
    """The policy with these lines more in a rule."""
    begin = f"number = {number}\n"
    return policy.replace(begin, begin + "".join(f"{line}\n" for line in more))


JUNE = 'from = "2024-06-01"', 'until = "2024-06-30"'
DAYS_READ = [
    (JUNE, "read"), (JUNE[:1], "read"), (JUNE[1:], "read"), (('from = "2024-06-01"', 'until = "2024-06-01"'), "read"),
    (('from = "2024-06-01"', 'until = "2024-05-31"'), "BadValue"),
    *(((f"{key} = {value}",), "BadValue") for key in DAY_KEYS for value in (
        '"*"', "2024-06-01", '"2024-6-1"', '"2023-02-29"', '"1969-12-31"', '"10000-01-01"', '""', "19875",
        '["2024-06-01"]')),
    (('From = "2024-06-01"',), "UnknownKey"),
]


def rule_days(delta, echo):
    """Rules that match on some days alone, of each verb."""
    a, b = FILE_A, FILE_B
    for number, more, data, asked in [
        (40, JUNE, a, {"2024-05-31": ("denied", 0), "2024-06-01": ("text", a), "2024-06-30": ("text", a),
                       "2024-07-01": ("denied", 0)}),
        (80, ['from = "2024-06-02"'], a, {"2024-06-01": ("unknown",), "2024-06-02": ("text", a)}),
        (80, ['from = "2024-06-02"'], b, {"2024-06-01": ("unknown",), "2024-06-02": ("text", without(b, 33, 40, 47))}),
    ]:
        rules, register = read_policy(ruled(number, *more)), Register()
        register.deposit(rules, delta, "N1", "2024-06-01", data, SENT)
        for day, want in asked.items():
            yield f"rule {number} with {more} on {day}", register.extract(rules, echo, "N1", 1, [], day), want
    asks = [("check", lambda rules, day: Register().check(rules, echo, "N1", a, day), 20, ("clean",)),
            ("deposit", lambda rules, day: Register().deposit(rules, delta, "N1", day, a, day), 10,
             ("receipt", 1, "2024-06-30")),
            ("list", lambda rules, day: Register().list(rules, echo, "N1", day), 30, ("listing", [])),
            ("withdraw", lambda rules, day: Register().withdraw(rules, delta, "N1", 1, day), 45, ("unknown",))]
    for name, ask, number, want in asks:
        rules = read_policy(ruled(number, *JUNE, policy=WITHDRAWING))
        got = [ask(rules, day) for day in ("2024-06-30", "2024-07-01")]
        yield f"{name} under such days", got, [want, ("denied", 0)]


def withdrawals(q, by):
    """Two firms have sent A, and one of them withdraws its deposit; q is the policy under which nobody may."""
    delta, foxtrot, echo = (by["t-" + firm] for firm in ("delta", "foxtrot", "echo"))
    rules, register, june = read_policy(WITHDRAWING), Register(), "2024-06-01"
    for number, firm in enumerate((delta, foxtrot), 1):
        yield f"deposit {number}", register.deposit(rules, firm, "N1", june, FILE_A, SENT), ("receipt", number, june)
    for name, caller, project, number, want in [
        ("by Echo", echo, "N1", 1, ("denied", 0)), ("by Foxtrot", foxtrot, "N1", 1, ("unknown",)),
        ("of number 9", delta, "N1", 9, ("unknown",)), ("of another project", delta, "N2", 1, ("unknown",)),
        ("by Delta", delta, "N1", 1, ("withdrawn", 1)), ("again", delta, "N1", 1, ("withdrawn", 1)),
    ]:
        yield f"a withdrawal {name}", register.withdraw(rules, caller, project, number, SENT), want
    yield "the marks", [held["withdrawn"] for held in register.deposits], [True, False]
    yield "an extract of it", register.extract(rules, delta, "N1", 1, [], june), ("unknown",)
    yield "the listing after it", register.list(rules, delta, "N1", june), ("listing", [(2, "Foxtrot", june)])
    yield "the same file again", register.deposit(rules, delta, "N1", "2030-01-01", FILE_A, SENT), ("receipt", 1, june)
    yield "the listing after that", register.list(rules, delta, "N1", june), ("listing", [(2, "Foxtrot", june)])
    yield "an extract of the other", register.extract(rules, echo, "N1", 2, [], june), ("text", FILE_A)
    yield "under a policy without such a rule", register.withdraw(q, delta, "N1", 1, SENT), ("denied", 0)
    small = Register(most=1)
    small.deposit(rules, delta, "N1", june, FILE_A, SENT)
    small.withdraw(rules, delta, "N1", 1, SENT)
    got = [small.deposit(rules, delta, "N1", june, data, SENT) for data in (FILE_B, FILE_A)]
    yield "a withdrawn one takes room", got, [("full",), ("receipt", 1, june)]


def deletions(by):
    """The same over connections."""
    rules, register, one = read_policy(WITHDRAWING), Register(), "DELETE /v1/projects/N1/deposits/{} HTTP/1.1"
    post = head("POST /v1/projects/N1/deposits?embargo=2024-06-01 HTTP/1.1", "t-delta", "Content-Length: 543") + FILE_A
    for name, data, want in [
        ("a deposit", post, (200, '{"embargo":"2024-06-01","number":1}')),
        ("a deletion by Echo", head(one.format(1), "t-echo"), (403, '{"denied":0}')),
        ("of number 9", head(one.format(9), "t-delta"), (404, '{"error":"unknown"}')),
        ("of 007", head(one.format("007"), "t-delta"), (400, '{"error":"bad parameter"}')),
        ("of all", head("DELETE /v1/projects/N1/deposits HTTP/1.1", "t-delta"), (405, '{"error":"method"}')),
        ("of a check", head("DELETE /v1/projects/N1/check HTTP/1.1", "t-delta"), (405, '{"error":"method"}')),
        ("with a query", head(one.format("1?groups=LOCA"), "t-delta"), (400, '{"error":"bad parameter"}')),
        ("with an empty query", head(one.format("9?"), "t-delta"), (404, '{"error":"unknown"}')),
        ("without a caller", head(one.format(1)), (401, '{"error":"no caller"}')),
        ("with a body", head(one.format(1), "t-delta", "Content-Length: x") + b"more", (200, '{"withdrawn":1}')),
        ("again", head(one.format(1), "t-delta"), (200, '{"withdrawn":1}')),
        ("its text", head("GET /v1/projects/N1/deposits/1 HTTP/1.1", "t-delta"), (404, '{"error":"unknown"}')),
        ("the listing", head("GET /v1/projects/N1/deposits HTTP/1.1", "t-delta"), (200, '{"deposits":[]}')),
        ("the same file again", post, (200, '{"embargo":"2024-06-01","number":1}')),
    ]:
        status, text = serve(register, rules, by, "2024-06-01", data)
        yield f"withdrawal over a connection: {name}", (status, text.split(b"\r\n\r\n", 1)[-1].decode()), want
    _, text = serve(register, rules, by, "2024-06-01", head(one.format(1), "t-delta"))
    yield "a whole reply to a withdrawal", text, (
        b'HTTP/1.1 200 OK\r\nContent-Type: application/json\r\nContent-Length: 15\r\n'
        b'Connection: close\r\n\r\n{"withdrawn":1}')


def runs():
    """The same of the command line."""
    computer, today = Computer(), "2024-05-01"
    mini = spelled_dictionary(ags.built_in().standard)
    computer.files = {"mini": mini, "a": FILE_A, "q": POLICY.encode(), "c": CALLERS.encode(), "empty": b"",
                      "junk": b"junk"}
    with_token = ["--store", "s", "--policy", "q", "--callers", "c", "--project", "N1", "--token"]
    deposit = ["deposit", "a", "--day", today, "--embargo", "2024-06-01", *with_token]
    for words, want in [
        ([], (b"2 0 -\n", b"", 1)),
        (["init", "--store", "s", "--dictionary", "a"], (b"", b"groundreg: dictionary refused\n", 4)),
        (["init", "--store", "s", "--dictionary", "mini"], (b"created\n", b"", 0)),
        (["init", "--store=s", "--dictionary=mini"], (b"", b"groundreg: store not empty\n", 4)),
        ([*deposit, "t-delta"], (b"receipt 1 2024-06-01\n", b"", 0)), ([*deposit, "t-gamma"], (b"denied 5\n", b"", 2)),
        (["list", "--day", today, *with_token, "t-delta"], (b"1 Delta 2024-06-01\n", b"", 0)),
        (["extract", "1", "--day", "2024-05-31", *with_token, "t-echo"], (b"unknown\n", b"", 3)),
        (["extract", "1", "--day", "2024-06-01", *with_token, "t-echo"], (FILE_A, b"", 0)),
        (["list", "--project", "N 1", *with_token[:6], "--token", "t-delta"],
         (b"", b"groundreg: project refused\n", 4)),
        (["check", "--dictionary", "mini", "a"], (b"clean\n", b"", 0)),
        (["check", "--dictionary", "mini", "none"], (b"", b"groundreg: cannot read none\n", 6)),
        (["list", *["empty" if word == "s" else word for word in with_token], "t-delta"],
         (b"", b"groundreg: not a register\n", 4)),
        (["list", *["junk" if word == "s" else word for word in with_token], "t-delta"],
         (b"", b"groundreg: store failed\n", 5)),
        (["list", *["nowhere/s" if word == "s" else word for word in with_token], "t-delta"],
         (b"", b"groundreg: store failed\n", 5)),
        (["list", *with_token, "t-delta", "\udcff"], (b"", b"groundreg: words refused\n", 4)),
    ]:
        yield " ".join(words).replace("\udcff", "(a byte FF)"), computer.run(words, today), want
    serving = ["serve", "--port", "8017", "--connections", "2", "--day", today, "--policy", "q", "--callers", "c",
               "--store"]
    post = head("POST /v1/projects/N1/deposits?embargo=2024-06-01 HTTP/1.1", "t-delta", "Content-Length: 543") + FILE_A
    for name, words, is_free, want in [
        ("serve", [*serving, "s"], True, (b"listening 127.0.0.1:8017\n200\n404\n", b"", 0)),
        ("serve, a port that is taken", [*serving, "s"], False, (b"", b"groundreg: cannot listen\n", 6)),
        ("serve, that and no register", [*serving, "none"], False, (b"", b"groundreg: not a register\n", 4)),
    ]:
        given = [post, head("GET /v1/projects/N1/deposits/999 HTTP/1.1", "t-echo")]
        yield name, computer.serve(words, today, given, is_free)[0], want
    yield from migrations(computer, today)


def migrations(computer, today):
    """Withdrawals by command line, and a register of format 1, which every command but `migrate` refuses."""
    computer.files["w"] = WITHDRAWING.encode()
    asking = [f"--{word}" for word in ("store=s", "callers=c", "project=N1", "day=2024-06-01")]
    withdraw = ["withdraw", *asking, "1", "--policy=w", "--token"]
    listing, unknown = ["list", *asking, "--policy=q", "--token=t-delta"], (b"unknown\n", b"", 3)
    denied = (b"denied 0\n", b"", 2)

    def fault(text, status=4):
        return b"", f"groundreg: {text}\n".encode(), status

    def version(number):
        return fault(f"register version {number}")
    refused, not_one = fault("words refused"), fault("not a register")
    for words, want in [
        (["withdraw"], refused), (["withdraw", *asking, "--policy=w", "--token=t-delta"], refused),
        ([*withdraw, "t-delta", "--groups=LOCA"], refused), ([*withdraw, "t-x"], fault("token refused")),
        ([*withdraw[:5], "0", *withdraw[6:], "t-delta"], fault("number refused")),
        (["withdraw", *asking, "1", "--policy=q", "--token=t-delta"], denied), ([*withdraw, "t-echo"], denied),
        ([*withdraw, "t-foxtrot"], unknown), *[([*withdraw, "t-delta"], (b"withdrawn 1\n", b"", 0))] * 2,
        (listing, (b"", b"", 0)), (["extract", *asking, "1", "--policy=q", "--token=t-delta"], unknown),
        (["migrate"], refused), (["migrate", "--store=s", "s"], refused), (["migrate", "--store=s"], version(2)),
        (["migrate", "--store=none"], not_one), (["migrate", "--store=empty"], not_one),
        *[(["migrate", f"--store={path}"], fault("store failed", 5)) for path in ("junk", "nowhere/s")],
    ]:
        yield " ".join(words), computer.run(words, today), want
    old = computer.files["s"] = Register()
    old.deposits, old.format = [unmarked("Delta", "N1", "2024-06-01", FILE_A)], 1
    for words, want in [
        (listing, version(1)), ([*withdraw, "t-delta"], version(1)),
        (["init", "--store=s", "--dictionary=mini"], fault("store not empty")),
        (["migrate", "--store=s"], (b"migrated\n", b"", 0)), (["migrate", "--store=s"], version(2)),
        (listing, (b"1 Delta 2024-06-01\n", b"", 0)), ([*withdraw, "t-delta"], (b"withdrawn 1\n", b"", 0)),
    ]:
        yield " ".join(["of format 1:", *words]), computer.run(words, today), want
    for number, opened, migrated in [(None, not_one, not_one), (1, version(1), not_one), (2, not_one, version(2)),
                                     (7, version(7), version(7))]:
        computer.files["s"] = Damaged(number)
        for words, want in ((listing, opened), (["migrate", "--store=s"], migrated)):
            yield f"damaged, format {number}: {words[0]}", computer.run(words, today), want


def main():
    passed = failed = 0
    for name, got, want in [*examples(), *runs()]:
        if got == want:
            passed += 1
        else:
            failed += 1
            print(f"{name}: {got!r}\n  wanted {want!r}")
    print(f"{passed} passed, {failed} failed")
    return failed > 0


if __name__ == "__main__":
    sys.exit(main())
