#!/usr/bin/env python3
"""Random stories of registers, run by the program and by the second implementation (machine.py) side by side.

usage: stories.py PROGRAM [COUNT [SEED [FIRST]]]      the last line is 'N passed, M failed'

A story makes a folder with dictionaries, policies, callers and bodies, some of them refused, and runs the program
there: by command line, and over a socket with `serve`, raw and malformed requests among them. Statuses, standard
output, standard error and the bytes of each reply are compared; a story ends at its first difference, which is
printed. A seed gives the same stories each time, and `stories.py PROGRAM 1 SEED FIRST` runs story FIRST alone. Two
stories run at a time."""
import datetime
import functools
import multiprocessing
import os
import random
import re
import shutil
import socket
import sqlite3
import subprocess
import sys
import tempfile
import time
sys.dont_write_bytecode = True
import bodies  # noqa: E402
import compare  # noqa: E402
import machine  # noqa: E402
import servers  # noqa: E402
from machine import ags  # noqa: E402

FIRMS = ["Delta", "Gamma", "Foxtrot", "Echo"]
DAYS = ["2024-06-02", "2024-06-02", "2024-06-01", "2024-05-31", "2030-01-01", "1970-01-01", "9999-12-31"]
EMBARGOES = ["2024-06-01", "2024-06-01", "2024-06-02", "2024-05-01", "1970-01-01", "9999-12-31"]
BAD_DAYS = ["2024-6-1", "2023-02-29", "1969-12-31", "10000-01-01", "", "today", "2024-06-01 ", "2024/06/01",
            "2024-00-10", "2024-13-01"]
PROJECTS = [*["N1"] * 12, "N2", "x" * 32, "_-_"]
BAD_PROJECTS = ["N 1", "", "x" * 33, "N1/", "N.1", "é"]
GROUPS = ["", "LOCA", "LOCA,SAMP", "SAMP,FILE", "LNMC,NONE", "LOCA,LOCA", "PROJ", "TRAN", "A1"]
BAD_GROUPS = ["loca", "LOCA,", ",", "LOCAS", "LOCA SAMP", "LOCA;SAMP"]
BAD_NUMBERS = ["0", "007", "1000000", "x", "", "+1", "1.0", " 1", "1 "]


class Differs(Exception):
    """The program answered otherwise than the model: what was asked, what the model answers, what came."""


# ---- policies, callers, dictionaries, bodies

def toml_text(text):
    """A text as TOML has it between quotes."""
    return '"' + text.replace("\\", "\\\\").replace('"', '\\"') + '"'


def any_policy(chance):
    """Rules with any keys: few of them make sense."""
    keys = {"firm": [*FIRMS, "*"], "role": ["contractor", "consultant", "*"], "project": ["N1", "N2", "*"],
            "verb": [*machine.VERBS, "see", "*"],
            "group": ["PROJ", "LOCA", "SAMP", "FILE", "LNMC", "*"], "owner": ["own", "other", "*"],
            "embargo": ["past", "running", "*"]}
    out, number = "", 0
    for _ in range(chance.randrange(8)):
        number += chance.randrange(1, 9)
        out += f"[[rule]]\nnumber = {number}\neffect = \"{chance.choice(['permit', 'permit', 'permit', 'deny'])}\"\n"
        for key, words in keys.items():
            if chance.random() < 0.22:
                out += f'{key} = "{chance.choice(words)}"\n'
        if chance.random() < 0.3:
            out += bodies.rule_days(chance)
        if chance.random() < 0.15:
            heading, value = chance.choice([("LOCA_STAT", "PRELIM"), ("SAMP_REF", "S1"), ("FILE_FSET", ""),
                                            ("LOCA_ID", "BH2"), ("NONE", "x"), ("LNMC_MC", 'x, "y"')])
            out += f"heading = {toml_text(heading)}\nvalue = {toml_text(value)}\n"
    return out


def policy(chance):
    usual = [machine.POLICY, machine.WITHDRAWING, bodies.policy(chance), bodies.policy(chance)]
    text = any_policy(chance) if chance.random() < 0.12 else chance.choice(usual)
    return ("# who may do what\n" if chance.random() < 0.1 else "") + text


def refused_days(chance):
    """The lines of a rule with a day that may not be there, or with a last day before the first."""
    day = toml_text(chance.choice(DAYS))
    values = ['"*"', chance.choice(["2024-06-01", "2024-06-01T10:00:00Z"]),
              chance.choice(["20240601", "true", f"[{day}]", f"{{day = {day}}}"]), toml_text(chance.choice(BAD_DAYS))]
    if chance.random() < 0.2:
        return 'from = "2024-06-02"\nuntil = "2024-06-01"\n'
    lines = [f"{key} = {value}\n"
             for key, value in zip(chance.sample(machine.DAY_KEYS, 2), (chance.choice(values), day))]
    return "".join(lines[:chance.randrange(1, 3)])


def refused_policy(chance):
    text = policy(chance) or machine.POLICY
    return chance.choice([
        lambda: text.replace("number = ", "number = 9", 1) + '[[rule]]\nnumber = 1\neffect = "deny"\n',
        lambda: text.replace('"permit"', '"allow"', 1), lambda: text + "colour = 1\n",
        lambda: text + "[[rule]]\nnumber = 9999\n", lambda: text + "[[rule", lambda: "rule = 3\n",
        lambda: "[rule]\nnumber = 1\n", lambda: text + '[[rule]]\nnumber = 10000\neffect = "deny"\n',
        lambda: text + '[[rule]]\nnumber = 9998\neffect = "deny"\nverb = "delete"\n',
        *[lambda: text + '[[rule]]\nnumber = 9998\neffect = "deny"\n' + refused_days(chance)] * 3,
        lambda: text + '[[rule]]\nnumber = 9998\neffect = "deny"\nheading = "LOCA_ID"\n',
        lambda: text + '[[rule]]\nnumber = 9998\neffect = "deny"\ngroup = "loca"\n', lambda: text + "\x00",
        lambda: text + '[[caller]]\ntoken = "t"\n'])().encode()


def callers(chance):
    """The text of callers, with some tokens that are hard to spell."""
    rows = [("t-" + firm.lower(), firm, "consultant" if firm == "Echo" else "contractor") for firm in FIRMS]
    odd = ["!", "~" * 64, "a=b", "-x", "--day", "t,u", "'\"\\", "#", "[[", "Bearer"]
    rows += [(token, chance.choice(FIRMS), chance.choice(["contractor", "consultant", "r"]))
             for token in chance.sample(odd, chance.randrange(3))]
    chance.shuffle(rows)
    return "".join(f"[[caller]]\ntoken = {toml_text(token)}\nfirm = \"{firm}\"\nrole = \"{role}\"\n"
                   for token, firm, role in rows)


def refused_callers(chance):
    text = callers(chance)
    more = "[[caller]]\ntoken = {}\nfirm = \"F\"\nrole = \"r\"\n"
    return (text + chance.choice([
        more.format('"t-delta"'), more.format('""'), more.format(toml_text("x" * 65)), more.format('"a b"'),
        more.format('"é"'), more.format("1"), '[[caller]]\ntoken = "n"\nfirm = "F G"\nrole = "r"\n',
        '[[caller]]\ntoken = "n"\n', "name = 1\n", "[[caller", "[caller]\n"])).encode()


def dictionary(chance):
    """The bytes of a dictionary that is read: the small one, or another."""
    entries = ags.built_in().standard
    if chance.random() < 0.7:
        return machine.spelled_dictionary(entries)
    for _ in range(chance.randrange(1, 4)):
        k = chance.randrange(len(entries))
        entries = chance.choice([
            lambda: entries[:k] + entries[k + 1:], lambda: entries + [entries[k]],
            lambda: [("G", b"ABCD", b"LOCA"), *entries], lambda: entries + [("H", b"LOCA", b"LOCA_XTRA", b"OTHER")],
            lambda: entries + [("H", b"SAMP", b"\xc3\xa9", b"KEY")],
            lambda: [("H", b"LNMC", b"LNMC_MC", b"REQUIRED"), *entries], lambda: entries[k:] + entries[:k]])()
    text = machine.spelled_dictionary(entries)
    return text.replace(b"\r\n", b"\n") if chance.random() < 0.3 else text


def refused_dictionary(chance):
    text = machine.spelled_dictionary(ags.built_in().standard)
    return chance.choice([b"", machine.FILE_A, b"".join(machine.lines(text)[:4]),
                          text.replace(b"DICT_PGRP", b"DICT_XXXX"), text + b"x\r\n",
                          text.replace(b'"DATA"', b'"DATUM"', 1), text + text])


def body(chance, names):
    """The bytes of a file: clean ones for the most part."""
    kind = chance.randrange(12)
    if kind < 7:
        return bodies.clean_body(chance)
    if kind < 9:
        return chance.choice([machine.FILE_A, machine.FILE_B, machine.file_c(), b""])
    with open(chance.choice(names), "rb") as file:
        data = file.read()
    return data if kind == 9 else compare.change(data if kind == 10 else bodies.body(chance), chance)


# ---- arguments

def spelling(chance, command, options, places):
    """The arguments of a command: options in any order and in both spellings, before, between and after the other
    arguments."""
    items = []
    for name, value in options.items():
        if value is None:
            items.append([f"--{name}"])
        elif value.startswith("-") or chance.random() < 0.3:
            items.append([f"--{name}={value}"])
        else:
            items.append([f"--{name}", value])
    items += [[place] for place in places]
    chance.shuffle(items)
    return [command, *(word for item in items for word in item)]


def misspelt(chance, words):
    """The arguments with one thing wrong."""
    words = list(words)
    k = chance.randrange(len(words))
    kind = chance.randrange(8)
    if kind == 0:
        del words[k]
    elif kind == 1:
        words.insert(max(k, 1),
                     chance.choice(["more", "", "--help", "-h", "-V", "--version", "--colour", "--colour=1", "-x",
                                    "\udcff", "é", "-", "--embargo=2024-06-01", "--port=1"]))
    elif kind == 2:
        words += words[1:3]
    elif kind == 3:
        words[0] = chance.choice(["withdraw", "withdrawn", "migrate", "help", "", "Init", "ini", "--help", "-h", "--",
                                  "\udc80", "--store", "checks"])
    elif kind == 4:
        words[k] = words[k][:-1]
    elif kind == 5:
        words[k] = words[k] + "\udcfe"
    elif kind == 6:
        words = words[:-1]
    else:
        words = [word.replace("--", "-", 1) if n == k else word for n, word in enumerate(words)]
    return [word for n, word in enumerate(words) if word != "--" or n == 0]


# ---- requests over a socket

def fields_of(chance, token, length):
    """The fields of a head; some that nobody asks for."""
    fields = [b"Authorization: Bearer " + token]
    if length is not None:
        fields.append(b"Content-Length: " + length)
    more = [b"Host: localhost", b"User-Agent: story", b"Accept: */*", b"X-Empty:", b"X-Tab:\ta\tb\t",
            b"X-High: \xe9\xff", b"Connection: keep-alive", b"Expect: 100-continue", b"x:" + b"y" * 300]
    fields += chance.sample(more, chance.choice([0, 0, 1, 2, 3]))
    chance.shuffle(fields)
    return fields


def twisted(chance, method, target, fields):
    """A head with one thing changed, most of which are refused."""
    at = chance.randrange(len(fields)) if fields else 0
    kind = chance.randrange(14)
    if kind == 0:
        method = chance.choice([b"PUT", b"DELETE", b"HEAD", b"get", b"OPTIONS", b"G", b"GET ", b"POST", b"GET"])
    elif kind == 1:
        target = chance.choice([b"/", b"/v1", b"/v1/projects", b"/v1/projects//deposits",
                                target.replace(b"/v1", b"/V1"), target + b"/", target.split(b"?")[0] + b"/x", b"*",
                                b"http://h" + target, target + b"#x",
                                target.replace(b"N1", b"N%31"), target.replace(b"N1", b"\xc3\xa9"),
                                target.replace(b"N1", b"\xff"), target.replace(b"deposits", b"check"),
                                target.replace(b"N1", b"N 1")])
    elif kind == 2:
        target += chance.choice([b"?", b"?&&", b"?x", b"?x=1", b"?embargo=2024-06-02", b"?embargo",
                                 b"?embargo=2024-6-2", b"?groups=LOCA%2CSAMP", b"?groups=LOCA,", b"?groups",
                                 b"?%67roups=LOCA", b"?groups=LOCA&groups=LOCA",
                                 b"?embargo=2024-06-02&embargo=2024-06-02", b"?groups=+LOCA", b"?embargo=2024%2d06-02",
                                 b"?groups=%", b"?groups=%ff", b"?=", b"?groups=LOCA?",
                                 b"?&embargo=2024-06-02&", b"&x=1"])
    elif kind == 3 and fields:
        fields[at:at + 1] = []
    elif kind == 4 and fields:
        fields.insert(at, fields[at])
    elif kind == 5:
        fields.append(chance.choice([b"Transfer-Encoding: chunked", b"transfer-encoding:", b"Content-Length: 0",
                                     b"content-length: x", b"AUTHORIZATION: Bearer t-echo",
                                     b"Authorization : Bearer t-echo", b" folded: x", b"X: \x01", b"X", b": x",
                                     b"X\xc3: y", b"X: \x7f", b"Content-Length: %d" % (machine.LIMIT + 1)]))
    elif kind == 6:
        schemes = [b"bearer ", b"Bearer  ", b"Bearer\t", b"Basic ", b"", b"Bearer"]
        fields = [field.replace(b"Bearer ", chance.choice(schemes)) for field in fields]
    elif kind == 7:
        names = [b"authorization:", b"AuThOrIzAtIoN:  \t", b"Authorisation: "]
        fields = [field.replace(b"Authorization: ", chance.choice(names)) for field in fields]
    elif kind == 8:
        fields += [b"X-%d: 1" % n for n in range(chance.choice([32, 33]) - len(fields))]
    elif kind == 9:
        size = len(method) + len(target) + 12 + sum(len(field) + 2 for field in fields) + 2
        fields.append(b"X: " + b"y" * (chance.choice([8192, 8193, 9000]) - size - 5))
    elif kind == 10:
        signs = [b"0", b"00000000", b"+", b"-", b"9", b"1", b"0x", b"1 "]
        fields = [field.replace(b"Content-Length: ", b"Content-Length: " + chance.choice(signs)) for field in fields]
    elif kind == 11:
        fields = [field.replace(b"Bearer t-", b"Bearer T-") for field in fields]
    elif kind == 12:
        method = b"\r\n\r\n" + method
    else:
        fields = [field.replace(b": ", chance.choice([b":", b":\t ", b" : "]), 1) for field in fields]
    return method, target, fields


def token_for(chance, kind, tokens):
    is_of_firm = kind in ("deposit", "withdraw") and chance.random() < 0.7
    return chance.choice(["t-delta", "t-foxtrot"]) if is_of_firm else chance.choice(tokens)


def number_for(chance, count):
    return str(chance.randrange(1, count + 1) if count and chance.random() < 0.9 else count + 1)


def request(chance, tokens, texts, count):
    """The bytes that a connection gives."""
    project = chance.choice(PROJECTS).encode()
    kind = chance.choice(["deposit", "deposit", "check", "list", "extract", "extract", "extract", "withdraw"])
    token = token_for(chance, kind, tokens).encode() if chance.random() < 0.95 else b"nobody"
    method, data, length = b"GET", b"", None
    target = b"/v1/projects/" + project + (b"/check" if kind == "check" else b"/deposits")
    if kind in ("deposit", "check"):
        method, data = b"POST", chance.choice(texts)
        length = str(len(data)).encode()
    if kind == "deposit" and chance.random() < 0.6:
        day = chance.choice(EMBARGOES if chance.random() < 0.9 else BAD_DAYS)
        target += b"?embargo=" + day.replace(" ", "+").encode()
    if kind == "withdraw":
        method = b"DELETE"
        if chance.random() < 0.1:
            data, length = chance.choice([(b"", b"0"), (b"more", b"4"), (b"more", b"99"), (b"", b"x")])
    if kind in ("extract", "withdraw"):
        number = number_for(chance, count) if chance.random() < 0.95 else chance.choice(BAD_NUMBERS).replace(" ", "%20")
        target += b"/" + number.encode()
        if kind == "extract" and chance.random() < 0.5:
            groups = chance.choice(GROUPS if chance.random() < 0.9 else BAD_GROUPS)
            target += b"?groups=" + groups.replace(" ", "+").encode()
    fields = fields_of(chance, token, length)
    while chance.random() < 0.25:
        method, target, fields = twisted(chance, method, target, fields)
    end = b"\n" if chance.random() < 0.05 else b"\r\n"
    versions = [b"HTTP/1.0", b"HTTP/1.2", b"HTTP/2", b"http/1.1", b"", b"HTTP/1.1 "]
    version = chance.choice(versions) if chance.random() < 0.05 else b"HTTP/1.1"
    out = end.join([b" ".join([method, target, version]), *fields, b"", b""]) + data
    luck = chance.random()
    if luck < 0.05:
        return out[:chance.randrange(len(out))]
    if luck < 0.1:
        return out + b"more"
    if luck < 0.15:
        at = chance.randrange(min(len(out), 200))
        return out[:at] + bytes([chance.choice(b"\x00\x01\t\n\r :/?\x7f\x80\xff\"<>")]) + out[at + chance.randrange(2):]
    return out


def needs_no_end(data, answer):
    """Whether a request tells by itself where it ends, so that its peer may keep its side open."""
    return machine.head_of(data) is not None and b"short body" not in answer


# ---- a story

def marked(register, is_withdrawn):
    """The deposits of a register, each of them withdrawn, or none."""
    return [{**deposit, "withdrawn": is_withdrawn} for deposit in register.deposits]


def asking(*words, store="s", **other):
    return servers.asking(*words, store=store, policy="p", callers="c", **other)


def register_like(other, deposits, number=machine.FORMAT):
    """A register with the dictionary of another one, and these deposits."""
    register = machine.Register(other.words)
    register.files, register.deposits, register.format = other.files, deposits, number
    return register


class Story(servers.Place):
    """A place of which each start is compared with the model's. Paths are relative to its folder."""

    patience = 60

    def __init__(self, chance, program, folder):
        super().__init__(program, folder, files={"empty": b""})
        self.chance, self.asked = chance, {"runs": 0, "connections": 0}
        self.computer.folders |= {".", "sub"}
        os.mkdir(self.path("sub"))

    def compare(self, what, want, got):
        if want != got:
            raise Differs(what, want, got)

    def same(self, words, given=b""):
        """Compares a start with these words."""
        want = self.computer.run(words, servers.now()[:10], given)
        self.asked["runs"] += 1
        raw = [word.encode("utf-8", "surrogateescape") for word in words]
        self.compare(words, want, self.run(*raw, given=given))
        return want

    def connect(self, port):
        connection = servers.connection_to(port, self.patience)
        connection.setsockopt(socket.IPPROTO_TCP, socket.TCP_NODELAY, 1)
        return connection

    def speak(self, connection, data, answer):
        """Sends a request in pieces or whole, with its side open or closed, or breaks off."""
        if data is None:
            connection.sendall(self.chance.choice([b"", b"GET / HT", servers.post(b"check", b"abc", b"t-echo", 10)]))
            return servers.reset(connection)
        cut = self.chance.randrange(len(data) + 1) if self.chance.random() < 0.2 else 0
        if cut:
            servers.sent(connection, data[:cut], True)
            time.sleep(0.001)
        return servers.sent(connection, data[cut:], needs_no_end(data, answer) and self.chance.random() < 0.4)

    def session(self, options, given):
        """Starts `serve`, makes these connections, one by one or all at once, and compares what is printed and what is
        answered."""
        port = servers.free_port()
        words = spelling(self.chance, "serve", {**options, "port": str(port), "connections": str(len(given))}, [])
        want, replies = self.computer.serve(words, servers.now()[:10], given)
        process = self.start(*words)
        self.asked["runs"] += 1
        try:
            out = servers.printed_line(process, self.patience)
            if replies and out:
                out += self.talk(process, port, words, given, replies)
            rest, fault = process.communicate(timeout=self.patience)
            self.compare(words, want, (out + rest, fault, process.returncode))
            if replies and "log" in options:
                self.compare_log(words, options, given, want[0].decode().split()[2:], replies)
        finally:
            process.kill()
            process.wait()

    def compare_log(self, words, options, given, statuses, replies):
        """Compares the lines that were appended to the log. Of a connection that broke off it may have a head or
        none."""
        callers = machine.read_callers(self.computer.files[options["callers"]].decode())
        lines = self.got(options["log"]).decode("ascii").splitlines()[-len(given):]
        for data, status, reply, line in zip(given, statuses, replies, lines, strict=True):
            parts = re.fullmatch(r"\d{4}-\d\d-\d\dT\d\d:\d\d:\d\dZ (.*) \d+ (\d+) \d+ (\S+ \S+ \S+ \S+)", line)
            got = parts and (parts[1], int(parts[2]), parts[3])
            if data is None:
                want, got = ("fault", 0), got and (got[0].split()[-1], got[1])
            else:
                want = machine.logged(callers, data, status, reply)
            self.compare((words, data, "its line of the log", line), want, got)

    def talk(self, process, port, words, given, replies):
        """Makes the connections; what was printed meanwhile."""
        self.asked["connections"] += len(given)
        out = b""
        at_once = self.chance.random() < 0.3
        connections = [self.connect(port) for _ in given] if at_once else []
        order = list(range(len(given)))
        if at_once:
            self.chance.shuffle(order)
            for n in order:
                self.speak(connections[n], given[n], replies[n])
        for n, data in enumerate(given):
            if not at_once:
                connections.append(self.connect(port))
                self.speak(connections[n], data, replies[n])
            if data is not None:
                self.compare((words, data), replies[n], servers.received(connections[n]))
            if not at_once:
                line = servers.printed_line(process, self.patience)
                self.compare((words, data, "its line at once"), True, line.endswith(b"\n"))
                out += line
        return out

    # ---- what happens in a story

    def setting(self, names):
        """The files of a story, and a register with nothing in it."""
        chance = self.chance
        self.put("junk", b"no database, but some text\n" * chance.choice([1, 50]))
        self.put("d", dictionary(chance))
        self.put("d-bad", refused_dictionary(chance))
        self.put("p", policy(chance).encode())
        self.put("p-more", policy(chance).encode())
        self.put("p-bad", refused_policy(chance))
        self.put("c", callers(chance).encode())
        self.put("c-bad", refused_callers(chance))
        self.put("bytes", b"[[rule]]\n# \xff\n")
        self.texts = [body(chance, names) for _ in range(chance.randrange(2, 6))]
        for n, text in enumerate(self.texts):
            self.put(f"b{n}", text)
        self.tokens = sorted(machine.read_callers(self.computer.files["c"].decode()))
        if chance.random() < 0.3:
            options = {"store": chance.choice(["s", "junk", "sub", "nowhere/s", "sub/s"]),
                       "dictionary": chance.choice(["d", "d-bad", "none", "junk"])}
            self.same(self.maybe_misspelt(spelling(chance, "init", options, [])))
        if not isinstance(self.computer.files.get("s"), machine.Register):
            self.same(spelling(chance, "init", {"store": "s", "dictionary": "d"}, []))

    def maybe_misspelt(self, words):
        return misspelt(self.chance, words) if self.chance.random() < 0.06 else words

    def mostly(self, usual, others):
        return self.chance.choice(usual if self.chance.random() < 0.95 else others)

    def count(self):
        return len(self.computer.files["s"].deposits)

    def by_words(self):
        """One run by command line."""
        chance = self.chance
        usual = ["deposit", "deposit", "list", "extract", "extract", "withdraw"]
        command = chance.choice([*usual, "check", "init", "migrate", "nothing"] if self.count() else ["deposit"])
        file = self.mostly([f"b{n}" for n in range(len(self.texts))], ["none", "sub", "p", "none é"])
        if command == "nothing":
            return self.same([], chance.choice(self.texts))
        if command == "init":
            stores = ["s", "empty", "junk", "sub", "sub/s", "nowhere/s", "new"]
            options = {"store": chance.choice(stores), "dictionary": self.mostly(["d"], ["d-bad", "none"])}
            return self.same(self.maybe_misspelt(spelling(chance, command, options, [])))
        if command == "migrate":
            store = chance.choice(["s", "s", "empty", "junk", "sub", "sub/s", "nowhere/s", "none"])
            return self.same(self.maybe_misspelt(spelling(chance, command, {"store": store}, [])))
        if command == "check":
            options = {"dictionary": self.mostly(["d"], ["d-bad", "none", "sub"])}
            return self.same(self.maybe_misspelt(spelling(chance, command, options, [file])))
        options = {"store": self.mostly(["s"], ["none", "new", "empty", "junk", "sub", "nowhere/s"]),
                   "policy": self.mostly(["p", "p", "p-more"], ["p-bad", "none", "sub", "bytes"]),
                   "callers": self.mostly(["c"], ["c-bad", "none", "bytes", "sub"]),
                   "token": self.mostly([token_for(chance, command, self.tokens)], ["nobody", "", "T-delta"]),
                   "project": self.mostly(PROJECTS, BAD_PROJECTS)}
        if chance.random() < 0.85:
            options["day"] = self.mostly(DAYS, BAD_DAYS)
        places = []
        if command == "deposit":
            places = [file]
            if chance.random() < 0.7:
                options["embargo"] = self.mostly(EMBARGOES, BAD_DAYS)
        if command in ("extract", "withdraw"):
            places = [self.mostly([number_for(chance, self.count())], BAD_NUMBERS + ["999999"])]
            if command == "extract" and chance.random() < 0.5:
                options["groups"] = self.mostly(GROUPS, BAD_GROUPS)
        out, _, status = self.same(self.maybe_misspelt(spelling(chance, command, options, places)))
        if command == "extract" and status == 0 and out and chance.random() < 0.5:
            self.texts.append(out)
            self.put(f"b{len(self.texts) - 1}", out)
        return None

    def by_socket(self):
        """One start of `serve` with some connections."""
        chance = self.chance
        options = {"store": self.mostly(["s"], ["none", "junk"]),
                   "policy": self.mostly(["p", "p", "p-more"], ["p-bad", "none"]),
                   "callers": self.mostly(["c"], ["c-bad", "none"])}
        if chance.random() < 0.85:
            options["day"] = self.mostly(DAYS, BAD_DAYS)
        elif chance.random() < 0.5:
            options["day-by-clock"] = None
        more = {"patience": chance.choice(["60", "3600"]), "end-on-failure": None,
                "log": self.mostly(["log", "sub/log"], ["sub", "nowhere/log"])}
        options.update((name, value) for name, value in more.items() if chance.random() < 0.2)
        given, count = [], self.count()
        for _ in range(chance.randrange(1, 12)):
            luck = chance.random()
            given.append(None if luck < 0.03 else b"" if luck < 0.06
                         else request(chance, self.tokens, self.texts, count))
            count = max(count, 1)
        self.session(options, given)

    def refused_serve(self):
        """A start of `serve` that ends before it listens."""
        chance = self.chance
        options = {"store": "s", "policy": "p", "callers": "c"}
        kind = chance.randrange(3)
        if kind == 0:
            with socket.socket() as taken:
                taken.bind(("127.0.0.1", 0))
                taken.listen()
                options.update(store=self.mostly(["s"], ["none"]), port=str(taken.getsockname()[1]), connections="1")
                words = spelling(chance, "serve", options, [])
                want, _ = self.computer.serve(words, "2024-06-01", [], False)
                self.asked["runs"] += 1
                return self.compare(words, want, self.run(*words))
        bad = chance.choice([{"port": "0"}, {"port": "65536"}, {"port": "+80"}, {"port": "x"}, {"port": ""},
                             {"connections": "0"}, {"connections": "1000001"}, {"connections": "-1"},
                             {"connections": "1e3"}, {"port": "99999999999999999999"}])
        if kind == 1:
            return self.same(spelling(chance, "serve", {**options, "port": "8017", "connections": "1", **bad}, []))
        # a store that is none ends it before it listens, whatever else is right
        options = {**options, "store": "none", "port": "8017", "connections": "1"}
        return self.same(self.maybe_misspelt(spelling(chance, "serve", options, [])))

    def damages(self):
        """Statements of another program, each with what is there afterwards where it changes something."""
        held = self.computer.files["s"]
        yield "UPDATE meta SET num = 7 WHERE name = 'format'", machine.Damaged(7)
        yield "UPDATE meta SET num = 0 WHERE name = 'format'; DELETE FROM steps", machine.Damaged(0)
        yield "DELETE FROM meta", machine.Damaged()
        yield "DROP TABLE withdrawals", machine.Damaged(2)
        # A database with a reference to no row cannot be opened, as if it were none.
        yield f"INSERT INTO withdrawals VALUES ({len(held.deposits) + 1})", b"none"
        yield "DELETE FROM withdrawals", register_like(held, marked(held, False))
        yield "INSERT OR IGNORE INTO withdrawals SELECT number FROM deposits", register_like(held, marked(held, True))
        yield from ((statement, machine.Damaged(2)) for statement in self.spoils())

    def spoils(self):
        """Statements after which a register of either format is none, where they change something."""
        one = "WHERE number = (SELECT max(number) FROM deposits)"
        yield "DELETE FROM meta WHERE name = 'dictionary'"
        yield "UPDATE meta SET body = x'00' WHERE name = 'dictionary'"
        yield f"UPDATE deposits SET firm = 'N 1' {one}"
        yield f"UPDATE deposits SET embargo = -1 {one}"
        yield f"UPDATE deposits SET body = x'' {one}"
        yield f"INSERT INTO deposits SELECT number + 2, firm, 'other', embargo, body FROM deposits {one}"
        yield "DELETE FROM lines WHERE deposit = (SELECT max(number) FROM deposits) AND seq = 0"
        yield "UPDATE lines SET kind = 3 WHERE kind = 4"
        yield "DELETE FROM steps WHERE deposit = (SELECT max(number) FROM deposits)"

    def written(self, statement):
        """Another hand writes into the copy of the register. Whether it changed anything."""
        connection = sqlite3.connect(self.path("t"))
        connection.executescript(statement)
        changes = connection.total_changes
        connection.close()
        return changes > 0 or "TABLE" in statement

    def damage(self):
        """Another hand changes a copy of the register, or makes it one of format 1; it is opened and migrated."""
        self.copy("s", "t")
        held = self.computer.files["s"]
        if self.chance.random() < 0.5:
            self.written("; ".join(servers.TO_FORMAT_1))
            found = register_like(held, marked(held, False), 1)
            if self.chance.random() < 0.7 and self.written(self.chance.choice(list(self.spoils()))):
                found = machine.Damaged(1)
        else:
            statement, found = self.chance.choice(list(self.damages()))
            found = found if self.written(statement) else register_like(held, list(held.deposits))
        self.computer.files["t"] = found
        for words in (["list"], ["migrate"], ["list"], ["extract", "1"], ["withdraw", "1"]):
            self.same([*words, "--store=t"] if words == ["migrate"] else asking(*words, store="t"))

    def largest(self):
        """A file at the limit, and one above it."""
        clean = machine.FILE_A
        self.put("long", clean + b" " * (machine.LIMIT - len(clean) + self.chance.randrange(2)))
        for token in self.chance.sample(["t-delta", "t-echo"], 2):
            self.same(asking("deposit", "long", token=token))
        self.same(["check", "--dictionary", "d", "long"])

    def tell(self, names):
        chance = self.chance
        self.setting(names)
        for _ in range(chance.randrange(1, 3)):
            for _ in range(chance.randrange(1, 5)):
                self.by_words()
            self.by_socket()
        if chance.random() < 0.2:
            self.refused_serve()
        if chance.random() < 0.3:
            self.damage()
        if chance.random() < 0.01:
            self.largest()
        self.same(asking("list", day="2024-06-02"))


def shortened(value):
    text = repr(value)
    return text if len(text) < 3000 else f"{text[:1500]} .. {text[-1500:]}"


def told(program, names, seed, number):
    """Tells one story: what was asked, and its difference where it has one."""
    folder = tempfile.mkdtemp(prefix="story")
    story = Story(random.Random(f"{seed} {number}"), program, folder)
    now = datetime.datetime.now(datetime.timezone.utc)
    if (now.hour, now.minute) == (23, 59):
        time.sleep(61 - now.second)  # no story runs over midnight
    try:
        story.tell(names)
        return number, None, story.asked
    except Differs as difference:
        what, want, got = map(shortened, difference.args)
        return number, f"{what}\n  wanted {want}\n  got    {got}", story.asked
    except (OSError, sqlite3.Error, subprocess.TimeoutExpired) as fault:
        return number, f"{type(fault).__name__}: {fault}", story.asked
    finally:
        shutil.rmtree(folder)


def main():
    if len(sys.argv) < 2:
        sys.exit(__doc__)
    program = os.path.abspath(sys.argv[1])
    count, seed, first = (int(sys.argv[n]) if len(sys.argv) > n else usual for n, usual in ((2, 300), (3, 1), (4, 1)))
    files = os.path.join(os.path.dirname(os.path.abspath(__file__)), "files")
    names = sorted(os.path.join(files, name) for name in os.listdir(files) if name.endswith(".ags"))
    passed = failed = runs = connections = 0
    with multiprocessing.Pool(2) as pool:
        for number, difference, asked in pool.imap(functools.partial(told, program, names, seed),
                                                   range(first, first + count)):
            passed += difference is None
            failed += difference is not None
            runs, connections = runs + asked["runs"], connections + asked["connections"]
            if difference:
                print(f"story {number} of seed {seed}: {difference}", flush=True)
    print(f"({runs} starts of the program and {connections} connections)")
    print(f"{passed} passed, {failed} failed")
    return failed > 0


if __name__ == "__main__":
    sys.exit(main())
