#!/usr/bin/env python3
"""Random files without findings, policies and days, and what the second implementation (machine.py, the model) or the
program makes of them.

usage: bodies.py [COUNT [SEED [PROGRAM]]]     the last line is 'N passed, M failed'

Of each of COUNT bodies, with record links, rings and file sets, under a policy and for a caller of its own, it tries on
the model, or on the program where one is named: what is drawn is a file without findings, by reference.py; the
extract of an extract that is shown whole is the same bytes; and where hidden rows alone are changed, the listing and
every extract are the same. A seed gives the same bodies each time. The program deposits by command line, in a register
file of its own for each body, and lists and draws over `serve`, a connection each. What it answers is compared with the
model too."""
import random
import shutil
import sys
import tempfile
sys.dont_write_bytecode = True
import machine  # noqa: E402
import reference  # noqa: E402
import servers  # noqa: E402
from machine import ags  # noqa: E402

STATES = ["FINAL", "PRELIM", "HELD"]
DAYS = ["2024-05-31", "2024-06-01", "2024-06-02"]
# days of rules: those that requests have, and one beside them
RULE_DAYS = [*DAYS, "2024-06-03"]
FIRMS = ["Delta", "Foxtrot", "Echo"]


def table(name, headings, types, rows, units=None):
    """The text of a group."""
    def encoded(items):
        return [item.encode() for item in items]
    units = units or [""] * len(headings)
    return ags.written([(name.encode(), encoded(headings), encoded(units), encoded(types), map(encoded, rows))])


def names_in(chance, locations, samples):
    """A record link to one row or two, or none."""
    def one():
        if samples and chance.random() < 0.7:
            s = chance.choice(samples)
            return f"SAMP|{s[0]}|{s[1]}|{s[2]}"
        return chance.choice([f"LOCA|{chance.choice(locations)[0]}", "PROJ|P7"])
    return "+".join(one() for _ in range(chance.choice((0, 0, 1, 1, 2))))


def body(chance):
    """The bytes of a file without findings."""
    sets = [f"F{n}" for n in range(chance.randrange(3))]

    def file_set():
        return chance.choice(["", "", *sets])
    locations = [[f"BH{n}", chance.choice(STATES), file_set()] for n in range(1, chance.randrange(2, 6))]
    samples = []
    for n in range(chance.randrange(6)):
        samples.append([chance.choice(locations)[0], f"{chance.randrange(4)}.50", f"S{n}", ""])
    for sample in samples:
        sample[3] = names_in(chance, locations, samples)
    tests = [[s[0], s[1], s[2], f"{n}.05", chance.choice(["23", "18.4", "x, \"y\""])]
             for n, s in enumerate(chance.choices(samples, k=chance.randrange(5)) if samples else [])]
    groups = [table("PROJ", ["PROJ_ID", "PROJ_NAME", "FILE_FSET"], ["ID", "X", "X"],
                    [["P7", chance.choice(["North bank", ""]), file_set()]]),
              table("TRAN", ["TRAN_ISNO", "TRAN_DLIM", "TRAN_RCON"], ["X", "X", "X"], [["1", "|", "+"]]),
              table("UNIT", ["UNIT_UNIT"], ["X"], [["m"]]),
              table("TYPE", ["TYPE_TYPE"], ["X"], [["ID"], ["X"], ["2DP"], ["RL"]]),
              table("LOCA", ["LOCA_ID", "LOCA_STAT", "FILE_FSET"], ["ID", "X", "X"], locations)]
    if samples:
        groups.append(table("SAMP", ["LOCA_ID", "SAMP_TOP", "SAMP_REF", "SAMP_LINK"], ["ID", "2DP", "X", "RL"], samples,
                            ["", "m", "", ""]))
    if tests:
        groups.append(table("LNMC", ["LOCA_ID", "SAMP_TOP", "SAMP_REF", "SPEC_DPTH", "LNMC_MC"],
                            ["ID", "2DP", "X", "2DP", "X"], tests, ["", "m", "", "m", ""]))
    if sets:
        rows = [[s, f"{s}-{n}.pdf"] for s in sets for n in range(chance.randrange(1, 3))]
        groups.append(table("FILE", ["FILE_FSET", "FILE_NAME"], ["X", "X"], rows))
    if chance.random() < 0.3:
        chance.shuffle(groups)
    mark = b"\xef\xbb\xbf" if chance.random() < 0.1 else b""
    text = mark + chance.choice([b"\r\n", b"\r\n", b"", b"  \r\n\r\n"]).join(groups)
    return text.replace(b'","', b'" , "') if chance.random() < 0.1 else text


def clean_body(chance):
    while True:
        text = body(chance)
        if not reference.findings(text):
            return text


def rule_days(chance):
    """The lines of a rule that set its first day, its last one, or both."""
    first, last = sorted(chance.choices(RULE_DAYS, k=2))
    return "".join(chance.choice([[f'from = "{first}"\n'], [f'until = "{last}"\n'],
                                  [f'from = "{first}"\n', f'until = "{last}"\n']]))


def policy(chance):
    """The text of a policy that mostly lets requests through and hides some rows, by rules some of which have days."""
    rules = ['verb = "deposit"\nrole = "contractor"', 'verb = "check"', 'verb = "list"', 'verb = "extract"']
    if chance.random() < 0.6:
        rules.append('verb = "withdraw"' + chance.choice(["", '\nrole = "contractor"']))
    if chance.random() < 0.2:
        verb = chance.choice(["deposit", "list", "extract", "withdraw"])
        rules.insert(0, f'verb = "{verb}"\nfirm = "{chance.choice(FIRMS)}"')
    sights = ['owner = "own"', 'embargo = "running"',
              f'group = "LOCA"\nheading = "LOCA_STAT"\nvalue = "{chance.choice(STATES)}"',
              f'group = "SAMP"\nheading = "SAMP_REF"\nvalue = "S{chance.randrange(5)}"',
              f'group = "{chance.choice(["FILE", "LNMC", "SAMP", "PROJ"])}"',
              f'firm = "{chance.choice(FIRMS)}"\nproject = "N1"',
              'owner = "other"\nembargo = "past"\nheading = "LOCA_ID"\nvalue = "BH2"']
    out = []
    for rule in rules:
        out.append((rule, "deny" if rule.count("\n") and "firm" in rule else "permit"))
    for sight in chance.sample(sights, chance.randrange(4)):
        out.append(('verb = "see"\n' + sight, "permit" if sight == 'owner = "own"' else "deny"))
    out.append(('verb = "see"', "permit" if chance.random() < 0.9 else "deny"))
    days = [rule_days(chance) if chance.random() < 0.2 else "" for _ in out]
    return "".join(f'[[rule]]\nnumber = {10 * n}\neffect = "{effect}"\n{keys}\n{more}\n'
                   for n, ((keys, effect), more) in enumerate(zip(out, days), 1))


def caller_of(firm):
    return {"firm": firm, "role": "consultant" if firm == "Echo" else "contractor"}


def shown_part(rules, caller, deposit, day, file):
    """The groups with a shown row, each with its header rows and its shown rows."""
    shown = machine.shown_rows(rules, caller, deposit, day, file)
    part = []
    for g in file.groups:
        rows = [row.items for n, (h, row) in enumerate(file.rows) if h is g and n in shown]
        if rows:
            part.append((g.name, g.headings, g.unit.items, g.type.items, rows))
    return part


def hidden_changed(chance, file, shown):
    """The text of a file with some of its hidden rows changed or left out."""
    groups = []
    for g in file.groups:
        rows = []
        for n, (h, row) in enumerate(file.rows):
            if h is g and n in shown:
                rows.append(row.items)
            elif h is g and chance.random() < 0.7:
                items = list(row.items)
                items[chance.randrange(len(items))] = chance.choice([b"x", b"BH1", b"7.50", b"", b"HELD"])
                rows.append(chance.choice([items, row.items]))
        if rows:
            groups.append((g.name, g.headings, g.unit.items, g.type.items, rows))
    return ags.written(groups)


def held(text, deposit):
    register = machine.Register()
    register.deposits.append(machine.unmarked(data=text, **deposit))
    return register


class Model:
    """Registers of one deposit each on the model, and what it answers: a listing, then an extract for each list of
    groups."""

    def seen_of(self, text, deposit, policy_text, caller, day, asked):
        register, rules = held(text, deposit), machine.read_policy(policy_text)
        return [register.list(rules, caller, "N1", day),
                *(register.extract(rules, caller, "N1", 1, groups, day) for groups in asked)]


class Program(servers.Place):
    """The same on the program. An answer is the text in its reply, or the bytes of the reply where it has no text."""

    patience = 20

    def __init__(self, program, folder):
        callers = (f'[[caller]]\ntoken = "{firm}"\nfirm = "{firm}"\nrole = "{caller_of(firm)["role"]}"\n'
                   for firm in FIRMS)
        super().__init__(program, folder, callers="".join(callers))
        self.put("all", b'rule = [{number = 1, effect = "permit"}]\n')
        self.make("empty")

    def seen_of(self, text, deposit, policy_text, caller, day, asked):
        self.copy("empty", "register")
        self.put("body", text)
        self.put("policy", policy_text.encode())
        self.right("deposit", "--store=register", "--policy=all", "--callers=callers", "--token", deposit["firm"],
                   "--project", deposit["project"], "--embargo", deposit["embargo"], "body")
        pages = [b"", *(b"/1?groups=" + b",".join(groups) for groups in asked)]
        with self.serve(len(pages), day=day) as server:
            token = caller["firm"].encode()
            replies = [server.ask(servers.head(b"/v1/projects/N1/deposits" + page, [], token=token), False)
                       for page in pages]
            server.rest()
        return [answer_in(reply) for reply in replies]


def answer_in(reply):
    """The text that a reply has, or the reply itself."""
    head, _, rest = reply.partition(b"\r\n\r\n")
    return ("text", rest) if b"text/plain" in head else ("reply", reply)


def turn(chance, counts, side):
    """One body and what it shows; the names of what does not hold."""
    text, policy_text, day = clean_body(chance), policy(chance), chance.choice(DAYS)
    rules = machine.read_policy(policy_text)
    caller, deposit = caller_of(chance.choice(FIRMS)), {"firm": "Delta", "project": "N1", "embargo": "2024-06-01"}
    asked = [[], [b"LOCA"], [b"SAMP", b"FILE"], [b"LNMC", b"NONE"]]
    answers = side.seen_of(text, deposit, policy_text, caller, day, asked)
    wrong = []
    if isinstance(side, Program) and answers != [
            ("text", a[1]) if a[0] == "text" else ("reply", machine.reply(a)[1])
            for a in Model().seen_of(text, deposit, policy_text, caller, day, asked)]:
        wrong.append("another answer than the model's")
    texts = [answer for answer in answers[1:] if answer[0] == "text"]
    counts["extracts"] += len(texts)
    for answer in dict.fromkeys(texts):
        if reference.findings(answer[1]):
            wrong.append("an extract with findings")
        if side.seen_of(answer[1], deposit, 'rule = [{number = 1, effect = "permit"}]', caller, day, [[]])[1] != answer:
            wrong.append("an extract of an extract")
    words = ags.built_in()
    file = ags.rows_of(text, words)
    shown = machine.shown_rows(rules, caller, deposit, day, file)
    for _ in range(8):
        other = hidden_changed(chance, file, shown)
        if other == text or not other or reference.findings(other):
            continue
        parts = [shown_part(rules, caller, deposit, day, f) for f in (file, ags.rows_of(other, words))]
        if parts[0] == parts[1]:
            counts["pairs"] += 1
            if side.seen_of(other, deposit, policy_text, caller, day, asked) != answers:
                wrong.append("a leak")
    return wrong, text


def main():
    count = int(sys.argv[1]) if len(sys.argv) > 1 else 300
    chance = random.Random(int(sys.argv[2]) if len(sys.argv) > 2 else 1)
    counts, passed, failed = {"extracts": 0, "pairs": 0}, 0, 0
    folder = tempfile.mkdtemp(prefix="bodies")
    side = Program(sys.argv[3], folder) if len(sys.argv) > 3 else Model()
    for _ in range(count):
        wrong, text = turn(chance, counts, side)
        passed += not wrong
        failed += bool(wrong)
        if wrong:
            print(wrong, text)
    shutil.rmtree(folder)
    print(f"({counts['extracts']} extracts, {counts['pairs']} pairs of bodies that differ in hidden rows alone)")
    print(f"{passed} passed, {failed} failed")
    return failed > 0


if __name__ == "__main__":
    sys.exit(main())
