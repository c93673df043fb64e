"""The patterns of docs/POLICY.md: each block of rules with the tables below it, what the second implementation
(machine.py, the model) and the program answer, and the claims of its part "What hides and what does not".

The tables after a block, up to the next one, are those of its policy. The rules of samples/empty.toml are in each."""
import collections
import copy
import os
import re
import subprocess
import sys
import tomllib
import bodies
import machine
import reference
import servers

home = os.path.dirname(os.path.dirname(os.path.realpath(__file__)))
sys.path.append(os.path.join(home, "tools"))
import ags  # noqa: E402
import lines  # noqa: E402
import policies  # noqa: E402

CALLERS = "samples/office/callers.toml"
DAY = "2024-06-15"
FINAL, OWNER, ONE = "A consultant sees what is final", "An owner after the embargo", "One project a register"
ALL = '[[rule]]\nnumber = 1\neffect = "permit"\n'
NO_FILES = '[[rule]]\nnumber = 1\neffect = "deny"\nverb = "see"\ngroup = "FILE"\n'
NAMES = {"LOCA": b"LOCA_ID", "SAMP": b"SAMP_REF", "GEOL": b"LOCA_ID", "FILE": b"FILE_NAME"}
STATUSES = {"text": 0, "denied": 2, "unknown": 3}
GEOL = [("G", b"GEOL", b"LOCA"), ("H", b"GEOL", b"LOCA_ID", b"KEY"), ("H", b"GEOL", b"GEOL_TOP", b"KEY"),
        ("H", b"GEOL", b"GEOL_DESC", b"OTHER")]
Pattern = collections.namedtuple("Pattern", "name policy rows fails")


def read(path, mode="r"):
    with open(os.path.join(home, path), mode) as file:
        return file.read()


def joined(*texts):
    """One policy of the rules of several, in the order of their numbers."""
    rules = [rule for text in texts for rule in re.findall(r"^\[\[rule\]\]\n(?:\w+ = .*\n?)*", text, re.MULTILINE)]
    return "\n".join(sorted(rules, key=lambda rule: tomllib.loads(rule)["rule"][0]["number"]))


def table(text):
    """The rows of a table, each by the names of its columns."""
    head, _, *rows = [[cell.strip() for cell in line.strip("|").split("|")] for line in text.splitlines()]
    return [dict(zip(head, row)) for row in rows]


# A heading, a block of rules, the mark of a form that fails, the name of a policy, a table.
PARTS = re.compile(r"^###? (.*)\n|^```toml\n((?:(?!```).*\n)*)|(\*\*The form that fails\*\*)"
                   r"|^The rules of \[(samples/.*?)\]|((?:^\|.*\n)+)", re.MULTILINE)


def parts(page):
    """The deposits of the page, and its patterns."""
    deposits, patterns, name, fails = [], [], "", False
    for heading, block, mark, path, rows in PARTS.findall(page):
        name, fails = heading or name, bool(mark or fails and not heading)
        if block or path:
            policy = joined(read("samples/empty.toml"), block) if block else read(path)
            patterns.append(Pattern(name, policy, [], fails))
        elif rows and patterns:
            patterns[-1].rows.extend(table(rows))
        elif rows and "Embargo" in table(rows)[0]:
            deposits += table(rows)
    return deposits, patterns


def register_of(deposits, words=None):
    register = machine.Register(words)
    for one in deposits:
        data = read(one["File"], "rb")
        assert not reference.findings(data, 5, register.words.standard)
        register.deposits.append(machine.unmarked(one["Firm"], one["Project"], one["Embargo"], data))
    return register


def callers():
    """The callers of the office by firm, each with its token."""
    by_token = machine.read_callers(read(CALLERS))
    return {caller["firm"]: {**caller, "token": token} for token, caller in by_token.items()}


def drawn_rows(text):
    """The DATA rows of an extract, by group."""
    rows, headings = {}, []
    for line in text.split(b"\r\n"):
        items = ags.fields_of(line) if line else [b""]
        if items[0] == b"GROUP":
            name = items[1]
        elif items[0] == b"HEADING":
            headings = items[1:]
        elif items[0] == b"DATA":
            rows.setdefault(name, []).append(dict(zip(headings, items[1:])))
    return rows


def cell(register, rules, caller, row, column):
    """What the model answers, as the page writes it."""
    number, day = int(row["Deposit"]), row.get("Day", DAY)
    project = register.deposits[number - 1]["project"]
    if column == "withdraw":
        # A state is left as it was: what is withdrawn here is not withdrawn in the next row.
        kind, *told = copy.deepcopy(register).withdraw(rules, caller, project, number, day)
        return "yes" if kind == "withdrawn" else " ".join([kind, *map(str, told)])
    if column in ("deposit", "check"):
        effect, rule = machine.decide(rules, caller, project, column, day)
        return "yes" if effect == "permit" else f"denied {rule}"
    if column == "list":
        kind, told = register.list(rules, caller, project, day)
        return f"denied {told}" if kind == "denied" else "yes" if number in [one[0] for one in told] else "no"
    kind, *told = register.extract(rules, caller, project, number, [], day)
    if kind != "text":
        return " ".join([kind, *map(str, told)])
    rows = drawn_rows(told[0]).get(column.encode(), [])
    return ", ".join(one[NAMES[column]].decode() for one in rows) or "no row"


def model_cases():
    """Each cell of the page's tables beside the model's answer."""
    deposits, patterns = parts(read("docs/POLICY.md"))
    register, people, office = register_of(deposits), callers(), machine.read_callers(read(CALLERS))
    words = ags.built_in()
    for pattern in patterns:
        rules = machine.read_policy(pattern.policy)
        yield f"{pattern.name}: a table below the block", bool(pattern.rows), True
        yield f"{pattern.name}: warnings where it fails", bool(policies.warnings(rules, office, words)), pattern.fails
        for row in pattern.rows:
            answered = [column for column in row if column not in ("Caller", "Deposit", "Day")]
            got = {column: cell(register, rules, people[row["Caller"]], row, column) for column in answered}
            yield f"{pattern.name}: {row}", {column: row[column] for column in answered}, got
    failing = sum(pattern.fails for pattern in patterns)
    yield "patterns, and forms that fail", (len(patterns), failing), (14, 2)


def program_cases(program, folder):
    """Each extract of the tables as the program draws it, beside the model's."""
    deposits, patterns = parts(read("docs/POLICY.md"))
    register, people = register_of(deposits), callers()
    built = bodies.Program(program, folder)
    built.put("callers", read(CALLERS, "rb"))
    for one in deposits:
        built.right(*servers.asking("deposit", os.path.join(home, one["File"]), store="empty", policy="all",
                                    token=people[one["Firm"]]["token"], project=one["Project"], day="2024-05-01",
                                    embargo=one["Embargo"]))
    for pattern in patterns:
        built.put("policy", pattern.policy.encode())
        rules = machine.read_policy(pattern.policy)
        for row in pattern.rows:
            caller, number, day = people[row["Caller"]], int(row["Deposit"]), row.get("Day", DAY)
            project = register.deposits[number - 1]["project"]
            out, _, status = built.run(*servers.asking("extract", str(number), store="empty", token=caller["token"],
                                                       project=project, day=day))
            kind, *told = register.extract(rules, caller, project, number, [], day)
            text = told[0] if kind == "text" else " ".join([kind, *map(str, told)]).encode() + b"\n"
            yield f"the program's extract: {pattern.name}: {row}", (status, out), (STATUSES[kind], text)
            if "withdraw" in row:
                built.copy("empty", "register")
                out, _, status = built.run(*servers.asking("withdraw", str(number), token=caller["token"],
                                                           project=project, day=day))
                want = (0, f"withdrawn {number}\n") if row["withdraw"] == "yes" else (
                    STATUSES[row["withdraw"].split(" ")[0]], row["withdraw"] + "\n")
                yield f"the program's withdrawal: {pattern.name}: {row}", (status, out.decode()), want


def claims():
    """What the page says hides and does not, where no table of it shows that."""
    deposits, patterns = parts(read("docs/POLICY.md"))
    people, policy = callers(), {pattern.name: machine.read_policy(pattern.policy) for pattern in reversed(patterns)}
    register, full = register_of(deposits), register_of(deposits, ags.Dictionary(ags.built_in().standard + GEOL))
    echo, third = people["Echo"], {"Deposit": "3"}
    yield "a dictionary that has the group", cell(full, policy[FINAL], echo, third, "GEOL"), "BH7"
    no_files = machine.read_policy(NO_FILES + ALL.replace("1", "2"))
    yield "no row of FILE, and none that has its file set", cell(register, no_files, echo, third, "LOCA"), "no row"
    empty = machine.read_policy(read("samples/empty.toml"))
    for firm, number in (("Echo", "1"), ("Delta", "3")):
        row = {"Deposit": number}
        for column in ("deposit", "check", "list", "LOCA"):
            got, want = (cell(register, rules, people[firm], row, column) for rules in (policy[ONE], empty))
            yield f"{firm} without a part, as by the empty register: {column}", got, want
    yield from placed()
    yield from deposited(policy[OWNER], people["Delta"], people["Harbour"])


def placed():
    """Where the pattern for a consultant is in samples/policy.toml: what an embargo and a hidden sample still hide."""
    block = "".join(block for _, block, _, _, _ in PARTS.findall(read("docs/POLICY.md")) if 'value = "FINAL"' in block
                    and 'role = "consultant"' in block)
    data = read("samples/office/statuses.ags", "rb").replace(b'"S1"', b'"S9"')
    register = machine.Register()
    register.deposits.append(machine.unmarked("Delta", "N1", "2024-06-01", data))
    echo = {"firm": "Echo", "role": "consultant"}
    for first, early, samples in ((51, "BH1", "S9"), (71, "unknown", "S9"), (76, "unknown", "no row")):
        numbers = iter(range(first, first + 3))
        moved = re.sub(r"(?<=number = )\d+", lambda _, numbers=numbers: str(next(numbers)), block)
        rules = machine.read_policy(joined(read("samples/policy.toml"), moved))
        row = {"Deposit": "1"}
        yield f"the consultant's rules from {first}, under the embargo", cell(
            register, rules, echo, {**row, "Day": "2024-05-15"}, "LOCA"), early
        yield f"the consultant's rules from {first}", cell(register, rules, echo, row, "LOCA"), "BH1"
        yield f"the consultant's rules from {first}, the sample S9", cell(register, rules, echo, row, "SAMP"), samples


def deposited(rules, delta, harbour):
    """An embargo that is past is seen at once, and a mistake is there for good."""
    register, permits, data = machine.Register(), machine.read_policy(ALL), read("samples/office/statuses.ags", "rb")
    past = "1970-01-01"
    yield "an embargo that is past", register.deposit(permits, delta, "N1", past, data, DAY), ("receipt", 1, past)
    yield "it is seen at once", register.list(rules, harbour, "N1", "2024-05-01"), ("listing", [(1, "Delta", past)])
    yield "the same bytes", register.deposit(permits, delta, "N1", DAY, data, DAY), ("receipt", 1, past)
    other = data.replace(b"Prelim", b"PRELIM")
    yield "other bytes", register.deposit(permits, delta, "N1", past, other, DAY), ("receipt", 2, past)
    yield "both are listed", [one[0] for one in register.list(rules, harbour, "N1", DAY)[1]], [1, 2]


def printed():
    """The command lines of the page, each with what the page says that it prints."""
    for command, wanted in lines.blocks(read("docs/POLICY.md")):
        run = subprocess.run(["bash", "-c", command], cwd=home, stdout=subprocess.PIPE, stderr=subprocess.STDOUT)
        yield f"$ {command}", run.stdout.decode().splitlines(), wanted
