"""The memory that a start needs, as the program itself reckons it before it takes a deposit: what it holds of each one,
and what it takes for a while to check one. The numbers are those of the program's source, so that they are in one place;
an archive of bin/package has a copy of that file beside this one."""
import os
import re

here = os.path.dirname(os.path.realpath(__file__))
SOURCES = [os.path.join(os.path.dirname(os.path.dirname(here)), "crates", "reg_tables", "src", "memory", "room.rt"),
           os.path.join(here, "room.rt")]


def read_rates():
    """The bytes of memory for each part of a register at a start, and for each part of the deposit that is checked."""
    with open(next(filter(os.path.isfile, SOURCES)), encoding="utf-8") as file:
        text = file.read()
    block = re.search(r"const AT_A_START: Rates = Rates \{(.*?)\};", text, re.S)[1]
    start = {name: int(number) for name, number in re.findall(r"(\w+): ([0-9_]+),", block)}
    check = {name.lower(): int(number) for name, number in re.findall(r"const OF_CHECK_(\w+): u64 = ([0-9_]+);", text)}
    return start, check


AT_A_START, OF_A_CHECK = read_rates()


def of_deposit(deposit):
    """What a start holds of a deposit."""
    rate = AT_A_START
    return (rate["deposit"] + rate["byte"] * deposit.bytes + rate["line"] * deposit.lines
            + rate["step"] * deposit.steps)


def of_check(deposit):
    """What the check of a deposit takes as long as it runs."""
    rate = OF_A_CHECK
    return rate["byte"] * deposit.bytes + rate["step"] * deposit.steps


def needed(content):
    """What a start needs for a register."""
    fixed = AT_A_START["process"] + AT_A_START["dictionary_byte"] * content.dictionary_bytes
    return fixed + sum(map(of_deposit, content.deposits)) + max(map(of_check, content.deposits), default=0)


def room(content, limit):
    """How many bytes of files a register still takes under a limit of memory: files like those that it has, or files
    without rows where it has none."""
    held, size = sum(map(of_deposit, content.deposits)), sum(deposit.bytes for deposit in content.deposits)
    return max(0, int((limit - needed(content)) / (held / size if size else AT_A_START["byte"])))
