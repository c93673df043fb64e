#!/usr/bin/env python3
"""Command lines of the program, each with what has to come of it: its status, what it prints and what it says of a
fault.

usage: words.py PROGRAM     the last line is 'N passed, M failed'

The lines of a scene run one after the other in a folder of its own. `|` is between the arguments of a line. Among them
`@` stands for those of OPTIONS that the line does not name, and `&` for those of them that `serve` takes. After `=>`
come the status and what is printed, without its line end; after `!` what is said on standard error, without
`groundreg: ` before it. Of a line without `=>` the arguments are refused. Nothing here comes from what the program
answered."""
import contextlib
import os
import re
import socket
import sqlite3
import subprocess
import sys
import tempfile
sys.dont_write_bytecode = True
import machine  # noqa: E402
import servers  # noqa: E402

OPTIONS = {"--store": "s", "--policy": "q", "--callers": "c", "--day": "2024-05-01", "--project": "N1",
           "--token": "t-delta"}
OF_SERVE = ("--store", "--policy", "--callers", "--day")
REFUSED = "4 ! words refused"
MINI, POLICY, CALLERS = servers.FILES["mini"], machine.POLICY.encode(), machine.CALLERS.encode()


def longer(text):
    """A text, with spaces after it: one byte more than is taken."""
    return text + b" " * (machine.LIMIT + 1 - len(text))


def line_of_log(who, method, path, status, number):
    """A line of the log of `serve`."""
    return f"2024-05-01T10:20:30Z {who} contractor {method} /v1/projects/{path} {status} 656 125 3 {number} - - 2d20076c\n"


GOOD_LOG = (f"2024-05-01T10:20:29Z * start 1.1.0 policy {'0' * 64} callers {'1' * 64}\n"
            + line_of_log("Delta", "POST", "N1/deposits", 200, 1) + line_of_log("Delta", "GET", "N1/deposits/9", 200, 9)
            + line_of_log("Delta", "POST", "N1/check", 200, "-") + line_of_log("Delta", "POST", "N1/deposits", 403, "-")
            + line_of_log("Foxtrot", "POST", "N1/deposits", 200, 2)
            + "2024-05-01T10:20:31Z Delta contractor POST /v1/projects/N1/deposits 200 656 125 3\n"
            + line_of_log("Delta", "DELETE", "N1/deposits/1", 200, 1) + "2024-05-01T10:2")
# A deposit that is missing, one of another firm, one of another project, and a withdrawal that was not made.
BAD_LOG = (line_of_log("Delta", "POST", "N1/deposits", 200, 3) + line_of_log("Delta", "POST", "N1/deposits", 200, 2)
           + line_of_log("Foxtrot", "POST", "N2/deposits", 200, 2) + line_of_log("Foxtrot", "POST", "N1/deposits", 200, 2)
           + line_of_log("Foxtrot", "DELETE", "N1/deposits/2", 200, 2))

FILES = {"l_good": GOOD_LOG.encode(), "l_bad": BAD_LOG.encode(), "mini": MINI, "q": POLICY, "c": CALLERS, "a": machine.FILE_A, "b": machine.FILE_B, "--day": machine.FILE_A,
         "empty": b"", "junk": b"this is no database", "bytes": b"\xff\xfe", "open": b"[[rule",
         "long": longer(machine.FILE_A), "longest": longer(MINI), "long_q": longer(POLICY), "long_c": longer(CALLERS),
         "t": b"t-delta\n", "t_crlf": b"t-delta\r\n", "t_bare": b"t-delta", "t_two": b"t-delta\n\n", "t_none": b"",
         "w": machine.WITHDRAWING.encode(),  # the policy under which contractors may withdraw
         # policies by which extracts are drawn in June alone, by which rows are seen from a day on, and one whose rule
         # ends before it begins
         "june": machine.ruled(40, *machine.JUNE).encode(), "seen": machine.ruled(80, 'from = "2024-06-02"').encode(),
         "ended": machine.ruled(40, machine.JUNE[0], 'until = "2024-05-31"').encode()}

# What is printed, by the name that a line has for it: file a, the first 466 bytes of it, what others see of file b, and
# a listing of two deposits.
PRINTED = {machine.FILE_A: b"(a)\n", machine.FILE_A[:466]: b"(a to 466)\n",
           machine.without(machine.FILE_B, 33, 40, 47): b"(of b)\n",
           b"1 Delta 2024-06-01\n2 Foxtrot 2024-06-01\n": b"(both)\n",
           b"verified 2\ncompared 3\n": b"(verified 2, 3 compared)\n",
           b"verified 2\ncompared 0\n": b"(verified 2, 0 compared)\n",
           b"verified 2\nmissing deposit 3 Delta N1\nmissing deposit 2 Delta N1\nmissing deposit 2 Foxtrot N2\n"
           b"missing withdrawal 2 Foxtrot N1\ncompared 5\n": b"(four missing)\n"}

# A register from its making to an extract.
REGISTER = """
init|--store|s|--dictionary|mini => 0 created
init|--store|s|--dictionary|mini => 4 ! store not empty
init|--store|other|--dictionary|a => 4 ! dictionary refused
list|@ => 0
deposit|@|--day|2024-05-01|--embargo|2024-06-01|a => 0 receipt 1 2024-06-01
deposit|@|--token=t-gamma|--day|2024-05-01|--embargo|2024-06-01|a => 2 denied 5
deposit|@|--embargo|2030-01-01|a => 0 receipt 1 2024-06-01
list|@|--day=2024-05-01 => 0 1 Delta 2024-06-01
list|@ => 0 1 Delta 2024-06-01
list|@|--token=t-echo => 0
extract|@|--token=t-echo|--day=2024-05-31|1 => 3 unknown
extract|@|--token=t-echo|1 => 3 unknown
extract|@|--token=t-echo|--day=2024-06-01|1 => 0 (a)
extract|@|999999 => 3 unknown
list|@|--project|N 1 => 4 ! project refused
# The embargo of a deposit without one is its day, and findings are printed as by a run without arguments.
deposit|@|--token=t-foxtrot|--day=2024-05-02|a => 0 receipt 2 2024-05-02
deposit|@|empty => 1 2 0 -
deposit|@|long => 4 too large
# One who may not deposit is denied, however long the file is.
deposit|@|--token=t-gamma|long => 2 denied 5
check|--dictionary|mini|b => 0 clean
check|--dictionary=mini|empty => 1 2 0 -
"""

# Two firms have sent file a, and one of them withdraws its deposit.
WITHDRAWAL = """
init|--store|s|--dictionary|mini => 0 created
deposit|@|--embargo|2024-06-01|a => 0 receipt 1 2024-06-01
deposit|@|--embargo=2024-06-01|--token=t-foxtrot|a => 0 receipt 2 2024-06-01
list|@|--day=2024-06-01 => 0 (both)
withdraw|@|1 => 2 denied 0
withdraw|@|--policy=w|--token=t-echo|1 => 2 denied 0
withdraw|@|--policy=w|--token=t-foxtrot|1 => 3 unknown
withdraw|@|--policy=w|--token=t-gamma|1 => 3 unknown
withdraw|@|--policy=w|9 => 3 unknown
withdraw|@|--policy=w|999999 => 3 unknown
withdraw|@|--policy=w|--project=N2|1 => 3 unknown
# What was refused has changed nothing.
list|@|--day=2024-06-01 => 0 (both)
withdraw|@|--policy=w|1 => 0 withdrawn 1
withdraw|1|--policy|w|--day=1970-01-01|@ => 0 withdrawn 1
withdraw|@|--policy=w|--|1 => 0 withdrawn 1
list|@|--day=2024-06-01 => 0 2 Foxtrot 2024-06-01
list|@ => 0
extract|@|--day=2024-06-01|1 => 3 unknown
extract|@|--day=2024-06-01|--token=t-echo|1 => 3 unknown
extract|@|--day=2024-06-01|--token=t-echo|2 => 0 (a)
# It is kept: its bytes have its receipt, and its number is given to no other.
deposit|@|--embargo=2030-01-01|a => 0 receipt 1 2024-06-01
list|@|--day=2024-06-01 => 0 2 Foxtrot 2024-06-01
deposit|@|b => 0 receipt 3 2024-05-01
# One who may not withdraw is denied, and another firm learns nothing.
withdraw|@|1 => 2 denied 0
withdraw|@|--policy=w|--token=t-foxtrot|1 => 3 unknown
withdraw|@|--policy=w|--token=t-foxtrot|2 => 0 withdrawn 2
withdraw|@|--policy=w|3 => 0 withdrawn 3
list|@|--day=2030-01-01 => 0
migrate|--store=s => 4 ! register version 2
"""

# Rules that match on some days alone.
RULE_DAYS = """
init|--store|s|--dictionary|mini => 0 created
deposit|@|--embargo|2024-06-01|a => 0 receipt 1 2024-06-01
extract|@|--policy=june|--token=t-echo|--day=2024-05-31|1 => 2 denied 0
extract|@|--policy=june|--token=t-echo|--day=2024-06-01|1 => 0 (a)
extract|@|--policy=june|--token=t-echo|--day=2024-06-30|1 => 0 (a)
extract|@|--policy=june|--token=t-echo|--day=2024-07-01|1 => 2 denied 0
extract|@|--policy=ended|--token=t-echo|--day=2024-06-01|1 => 4 ! policy refused
deposit|@|--embargo=2024-06-01|b => 0 receipt 2 2024-06-01
extract|@|--policy=seen|--token=t-echo|--day=2024-06-01|2 => 3 unknown
extract|@|--policy=seen|--token=t-echo|--day=2024-06-02|2 => 0 (of b)
list|@|--policy=seen|--token=t-echo|--day=2024-06-01 => 0
"""

# The token of one who asks may be in a file, with one line end after it or none.
TOKEN_FILES = """
init|--store|s|--dictionary|mini => 0 created
deposit|@|--token-file=t|a => 0 receipt 1 2024-05-01
list|--token-file|t_crlf|@ => 0 1 Delta 2024-05-01
extract|@|--token-file=t_bare|1 => 0 (a)
withdraw|@|--policy=w|--token-file=t|1 => 0 withdrawn 1
list|@|--token-file=t_two => 4 ! token refused
list|@|--token-file=t_none => 4 ! token refused
list|@|--token-file=gone|--project=N 1 => 6 ! cannot read gone
list|@|--callers=q|--token-file=gone => 4 ! callers refused
list|@|--token-file=bytes|--project=N 1 => 4 ! token refused
"""

# `verify` opens a register and counts its deposits; with a log it compares what that says was taken.
VERIFIED = """
init|--store|s|--dictionary|mini => 0 created
verify|--store=s => 0 verified 0
deposit|@|a => 0 receipt 1 2024-05-01
deposit|@|--token=t-foxtrot|a => 0 receipt 2 2024-05-01
withdraw|@|--policy=w|1 => 0 withdrawn 1
verify|--store=s => 0 verified 2
verify|--progress|--store=gone => 4 ! not a register
verify|--store=junk => 5 ! store failed
verify|--store=gone|--log=none => 6 ! cannot read none
verify|--store=s|--log=l_good => 0 (verified 2, 3 compared)
verify|--store=s|--log=l_bad => 1 (four missing)
verify|--store=s|--log=empty => 0 (verified 2, 0 compared)
verify|--store=s|--log=bytes => 6 verified 2 ! cannot read bytes
"""

WORDS_REFUSED = """
version|more
version|--store=s
verify
verify|s
verify|--store=s|s
verify|--store=s|--policy=q
verify|--store=s|--log
list|@|--token=t-delta|--token-file=t
list|--store=s|--policy=q|--callers=c|--project=N1
init|--store=s|--dictionary=mini|--token-file=t
serve|&|--connections=1
serve|&|--port=80
serve|&|--port=80|--socket=k|--connections=1
serve|&|--port=80|--connections=1|--unending
serve|&|--socket=k
serve|&|--socket|--unending
serve|&|--port=80|--unending=yes
serve|&|--port=80|--unending|--unending
serve|&|--port=80|--unending|--reload
list|@|--socket=k
list|@|--reload=r
withdraw
withdraw|1
withdraw|@
withdraw|@|1|2
withdraw|@|--groups=LOCA|1
withdraw|@|--embargo=2024-06-01|1
withdraw|@|--number=1
withdraw|@|1|--help
withdraw|@|-1
withdraw|--store=s|--policy=q|--callers=c|--token=t-delta|1
Withdraw|@|1
migrate
migrate|s
migrate|--store
migrate|--store=s|s
migrate|--store=s|--store=s
migrate|--store=s|--dictionary=mini
migrate|--store=s|--policy=q
migrate|--store=s|--day=2024-05-01
migrate|--store=s|--help
migrate|--store=s|--progress=yes
migrate|--store=s|--progress|--progress
migrated|--store=s
help
--help
-h
--version
-V
Init
init|--help
init|--store=s
init|--store=s|--dictionary=mini|more
init|--store=s|--store=s|--dictionary=mini
init|--store=s|--dictionary=mini|--day=2024-05-01
init|--store=s|--dictionary=mini|--progress
init|--store|--dictionary|mini
--store=s|init|--dictionary=mini
--|init|--store=s|--dictionary=mini
init|--|--store=s|--dictionary=mini
init|--store=s|--dictionary=mini|--|more
check|--dictionary=mini
check|--dictionary=mini|a|b
check|--dictionary=mini|--
check|--dictionary=mini|a|--|b
check|--dictionary=mini|--progress|a
check|a
check|a|--|--dictionary=mini
deposit|@
deposit|@|--groups=LOCA|a
deposit|@|a|b
list|@|--groups=LOCA
list|@|1
list|@|--token
list|@|--day|-1
list|@|--progress=1
list|@|--progress|--progress
list|--store=s|--policy=q|--callers=c|--token=t-delta
extract|@
extract|@|--embargo=2024-06-01|1
serve|&|--port=0|--connections=1
serve|&|--port=65536|--connections=1
serve|&|--port=+80|--connections=1
serve|&|--port=|--connections=1
serve|&|--port=80|--connections=0
serve|&|--port=80|--connections=1000001
serve|&|--port=80|--connections=+1
serve|&|--port=80|--connections=1|--token=t-delta
serve|&|--port=80|--connections=1|--patience=0
serve|&|--port=80|--connections=1|--patience=3601
serve|&|--port=80|--connections=1|--patience=+30
serve|&|--port=80|--connections=1|--patience=
serve|&|--port=80|--connections=1|--patience=30|--patience=30
serve|&|--day=2024-05-01|--port=80|--connections=1|--day-by-clock
serve|&|--port=80|--connections=1|--day-by-clock=yes
serve|&|--port=80|--connections=1|--end-on-failure=yes
serve|&|--port=80|--connections=1|--end-on-failure|--end-on-failure
serve|&|--port=80|--connections=1|--log
serve|&|--port=80|--connections=1|--progress=
list|@|--patience=30
list|@|--log=l
"""

IN_ANY_ORDER = """
init|--dictionary=mini|--store|s => 0 created
deposit|a|@ => 0 receipt 1 2024-05-01
extract|1|@ => 0 (a)
extract|@|--groups=|1 => 0 (a)
extract|@|--groups|LOCA,LOCA|1 => 0 (a)
list|@|--token=-t => 4 ! token refused
check|--dictionary|mini|./a => 0 clean
check|./gone|--dictionary|mini => 6 ! cannot read ./gone
check|--dictionary|mini|. => 6 ! cannot read .
# After an argument `--` nothing is an option.
check|--dictionary=mini|--|a => 0 clean
check|--dictionary=mini|--|--day => 0 clean
check|--dictionary=mini|--|-- => 6 ! cannot read --
deposit|@|--|--day => 0 receipt 1 2024-05-01
extract|@|--|1 => 0 (a)
list|@|-- => 0 1 Delta 2024-05-01
extract|@|--groups|SAMP|1 => 0 (a to 466)
"""

# Each fault below has the next one of the order beside it.
OF_WORDS_AND_POLICIES = """
init|--dictionary=none
check|--dictionary=none
deposit|@|--policy=none
extract|@|--policy=none
list|@|--policy=none|more
withdraw|@|--policy=none
withdraw|@|--policy=none|1|2
migrate|--store=none|more
list|@|--policy=none|--help
serve|&|--policy=none|--port=80
deposit|@|--policy=none|--callers=gone|gone => 6 ! cannot read none
extract|@|--policy=none|--callers=gone|07 => 6 ! cannot read none
list|@|--policy=none|--callers=gone => 6 ! cannot read none
withdraw|@|--policy=none|--callers=gone|07 => 6 ! cannot read none
serve|&|--policy=none|--callers=gone|--port=80|--connections=1 => 6 ! cannot read none
deposit|@|--policy=open|--callers=gone|gone => 4 ! policy refused
extract|@|--policy=bytes|--callers=gone|07 => 4 ! policy refused
list|@|--policy=open|--callers=gone => 4 ! policy refused
list|@|--policy=bytes|--callers=gone => 4 ! policy refused
list|@|--policy=long_q|--callers=gone => 4 ! policy refused
withdraw|@|--policy=open|--callers=gone|07 => 4 ! policy refused
withdraw|@|--policy=bytes|--callers=gone|07 => 4 ! policy refused
serve|&|--policy=open|--callers=gone|--port=80|--connections=1 => 4 ! policy refused
"""

OF_CALLERS_AND_TOKENS = """
deposit|@|--callers=none|--token=t-x|gone => 6 ! cannot read none
extract|@|--callers=none|--token=t-x|07 => 6 ! cannot read none
list|@|--callers=none|--token=t-x => 6 ! cannot read none
withdraw|@|--callers=none|--token=t-x|07 => 6 ! cannot read none
serve|&|--callers=none|--day=1|--port=80|--connections=1 => 6 ! cannot read none
deposit|@|--callers=q|--token=t-x|gone => 4 ! callers refused
extract|@|--callers=bytes|--token=t-x|07 => 4 ! callers refused
list|@|--callers=q|--token=t-x => 4 ! callers refused
withdraw|@|--callers=q|--token=t-x|07 => 4 ! callers refused
list|@|--callers=bytes|--token=t-x => 4 ! callers refused
list|@|--callers=long_c|--token=t-x => 4 ! callers refused
serve|&|--callers=q|--day=1|--port=80|--connections=1 => 4 ! callers refused
deposit|@|--token=t-x|--project=N 1|gone => 4 ! token refused
extract|@|--token=t-x|--project=N 1|07 => 4 ! token refused
list|@|--token=t-x|--project=N 1 => 4 ! token refused
withdraw|@|--token=t-x|--project=N 1|07 => 4 ! token refused
list|@|--token=|--project=N 1 => 4 ! token refused
"""

# There is no register yet, which is the fault after those.
OF_REQUESTS = """
deposit|@|--project=N 1|--day=1|gone => 4 ! project refused
extract|@|--project=N 1|--day=1|07 => 4 ! project refused
list|@|--project=|--day=1 => 4 ! project refused
withdraw|@|--project=N 1|--day=1|07 => 4 ! project refused
deposit|@|--day=2024-02-30|--embargo=2024-06-01|gone => 4 ! day refused
deposit|@|--embargo=2023-02-29|gone => 4 ! day refused
extract|@|--day=2024-6-1|--groups=loca|07 => 4 ! day refused
list|@|--day=1 => 4 ! day refused
withdraw|@|--day=2024-02-30|07 => 4 ! day refused
serve|&|--day=tomorrow|--log=none/l|--port=80|--connections=1 => 4 ! day refused
serve|&|--log=none/l|--port=80|--connections=1 => 6 ! cannot write none/l
serve|&|--log=.|--port=80|--connections=1 => 6 ! cannot write .
# The register's own files are no log, by whichever name.
serve|&|--log=s|--port=80|--connections=1 => 6 ! cannot write s
serve|&|--log=s-wal|--port=80|--connections=1 => 6 ! cannot write s-wal
serve|&|--store=a|--log=./a|--port=80|--connections=1 => 6 ! cannot write ./a
serve|&|--socket=k|--unending|--store=gone => 4 ! not a register
serve|&|--port=80|--connections=1 => 4 ! not a register
extract|@|--groups=loca|07 => 4 ! groups refused
extract|@|--groups=LOCA,|07 => 4 ! groups refused
extract|@|07 => 4 ! number refused
extract|@|0 => 4 ! number refused
extract|@|1000000 => 4 ! number refused
withdraw|@|07 => 4 ! number refused
withdraw|@|0 => 4 ! number refused
withdraw|@|1000000 => 4 ! number refused
withdraw|@|+1 => 4 ! number refused
withdraw|@| => 4 ! number refused
deposit|@|gone => 6 ! cannot read gone
deposit|@|a => 4 ! not a register
extract|@|1 => 4 ! not a register
list|@ => 4 ! not a register
withdraw|@|1 => 4 ! not a register
migrate|--store=s => 4 ! not a register
migrate|--store|s => 4 ! not a register
"""

OF_DICTIONARIES_AND_FILES = """
check|--dictionary=none|gone => 6 ! cannot read none
check|--dictionary=a|gone => 4 ! dictionary refused
check|--dictionary=longest|gone => 4 ! dictionary refused
check|--dictionary=mini|gone => 6 ! cannot read gone
check|--dictionary=mini|long => 4 ! too large
init|--store=s|--dictionary=mini => 0 created
init|--store=s|--dictionary=none => 6 ! cannot read none
init|--store=s|--dictionary=a => 4 ! dictionary refused
init|--store=s|--dictionary=longest => 4 ! dictionary refused
init|--store=s|--dictionary=mini => 4 ! store not empty
"""

# The version is the newest of CHANGELOG.md.
VERSIONS = "version => 0 " + machine.VERSION.decode()[:-1].replace("\n", "\\n")

SCENES = (REGISTER, WITHDRAWAL, RULE_DAYS, TOKEN_FILES, VERIFIED, VERSIONS, WORDS_REFUSED, IN_ANY_ORDER, OF_WORDS_AND_POLICIES,
          OF_CALLERS_AND_TOKENS, OF_REQUESTS, OF_DICTIONARIES_AND_FILES)

# What `serve` says of a port that is taken (PORT): the port comes last.
PORT_TAKEN = """
serve|&|--port=PORT|--connections=1 => 4 ! not a register
serve|&|--port=PORT|--connections=1|--store=junk => 5 ! store failed
serve|&|--port=PORT|--connections=1|--day=1 => 4 ! day refused
init|--store=s|--dictionary=mini => 0 created
serve|&|--port=PORT|--connections=1 => 6 ! cannot listen
serve|&|--port=PORT|--connections=1|--patience=1|--end-on-failure|--log=l => 6 ! cannot listen
serve|--end-on-failure|--day-by-clock|&|--port=PORT|--patience|3600|--connections=1 => 6 ! cannot listen
serve|&|--port=PORT|--unending|--reload=r => 6 ! cannot listen
# A path that is taken by what is no socket, one in no folder, and one that is too long.
serve|&|--socket=a|--unending => 6 ! cannot listen
serve|&|--socket=none/k|--unending => 6 ! cannot listen
serve|&|--unending|--socket=kkkkkkkkkkkkkkkkkkkkkkkkkkkkkkkkkkkkkkkkkkkkkkkkkkkkkkkkkkkkkkkkkkkkkkkkkkkkkkkkkkkkkkkkkkkkkkkkkkkkkkkkkkkk => 6 ! cannot listen
"""

# Starts that open a register, s with one deposit, file a, or try to: the line, the register, and the fault that is
# reported, if there is one.
STARTS = [
    ("list|@", "s", ""),
    ("deposit|@|a", "s", ""),
    ("extract|@|1", "s", ""),
    ("extract|@|2", "s", ""),
    ("deposit|@|--token=t-gamma|a", "s", ""),
    ("withdraw|@|--policy=w|1", "s", ""),
    ("serve|&|--port=PORT|--connections=1", "s", "cannot listen"),
    ("migrate|--store=s", "s", "register version 2"),
    ("verify|--store=s", "s", ""),
    ("list|@|--store=junk", "junk", "store failed"),
    ("list|@|--store=empty", "empty", "not a register"),
]
# Faults that come before a register is opened, and registers that are no file: nothing is said of their size.
UNOPENED = """
list|@|--progress|--token=t-x => 4 ! token refused
deposit|@|--progress|gone => 6 ! cannot read gone
serve|&|--progress|--port=80|--connections=1|--log=none/l => 6 ! cannot write none/l
list|--progress|@|--store=gone => 4 ! not a register
withdraw|@|--store=.|1|--progress => 5 ! store failed
migrate|--progress|--store=gone/s => 5 ! store failed
# After `--` it is no flag.
deposit|@|--|--progress => 6 ! cannot read --progress
"""
# A line of the deposits that are checked, which a start of more than a second has.
CHECKED = re.compile(rb"[0-9]+ of [0-9]+ deposits checked, [0-9]+ seconds left\n")

# The commands that open a register of format 2, each with all its words.
COMMANDS = ("deposit|@|a", "extract|@|1", "list|@", "withdraw|@|1", "serve|&|--port=80|--connections=1")
NOT_ONE, FAILED, OF_FORMAT = "4 ! not a register", "5 ! store failed", "4 ! register version {}".format
SET_FORMAT = "UPDATE meta SET num = {} WHERE name = 'format'".format

# Stores that hold no register, or one of another format: each with a statement that another hand runs on it first, if
# there is one, what each command says of it then, and what `migrate` says.
STORES = [
    ("empty", "", NOT_ONE, NOT_ONE),
    ("gone", "", NOT_ONE, NOT_ONE),
    ("other", "CREATE TABLE note (text TEXT)", NOT_ONE, NOT_ONE),
    ("junk", "", FAILED, FAILED),
    ("gone/s", "", FAILED, FAILED),
    ("a/s", "", FAILED, FAILED),
    (".", "", FAILED, FAILED),
    ("s", "DELETE FROM steps", NOT_ONE, OF_FORMAT(2)),
    ("s", SET_FORMAT(7), OF_FORMAT(7), OF_FORMAT(7)),
    ("s", "UPDATE deposits SET firm = 'N 1'", OF_FORMAT(7), OF_FORMAT(7)),
    ("s", SET_FORMAT(-12), OF_FORMAT(-12), OF_FORMAT(-12)),
    ("s", SET_FORMAT(9223372036854775807), OF_FORMAT(9223372036854775807), OF_FORMAT(9223372036854775807)),
    ("s", SET_FORMAT(0), OF_FORMAT(0), OF_FORMAT(0)),
    ("s", SET_FORMAT(3), OF_FORMAT(3), OF_FORMAT(3)),
    ("s", SET_FORMAT(2), NOT_ONE, OF_FORMAT(2)),
    ("s", SET_FORMAT(1), OF_FORMAT(1), NOT_ONE),
    ("s", "DROP TABLE withdrawals", OF_FORMAT(1), NOT_ONE),
]
BEFORE_STORES = """
init|--store=s|--dictionary=mini => 0 created
deposit|@|a => 0 receipt 1 2024-05-01
"""
# What makes a register of format 1 of one of format 2.
TO_FORMAT_1 = [("DROP TABLE withdrawals",), (SET_FORMAT(1),)]
AT_LIMIT = ("UPDATE deposits SET body = ?", machine.FILE_A + b" " * (machine.LIMIT - len(machine.FILE_A)))
ABOVE_LIMIT = ("UPDATE deposits SET body = ?", longer(machine.FILE_A))
# Statements after which a register of one deposit, file a, is none.
SPOILT = [
    ("UPDATE deposits SET firm = 'N 1'",),
    ("UPDATE deposits SET embargo = 2932897",),
    ("INSERT INTO deposits SELECT 2, firm, project, embargo, body FROM deposits",),
    ("DELETE FROM meta WHERE name = 'dictionary'",),
    ("DELETE FROM lines WHERE seq = 0",),
    ("DROP TABLE steps",),
    ABOVE_LIMIT,
]
# Registers of one deposit, file a, each made anew: the statements that another hand runs on it, with their values, and
# commands with what each of them says of it then, one after the other.
MIGRATE = ["migrate"]
CHANGED = [
    *[([each], [(COMMANDS, NOT_ONE), (MIGRATE, OF_FORMAT(2))]) for each in SPOILT],
    *[([*TO_FORMAT_1, each], [(COMMANDS, OF_FORMAT(1)), (MIGRATE * 2, NOT_ONE), (["list|@"], OF_FORMAT(1))])
      for each in SPOILT],
    *[([each, (SET_FORMAT(7),)], [((*COMMANDS, "migrate"), OF_FORMAT(7))]) for each in SPOILT],
    ([("UPDATE meta SET num = num + 5",)], [((*COMMANDS, "migrate"), OF_FORMAT(7))]),
    ([("DELETE FROM meta WHERE name = 'format'",)], [((*COMMANDS, "migrate"), NOT_ONE)]),
    ([AT_LIMIT], [(["list|@"], "0 1 Delta 2024-05-01"), (MIGRATE, OF_FORMAT(2))]),
    # A deposit that another hand has withdrawn, one whose mark it has taken away, and withdrawals of no deposit.
    *[([(f"INSERT INTO withdrawals VALUES ({number})",)],
       [(["list|@"], "0"), (["extract|@|1"], "3 unknown"), (["withdraw|@|--policy=w|1"], "0 withdrawn 1")])
      for number in (1, "NULL")],
    ([("INSERT INTO withdrawals VALUES (1)",), ("DELETE FROM withdrawals",)],
     [(["list|@"], "0 1 Delta 2024-05-01"), (["extract|@|1"], "0 (a)")]),
    # A database with a reference to no row cannot be opened.
    *[([(f"INSERT INTO withdrawals VALUES ({number})",)], [((*COMMANDS, "migrate"), FAILED)])
      for number in (0, -1, 2, 999999, 9223372036854775807)],
    ([("DROP TABLE withdrawals",)], [(COMMANDS, NOT_ONE), (MIGRATE, OF_FORMAT(2))]),
    # Registers of format 1, each of which is migrated once.
    (TO_FORMAT_1, [(COMMANDS, OF_FORMAT(1)), (MIGRATE, "0 migrated"), (["list|@"], "0 1 Delta 2024-05-01"),
                   (["extract|@|1"], "0 (a)"), (MIGRATE, OF_FORMAT(2)),
                   (["withdraw|@|--policy=w|1"], "0 withdrawn 1"), (["list|@"], "0")]),
    ([*TO_FORMAT_1, AT_LIMIT], [(["list|@"], OF_FORMAT(1)), (MIGRATE, "0 migrated"), (["extract|@|1"], "0 (a)")]),
]
# A line, a step and a withdrawal of a deposit that does not exist.
OF_NO_DEPOSIT = ["INSERT INTO lines VALUES (2, 0, 'PROJ', 0, x'')", "INSERT INTO steps VALUES (2, 0, 0)",
                 "INSERT INTO withdrawals VALUES (2)"]
AFTER_STORES = """
init|--store=junk|--dictionary=mini => 5 ! store failed
init|--store=gone/s|--dictionary=mini => 5 ! store failed
init|--store=empty|--dictionary=mini => 0 created
"""


def lines_of(scene):
    """(words, what has to come of them) of each line."""
    for line in scene.strip().splitlines():
        if not line.startswith("#"):
            words, _, want = line.partition(" => ")
            yield words, want or REFUSED


def words_of(line):
    """The arguments of a line. An option that it names anywhere, even as a file, is not among those of `@` and `&`."""
    words = []
    for word in line.split("|"):
        names = {"@": OPTIONS, "&": OF_SERVE}.get(word)
        words += [word] if names is None else [f"{name}={OPTIONS[name]}" for name in names if name not in line]
    return words


class Folder(servers.Place):
    """A place with the files that the lines name."""

    patience = 60

    def answer(self, words):
        out, said, status = self.run(*words)
        out = PRINTED.get(out, out[:-1].replace(b"\n", b"\\n") + out[-1:])
        told = str(status) + (" " + out.decode("latin-1")[:-1] if out.endswith(b"\n") else out.decode("latin-1"))
        if said.startswith(b"groundreg: ") and said.endswith(b"\n"):
            return told + " ! " + said[len(b"groundreg: "):-1].decode("latin-1")
        return told + said.decode("latin-1")

    def run_saying(self, said, words):
        """Standard output and status of a start whose standard error is this file."""
        run = subprocess.run([self.program, *words], cwd=self.folder, stdin=subprocess.DEVNULL, stdout=subprocess.PIPE,
                             stderr=said, timeout=self.patience)
        return run.stdout, run.returncode

    def run_at_terminal(self, words):
        """Standard output, what a terminal gets on standard error, and status of a start."""
        ours, its = os.openpty()
        try:
            out, status = self.run_saying(its, words)
        finally:
            os.close(its)
        said = b""
        with contextlib.suppress(OSError):  # which is how a terminal ends
            while piece := os.read(ours, 4096):
                said += piece
        os.close(ours)
        return out, said.replace(b"\r\n", b"\n"), status

    def size_line(self, store):
        """What is said before a register is opened: the bytes of its file and its log."""
        paths = [self.path(store), self.path(store + "-wal")]
        return b"reading %d bytes\n" % sum(os.path.getsize(path) for path in paths if os.path.exists(path))

    def show_start(self, line, store, fault):
        """A start says nothing of its progress, says it with the flag, and at a terminal without the flag."""
        words, told = words_of(line), b"groundreg: %s\n" % fault.encode() if fault else b""
        out, said, status = self.run(*words)
        self.check(f"{line}: without a terminal", told, said)
        for name, start in (("--progress", lambda: self.run(*words, "--progress")),
                            ("a terminal", lambda: self.run_at_terminal(words))):
            size = self.size_line(store)
            got, shown, ended = start()
            self.check(f"{line}: {name}", size + told, CHECKED.sub(b"", shown))
            self.check(f"{line}: {name}, answer", (out, status), (got, ended))

    def hold(self, line, want):
        self.check(line, want, self.answer(words_of(line)))

    def play(self, scene):
        for line, want in lines_of(scene):
            self.hold(line, want)

    def change(self, store, statement, *values, keys="OFF"):
        """Runs a statement on a store as another hand does, whether that keeps to foreign keys or not."""
        with contextlib.closing(sqlite3.connect(self.path(store))) as connection, connection:
            connection.execute(f"PRAGMA foreign_keys = {keys}")
            connection.execute(statement, values)

    def refuses(self, store, statement):
        """Whether the tables refuse a statement by their foreign keys."""
        with contextlib.suppress(sqlite3.IntegrityError):
            self.change(store, statement, keys="ON")
            return False
        return True


def refuse_stores(folder):
    folder.play(BEFORE_STORES)
    for statement in OF_NO_DEPOSIT:
        folder.check(f"is refused: {statement}", True, folder.refuses("s", statement))
    for store, statement, want, migrated in STORES:
        if statement:
            folder.change(store, statement)
        for command in COMMANDS:
            folder.hold(f"{command}|--store={store}", want)
        folder.hold(f"migrate|--store={store}", migrated)
    # A command on a register that does not exist makes no file.
    folder.check("a file `gone` is made", False, os.path.exists(folder.path("gone")))
    folder.play(AFTER_STORES)


def refuse_changed(folder):
    for number, (statements, asked) in enumerate(CHANGED):
        store = f"s{number}"
        folder.play(f"init|--store={store}|--dictionary=mini => 0 created\n"
                    f"deposit|@|--store={store}|a => 0 receipt 1 2024-05-01")
        for statement in statements:
            folder.change(store, *statement)
        for commands, want in asked:
            for command in commands:
                folder.hold(f"{command}|--store={store}", want)


def refuse_port(folder):
    with socket.create_server(("127.0.0.1", 0)) as taken:
        folder.play(PORT_TAKEN.replace("PORT", str(taken.getsockname()[1])))


def show_progress(folder):
    folder.play(BEFORE_STORES + UNOPENED)
    with socket.create_server(("127.0.0.1", 0)) as taken:
        for line, store, fault in STARTS:
            folder.show_start(line.replace("PORT", str(taken.getsockname()[1])), store, fault)
    for statement in TO_FORMAT_1:
        folder.change("s", *statement)
    size = folder.size_line("s")
    out, said, status = folder.run("migrate", "--progress", "--store=s")
    folder.check("a migration", (b"migrated\n", size, 0), (out, CHECKED.sub(b"", said), status))
    # A line that cannot be written is no failure; a fault that cannot be reported is one.
    with open("/dev/full", "wb") as full:
        for line, want in (("list|@|--progress", (b"1 Delta 2024-05-01\n", 0)),
                           ("list|@|--progress|--store=junk", (b"", 6))):
            folder.check(f"{line}: standard error is full", want, folder.run_saying(full, words_of(line)))


def make_private(folder):
    folder.play("init|--store=s|--dictionary=mini => 0 created\n"
                "serve|&|--log=l|--port=80|--connections=1|--store=empty => 4 ! not a register")
    for name in ("s", "s-wal", "l"):
        folder.check(f"the mode of {name}", "600", f"{os.stat(folder.path(name)).st_mode & 0o777:o}")


def main():
    if len(sys.argv) < 2:
        sys.exit(__doc__)
    passed = failed = 0
    plays = [lambda folder, scene=scene: folder.play(scene) for scene in SCENES]
    plays.append(lambda folder: folder.hold("", REFUSED))  # an empty word is no line
    plays += [refuse_stores, refuse_changed, refuse_port, show_progress, make_private]
    for play in plays:
        with tempfile.TemporaryDirectory() as path:
            folder = Folder(sys.argv[1], path, files=FILES)
            play(folder)
            passed, failed = passed + folder.passed, failed + folder.failed
    print(f"{passed} passed, {failed} failed")
    sys.exit(failed > 0)


if __name__ == "__main__":
    main()
