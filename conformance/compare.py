#!/usr/bin/env python3
"""Changes the files of files/ at random and compares what a checker prints with what reference.py computes.

usage: compare.py PROGRAM [COUNT [SEED [PHASES]]]
A seed gives the same changes each time. The last line is 'N passed, M failed'."""
import glob
import os
import random
import subprocess
import sys
import reference

here = os.path.dirname(os.path.abspath(__file__))
WORDS = [b'"DATA"', b'"GROUP"', b'"HEADING"', b'"UNIT"', b'"TYPE"', b'""', b'"X"', b'"ID"', b'"2DP"', b'"RL"', b'"PA"',
         b'"BH1"', b'"BH2"', b'"S1"', b'"1.50"', b'"LOCA"', b'"SAMP"', b'"DICT"', b'"FILE"', b'"KEY"', b'"LOCA_ID"',
         b'"SAMP_TOP"', b'"FILE_FSET"', b'"SAMP|BH1|1.50|S1"', b'"LOCA|BH1"', b'"m"']


def change(data, chance):
    """One small change of a line, a field or a byte."""
    lines = data.split(b"\r\n")
    k = chance.randrange(len(lines))
    kind = chance.randrange(9)
    if kind == 0:
        del lines[k]
    elif kind == 1:
        lines.insert(k, lines[chance.randrange(len(lines))])
    elif kind == 2:
        other = chance.randrange(len(lines))
        lines[k], lines[other] = lines[other], lines[k]
    elif kind in (3, 4, 5):
        fields = lines[k].split(b",")
        fields[chance.randrange(1, len(fields)) if len(fields) > 1 else 0] = chance.choice(WORDS)
        lines[k] = b",".join(fields)
    elif kind == 6:
        fields = lines[k].split(b",")
        fields.insert(chance.randrange(len(fields) + 1), chance.choice(WORDS))
        lines[k] = b",".join(fields)
    elif kind == 7 and lines[k]:
        at = chance.randrange(len(lines[k]))
        byte = bytes([chance.choice(b'"," \r\n\t|+-_1AXa\x80\x00')])
        lines[k] = lines[k][:at] + byte + lines[k][at + chance.randrange(2):]
    elif kind == 8 and lines[k]:
        at = chance.randrange(len(lines[k]))
        lines[k] = lines[k][:at] + lines[k][at + 1:]
    return b"\r\n".join(lines)


def main():
    if len(sys.argv) < 2:
        sys.exit(__doc__)
    program = os.path.abspath(sys.argv[1])
    count, seed, phases = (int(sys.argv[n]) if len(sys.argv) > n else usual for n, usual in ((2, 500), (3, 1), (4, 5)))
    names = sorted(glob.glob(os.path.join(here, "files", "*.ags")))
    chance, passed, failed, clean = random.Random(seed), 0, 0, 0
    for turn in range(count):
        with open(chance.choice(names), "rb") as file:
            data = file.read()
        for _ in range(chance.choice((1, 1, 1, 2, 3))):
            data = change(data, chance)
        want = reference.printed(reference.findings(data, phases))
        run = subprocess.run([program], input=data, capture_output=True)
        got = run.stdout.decode("latin-1").rstrip("\n").split("\n")
        clean += want == ["clean"]
        if got == want and run.returncode == (want != ["clean"]) and not run.stderr:
            passed += 1
        else:
            failed += 1
            print(f"turn {turn}: {data!r}\n  wanted {want}, got {got}, status {run.returncode}, {run.stderr[:80]!r}")
    print(f"({clean} of the {count} changed files are clean)")
    print(f"{passed} passed, {failed} failed")
    return failed > 0


if __name__ == "__main__":
    sys.exit(main())
