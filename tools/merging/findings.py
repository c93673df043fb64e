"""What a check finds in a merged file: by the program, where one is built, else by tools/ags.

    found, by = findings(data, dictionary)      # lines (code, line, subject), and who found them"""
import os
import subprocess
import tempfile

import ags
from tables import Refused
from tables.layout import dictionary_of

HOME = os.path.join(os.path.dirname(os.path.realpath(__file__)), "..", "..")
PROGRAMS = [os.path.join(HOME, *path) for path in (("lib", "groundreg"), ("crates", "groundreg", "out", "groundreg"))]


def findings(data, dictionary=None):
    """The findings of a file under the bytes of a dictionary, or under the built-in one."""
    program = next((path for path in PROGRAMS if os.access(path, os.X_OK)), None)
    if program is None:
        found = ags.first_findings(ags.File(data), dictionary_of(dictionary))[1]
        return [(one.code, one.line, ags.shown(one.subject)) for one in found], "tools/ags"
    with tempfile.TemporaryDirectory(prefix="merge") as folder:
        options = []
        if dictionary is not None:
            options = ["check", "--dictionary", put(folder, "dictionary.ags", dictionary),
                       put(folder, "file.ags", data)]
        done = subprocess.run([program, *options], input=None if options else data, capture_output=True)
    if done.returncode > 1:
        raise Refused(f"the program refuses it: {done.stderr.decode('latin-1').strip()}")
    lines = done.stdout.decode("latin-1").splitlines()
    found = [line.split(" ", 2) for line in lines if line != "clean"]
    return [(code, int(line), "" if subject == "-" else subject) for code, line, subject in found], "the program"


def put(folder, name, data):
    path = os.path.join(folder, name)
    with open(path, "wb") as file:
        file.write(data)
    return path
