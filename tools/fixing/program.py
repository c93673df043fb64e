"""The checker: the built program, which judges a file before and after each fix.

    check = checker("bin/groundreg", "dictionary.ags")
    check(data)                               # its findings, or Refused"""
import os
import subprocess
import tempfile

import explaining

HOME = os.path.dirname(os.path.dirname(os.path.dirname(os.path.abspath(__file__))))
PROGRAM = os.path.join(HOME, "bin", "groundreg")


class Refused(Exception):
    """The file, the dictionary or the program is refused; the text says why."""


def checker(program=PROGRAM, dictionary=None):
    """A function from a file's bytes to the findings that the program prints. `dictionary` is a path, or None for the
    built-in one."""
    def check(data):
        with tempfile.TemporaryDirectory() as folder:
            path = os.path.join(folder, "file.ags")
            with open(path, "wb") as file:
                file.write(data)
            words = ["check", "--dictionary", dictionary, path] if dictionary else []
            try:
                with open(path, "rb") as given:
                    done = subprocess.run([program, *words], stdin=given, capture_output=True)
            except OSError as fault:
                raise Refused(f"the program {program} does not start: {fault.strerror}") from fault
        findings, others = explaining.read_findings(done.stdout)
        if done.returncode not in (0, 1) or done.returncode == 1 and not findings:
            said = (done.stderr or done.stdout).decode("latin-1").strip()
            raise Refused(said or f"the program ended with {done.returncode}")
        return findings
    return check
