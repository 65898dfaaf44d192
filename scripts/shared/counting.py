"""Instructions of programs, which valgrind counts, and which other work doesn't change."""

import re
import shutil
import subprocess

COMMAND = ["valgrind", "--tool=cachegrind", "--cache-sim=no", "--cachegrind-out-file=/dev/null"]


def has_valgrind():
    return shutil.which("valgrind") is not None


class Counted:
    """One run of a command over a text in valgrind: its status, and its instructions."""

    peak = 0

    def __init__(self, command, source):
        with source.open("rb") as text:
            ran = subprocess.run([*COMMAND, *command], stdin=text, stdout=subprocess.DEVNULL, stderr=subprocess.PIPE, text=True)
        self.status = ran.returncode
        refs = re.search(r"I +refs: +([0-9,]+)", ran.stderr)
        self.cost = int(refs[1].replace(",", "")) if refs else float("inf")
