#!/usr/bin/env python3
"""Compares how the built program ends with docs/OUTPUT.md: exit status, standard output and error.

    scripts/oracles/exit_status.py [PROGRAM]    runs starlark_lex as it is built, or another program

It runs the program over texts with and without a fault and over bytes that are not UTF-8, with and
without NAME, with too many arguments and with one that is not UTF-8, with a standard input that
can't be read, and with a standard output that can't be written or that nobody reads. It proves and builds the program
first where that is missing, or older than a source. The exit status is 0 where every run ended as
it has to, and 1 where one didn't.
"""

import os
import subprocess
import sys
from typing import NamedTuple

sys.path.append(f"{sys.path[0]}/..")  # where shared/ lies
from shared.programs import built

USAGE = b"usage: starlark_lex [NAME]\n"
FOLDER = "/"
FULL = "/dev/full"


class Run(NamedTuple):
    """The arguments of a run and its standard input, and how it has to end."""

    arguments: list
    stdin: bytes
    status: int
    stdout: bytes
    stderr: bytes


def fault_line(name):
    """The line of the fault of `x !` under a name."""
    return b"fault 2-3 " + name + b":1:3-4 Parse error: invalid input `!`\n"


WORD = b"0-1 1:1-2 Identifier x\n"
WHOLE = WORD + b"1-2 1:2-2:1 Newline\n2-2 2:1 Newline\n"

RUNS = [
    Run([], b"", 0, b"0-0 1:1 Newline\n", b""),
    Run([], b"x\n", 0, WHOLE, b""),
    Run(["BUILD"], b"x\n", 0, WHOLE, b""),
    Run([], b"x !", 1, WORD + fault_line(b"<stdin>"), b""),
    Run(["BUILD"], b"x !", 1, WORD + fault_line(b"BUILD"), b""),
    Run(["a b/é.star"], b"x !", 1, WORD + fault_line("a b/é.star".encode()), b""),
    Run(["--helps"], b"x !", 1, WORD + fault_line(b"--helps"), b""),
    Run([""], b"x !", 1, WORD + fault_line(b""), b""),
    Run([], b"x\n\xff", 2, b"", b"input is not UTF-8\n"),
    Run(["BUILD"], b"a\xc3", 2, b"", b"input is not UTF-8\n"),
    Run(["BUILD", "BUILD"], b"x\n", 2, b"", USAGE),
    Run(["a", "b", "c"], b"x !", 2, b"", USAGE),
    Run([b"\xff"], b"x\n", 2, b"", USAGE),
]


def ended(program, run, **streams):
    """How a run ends, in the form of a run that has to end so."""
    given = {} if "stdin" in streams else {"input": run.stdin}
    into = {"stdout": subprocess.PIPE, "stderr": subprocess.PIPE}
    made = subprocess.run([program, *run.arguments], **given, **{**into, **streams}, check=False, timeout=60)
    return run._replace(status=made.returncode, stdout=made.stdout or b"", stderr=made.stderr)


def unreadable(program):
    """The run whose standard input is a folder, and how it ends."""
    run = Run([], b"", 2, b"", b"cannot read the input\n")
    stdin = os.open(FOLDER, os.O_RDONLY)
    try:
        return run, ended(program, run, stdin=stdin)
    finally:
        os.close(stdin)


def unwritable(program, arguments):
    """The run whose standard output is full, and how it ends."""
    run = Run(arguments, b"x\n", 2, b"", b"cannot write the output\n")
    with open(FULL, "wb") as stdout:
        return run, ended(program, run, stdout=stdout)


def unread(program, arguments):
    """The run whose standard output is a pipe that nobody reads, and how it ends."""
    run = Run(arguments, b"x\n", 141, b"", b"")
    reader, writer = os.pipe()
    os.close(reader)
    try:
        return run, ended(program, run, stdout=writer)
    finally:
        os.close(writer)


def helped(program):
    """The run that prints the help, of which the first line is compared, and how it ends."""
    run = Run(["--help"], b"x !", 0, USAGE, b"")
    found = ended(program, run)
    return run, found._replace(stdout=found.stdout[: len(USAGE)])


def main():
    """Compares all runs."""
    program = sys.argv[1] if sys.argv[1:] else built("starlark_lex")
    tried = [(run, ended(program, run)) for run in RUNS] + [unreadable(program), helped(program)]
    tried += [of(program, arguments) for of in (unwritable, unread) for arguments in ([], ["--help"], ["--version"])]
    wrong = [(run, found) for run, found in tried if found != run]
    for run, found in wrong:
        print(f"wanted: {run}\nfound:  {found}")
    print(f"{len(tried)} runs, {len(wrong)} of them ended otherwise than they have to")
    return 1 if wrong else 0


if __name__ == "__main__":
    sys.exit(main())
