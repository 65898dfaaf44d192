#!/usr/bin/env python3
"""Measures over hostile texts that the programs take time and memory linear in the text's bytes.

Each shape of a text is made once and at twice its length. For both starlark_bench lexes, starlark_lex prints lines, and
starlark_tokens prints tokens, and then all faults. What is measured is time: some runs of each in turn, of which the least time
counts; or, with --instructions, the instructions that valgrind counts, which other work doesn't change. A line says, in this
order: the shorter text's length in megabytes; nanoseconds or instructions a byte for lexing the shorter and the longer one; how
many times as much the longer one took in each of the four; and, with time, the most memory that starlark_lex held for the longer
one, in bytes a byte of the text.

    scripts/oracles/linear_time.py [--instructions] [--times N] [--divide N] [--most RATIO] [WORD..]

--instructions  counts instructions, each text once
--times N       N runs of each text (3)
--divide N      texts of an Nth of their length (1)
--most R        how many times as much a text of twice the length may take (2.3)
WORD            only shapes whose names have a WORD

The exit status is 1 where a longer text took more than R times as much, or where a program gave up, and 2 where
instructions can't be counted. Beside other work times vary: a shape that takes longer is measured on, twice at most.
Programs that aren't built are proved and built first.
"""

import argparse
import os
import subprocess
import sys
import tempfile
from concurrent.futures import ThreadPoolExecutor
from pathlib import Path
from typing import NamedTuple

sys.path.append(f"{sys.path[0]}/..")  # where shared/ lies
from shared.counting import Counted, has_valgrind
from shared.programs import built

ATTEMPTS = 3
MEGABYTE = 1_000_000


class Task(NamedTuple):
    """What is measured: a program with its arguments, over a text on its standard input."""

    column: str
    crate: str
    arguments: tuple = ()


LEXED, LINES = Task("lexed", "starlark_bench"), Task("lines", "starlark_lex")
TASKS = [LEXED, LINES, Task("tokens", "starlark_tokens"), Task("faults", "starlark_tokens", ("--check", "--max-faults", "0"))]


def widths(count):
    """Lines of `count` widths, each one space wider than the one before."""
    return b"".join(b" " * width + b"if x:\n" for width in range(count))


# A name, how long the shorter text is in the shape's own measure, and the text of such a measure.
SHAPES = [
    ("open f-strings", 1_000_000, lambda n: b'f"{' * n),
    ("open round brackets", 4_000_000, lambda n: b"(" * n),
    ("open brackets of all kinds", 1_000_000, lambda n: b"([{" * n),
    ("closing brackets", 1_000_000, lambda n: b")" * n),
    ("leading zeros", 500_000, lambda n: b"01 " * n),
    ("faults at line ends", 500_000, lambda n: b'f"{1a\n}" ' * n),
    ("brackets inside of an f-string", 1_000_000, lambda n: b'f"{' + b"(" * n),
    ("closed f-strings", 500_000, lambda n: b'f"{x}" ' * n),
    ("f-strings in f-strings", 500_000, lambda n: b"f'{f\"{" * n),
    ("braces in the text of an f-string", 2_000_000, lambda n: b'f"' + b"{{" * n + b'"'),
    ("one literal", 8_000_000, lambda n: b'"' + b"a" * n + b'"'),
    ("one literal of escapes", 2_000_000, lambda n: b'"' + rb"\x41" * n + b'"'),
    ("one bytes literal", 8_000_000, lambda n: b'b"' + b"a" * n + b'"'),
    ("one triple literal of quotes", 3_000_000, lambda n: b'"""' + b'""a' * n + b'"""'),
    ("one triple literal of quotes and CR", 2_000_000, lambda n: b'"""' + b'""\ra' * n + b'"""'),
    ("one literal that isn't closed", 8_000_000, lambda n: b'"' + b"a" * n),
    ("empty literals", 2_000_000, lambda n: b"''\"\"" * n),
    ("one comment", 8_000_000, lambda n: b"# " + b"a" * n),
    ("one comment of characters past ASCII", 4_000_000, lambda n: b"# " + "é".encode() * n),
    ("comment lines", 4_000_000, lambda n: b"#\n" * n),
    ("comment lines after a line", 2_000_000, lambda n: b"x\n" + b" #\n" * n),
    ("one name", 8_000_000, lambda n: b"a" * n),
    ("one decimal number", 8_000_000, lambda n: b"9" * n),
    ("one hexadecimal number", 8_000_000, lambda n: b"0x" + b"f" * n),
    ("one octal number", 8_000_000, lambda n: b"0o" + b"7" * n),
    ("one binary number", 8_000_000, lambda n: b"0b" + b"1" * n),
    ("one number of zeros", 8_000_000, lambda n: b"0x" + b"0" * n),
    ("one float", 8_000_000, lambda n: b"1." + b"0" * n),
    ("one exponent", 8_000_000, lambda n: b"1e" + b"9" * n),
    ("points", 2_000_000, lambda n: b"." * n),
    ("newlines", 8_000_000, lambda n: b"\n" * n),
    ("CR LF", 4_000_000, lambda n: b"\r\n" * n),
    ("blank lines", 2_000_000, lambda n: b"x\n" + b"   \n" * n),
    ("escaped line ends", 4_000_000, lambda n: b"\\\n" * n),
    ("blanks", 8_000_000, lambda n: b" " * n + b"x"),
    ("one long line", 1_000_000, lambda n: b"ab 12 " * n),
    ("one long line past ASCII", 1_000_000, lambda n: "'é' ".encode() * n),
    ("short lines", 1_000_000, lambda n: b"ab 12\n" * n),
    ("blocks opened and closed", 500_000, lambda n: b"if x:\n  y\n" * n),
    ("a fault at the end", 4_000_000, lambda n: b"x " * n + b"$"),
    # The measure of this one is its count of widths, whose bytes are quadratic in it.
    ("open widths", 3_536, widths),
]


def write_apart(make, count, source):
    """Writes a text from another process: what this one holds would be counted as held by the programs that it starts."""
    process = os.fork()
    if process == 0:
        source.write_bytes(make(count))
        os._exit(0)
    os.waitpid(process, 0)


class Ran:
    """One run of a command over a text: its status, its processor time in seconds, and the most memory that it held."""

    def __init__(self, command, source):
        with source.open("rb") as text:
            process = subprocess.Popen(command, stdin=text, stdout=subprocess.DEVNULL, stderr=subprocess.DEVNULL)
            _, status, usage = os.wait4(process.pid, 0)
        process.returncode = self.status = os.waitstatus_to_exitcode(status)
        self.cost = usage.ru_utime + usage.ru_stime
        self.peak = usage.ru_maxrss * 1024


class Measured:
    """What one text takes: the least cost of each task, and the most memory for its lines."""

    def __init__(self, make, count, source, run):
        write_apart(make, count, source)
        self.source, self.length, self.run = source, source.stat().st_size, run
        self.costs = dict.fromkeys(TASKS, float("inf"))
        self.peak = 0
        self.failed = False

    def measure(self):
        for task in TASKS:
            ran = self.run([built(task.crate), *task.arguments], self.source)
            self.costs[task] = min(self.costs[task], ran.cost)
            self.failed |= ran.status not in ((0,) if task is LEXED else (0, 1))
            if task is LINES:
                self.peak = max(self.peak, ran.peak)

    def per_byte(self, task):
        return self.costs[task] / self.length


class Shape:
    """One shape of a text at one length and at about twice that."""

    def __init__(self, shape, folder, options):
        self.name, count, make = shape
        self.most, self.is_counted = options.most, options.instructions
        shrunk = options.divide if make is not widths else options.divide**0.5
        grown = 2 if make is not widths else 2**0.5
        short = max(round(count / shrunk), 1)
        run = Counted if options.instructions else Ran
        self.short = Measured(make, short, folder / f"{self.name} short", run)
        self.long = Measured(make, round(short * grown), folder / f"{self.name} long", run)

    def measure(self, times):
        """Measures `times` times, and again where that isn't linear; instructions once."""
        for _ in range(1 if self.is_counted else ATTEMPTS):
            for _ in range(1 if self.is_counted else times):
                self.short.measure()
                self.long.measure()
            if self.is_linear() or self.failed():
                break
        self.short.source.unlink()
        self.long.source.unlink()
        return self

    def failed(self):
        return self.short.failed or self.long.failed

    def ratios(self):
        """How many times as much a text of exactly twice the bytes would have taken, for each task."""
        return [2 * self.long.per_byte(task) / self.short.per_byte(task) for task in TASKS]

    def is_linear(self):
        return not self.failed() and max(self.ratios()) <= self.most

    def line(self):
        if self.failed():
            return f"{self.name:38} gave up"
        short, long = self.short, self.long
        unit = 1 if self.is_counted else 1e9
        ratios = "".join(f" {ratio:6.2f}" for ratio in self.ratios())
        memory = "" if self.is_counted else f" {long.peak / long.length:8.2f}"
        return (
            f"{self.name:38} {short.length / MEGABYTE:6.2f} {short.per_byte(LEXED) * unit:9.2f}"
            f" {long.per_byte(LEXED) * unit:9.2f}{ratios}{memory}"
        )


def measured(shapes, folder, options):
    """The shapes with what they take, each when it is measured: in turn by time, side by side by instructions."""
    for task in TASKS:
        built(task.crate)
    with ThreadPoolExecutor(os.cpu_count() if options.instructions else 1) as side_by_side:
        yield from side_by_side.map(lambda shape: Shape(shape, folder, options).measure(options.times), shapes)


def main():
    arguments = argparse.ArgumentParser(description=__doc__.splitlines()[0])
    arguments.add_argument("--instructions", action="store_true")
    arguments.add_argument("--times", type=int, default=3, metavar="N")
    arguments.add_argument("--divide", type=int, default=1, metavar="N")
    arguments.add_argument("--most", type=float, default=2.3, metavar="R")
    arguments.add_argument("words", nargs="*", metavar="WORD")
    options = arguments.parse_args()
    if options.instructions and not has_valgrind():
        print("linear time: not measured, since there is no valgrind")
        return 2
    shapes = [shape for shape in SHAPES if not options.words or any(word in shape[0] for word in options.words)]
    unit, memory = ("per byte", "") if options.instructions else ("ns/byte", f" {'memory':>8}")
    columns = "".join(f" {task.column:>6}" for task in TASKS)
    print(f"{'':38} {'MB':>6} {unit:>9} {'at twice':>9}{columns}{memory}")
    wrong = 0
    with tempfile.TemporaryDirectory() as folder:
        for shape in measured(shapes, Path(folder), options):
            wrong += not shape.is_linear()
            print(shape.line(), flush=True)
    print(f"linear time: {wrong} of these texts aren't linear" if wrong else "linear time: all of these texts are linear")
    return 1 if wrong else 0


if __name__ == "__main__":
    sys.exit(main())
