#!/usr/bin/env python3
"""Measures the package for Python against CPython's own tokenizer and Pygments' own lexer.

    PYTHONPATH=out/bindings/python scripts/speed/python_speed.py [--rounds N] TEXT..

Each round calls everything once on each text, each in a process of its own, in turns. The table has
the least processor time of N rounds (5) in milliseconds, how often it goes into the time of the call
that it is compared with (the mean over the texts), and the memory that it takes at its peak on the
largest text beyond that before the call. Without Pygments its rows are left out.
"""

import argparse
import io
import math
import resource
import subprocess
import sys
import time
import tokenize as python_tokenize
from pathlib import Path


def run_tokenize(text):
    for _ in python_tokenize.tokenize(io.BytesIO(text).readline):
        pass


def keep_tokenize(text):
    return list(python_tokenize.tokenize(io.BytesIO(text).readline))


def run_own(text):
    import starlark_lexer

    for _ in starlark_lexer.tokenize(text):
        pass


def keep_own(text):
    import starlark_lexer

    return list(starlark_lexer.tokenize(text))


def find_faults(text):
    import starlark_lexer

    return starlark_lexer.faults(text)


def make_columns(text):
    import starlark_lexer

    return starlark_lexer.lex_columns(text)


def colour(lexer, text):
    for _ in lexer.get_tokens(text.decode()):
        pass


def colour_by_python(text):
    from pygments.lexers.python import PythonLexer

    colour(PythonLexer(), text)


def colour_by_own(text):
    from starlark_lexer.pygments_lexer import StarlarkLexer

    colour(StarlarkLexer(), text)


# What is called: its name, the function, and the name of what it is compared with.
CALLS = [
    ("CPython's `tokenize`", run_tokenize, None),
    ("`tokenize`", run_own, "CPython's `tokenize`"),
    ("CPython's `tokenize`, all tokens kept", keep_tokenize, None),
    ("`tokenize`, all tokens kept", keep_own, "CPython's `tokenize`, all tokens kept"),
    ("`faults`", find_faults, "CPython's `tokenize`"),
    ("`lex_columns`", make_columns, "CPython's `tokenize`"),
    ("Pygments, its lexer for Starlark", colour_by_python, None),
    ("Pygments, this lexer", colour_by_own, "Pygments, its lexer for Starlark"),
]


def measure(number, file):
    """Prints the seconds of a call, and the megabytes that it takes at its peak."""
    text = Path(file).read_bytes()
    _, call, _ = CALLS[number]
    call(b"x = 1\n")  # imports what it needs
    before = resource.getrusage(resource.RUSAGE_SELF).ru_maxrss
    begin = time.process_time()
    kept = call(text)
    end = time.process_time()
    after = resource.getrusage(resource.RUSAGE_SELF).ru_maxrss
    del kept
    print(end - begin, (after - before) / 1024)


def measured(number, file):
    """The seconds and megabytes of a call; None where something that it needs isn't there."""
    run = subprocess.run([sys.executable, __file__, "--measure", str(number), file], capture_output=True, text=True)
    if run.returncode:
        print(run.stderr.strip().rpartition("\n")[2], file=sys.stderr)
        return None
    return tuple(map(float, run.stdout.split()))


def all_measured(files, rounds):
    """The least seconds and the most megabytes of each call on each file."""
    best = {}
    for _ in range(rounds):
        for file in files:
            for number, (name, _, _) in enumerate(CALLS):
                found = measured(number, file)
                if found:
                    seconds, peak = best.get((name, file), (math.inf, 0))
                    best[name, file] = min(seconds, found[0]), max(peak, found[1])
    return best


def ratio(best, files, name, base):
    """How much faster a call is than another, as the geometric mean over the files."""
    logs = [math.log(best[base, file][0] / best[name, file][0]) for file in files]
    return f"{math.exp(sum(logs) / len(logs)):.1f}"


def main():
    parser = argparse.ArgumentParser()
    parser.add_argument("--rounds", type=int, default=5)
    parser.add_argument("--measure", type=int, help=argparse.SUPPRESS)
    parser.add_argument("texts", nargs="+", metavar="TEXT")
    asked = parser.parse_args()
    if asked.measure is not None:
        measure(asked.measure, asked.texts[0])
        return
    best = all_measured(asked.texts, asked.rounds)
    largest = max(asked.texts, key=lambda file: Path(file).stat().st_size)
    titles = [f"{Path(file).stem}, {Path(file).stat().st_size / 1e6:.0f} MB" for file in asked.texts]
    print(f"Python {sys.version.split()[0]}")
    print("| " + " | ".join(["Call", *titles, "Ratio", f"Peak on {titles[asked.texts.index(largest)]}"]) + " |")
    print("|---" * (len(titles) + 3) + "|")
    for name, _, base in CALLS:
        if (name, largest) in best:
            times = [f"{1000 * best[name, file][0]:.1f}" for file in asked.texts]
            how = ratio(best, asked.texts, name, base) if base else "1"
            print("| " + " | ".join([name, *times, how, f"{best[name, largest][1]:.0f} MB"]) + " |")


if __name__ == "__main__":
    main()
