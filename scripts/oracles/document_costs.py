#!/usr/bin/env python3
"""Measures that a keystroke in a document, and a search of a lexeme in it, don't cost more in a longer text.

No contract says what an edit copies, or where a search begins. Here a text and one of four times its length are documents. valgrind
counts instructions, of starlark_bench for keystrokes at random places, and of starlark_rows for the lexemes after a place near the
end: in runs of few and of many, so that making the document doesn't count. A line says the instructions of one in the text and in
the longer one, and their ratio.

    scripts/oracles/document_costs.py [--most R]    the longer text may take R times as many (1.2)

The exit status is 1 where it took more or a program gave up, and 2 where there is no valgrind. Programs that aren't built are proved
and built first.
"""

import argparse
import sys
import tempfile
from concurrent.futures import ThreadPoolExecutor
from pathlib import Path

sys.path.append(f"{sys.path[0]}/..")  # where shared/ lies
from shared.counting import Counted, has_valgrind
from shared.programs import built
from shared.stored import list_of

BLOCK = b"def f(a, b = 1):  # both\n    return [a, 'x', {b: 2.5}]\n\nname = f(1, \"text\")\n"
SHORT, LONG = 400, 1600
FEW, MANY = 10, 60


def keystrokes(text, count):
    """A run of the benchmark that types characters into a document."""
    return [built("starlark_bench"), "--keystrokes", str(count)], text


def searches(text, count):
    """A run that makes a document, and looks for the lexemes after places near its end."""
    commands = [f"from {len(text) - 60 - number % 20}\n" for number in range(count)]
    part = f"new 1280 {len(text)}\n".encode() + text + b"\n" + "".join(commands).encode()
    return [built("starlark_rows")], list_of({"documents": part})


COSTS = {"a keystroke": keystrokes, "a search": searches}


def counted(make, blocks, count, folder):
    """The run of a number of keystrokes or searches in a text of so many blocks."""
    command, stdin = make(BLOCK * blocks, count)
    source = folder / f"{make.__name__} {blocks} {count}"
    source.write_bytes(stdin)
    return Counted(command, source)


def costs_of(make, folder):
    """The instructions of one, in the text and in the longer one; None where a program gave up."""
    cases = [(make, blocks, count, folder) for blocks in (SHORT, LONG) for count in (FEW, MANY)]
    with ThreadPoolExecutor() as pool:
        runs = list(pool.map(lambda case: counted(*case), cases))
    if any(run.status for run in runs):
        return None
    few, many, long_few, long_many = (run.cost for run in runs)
    return [(more - less) / (MANY - FEW) for less, more in ((few, many), (long_few, long_many))]


def main():
    arguments = argparse.ArgumentParser(description=__doc__.splitlines()[0])
    arguments.add_argument("--most", type=float, default=1.2, metavar="R")
    most = arguments.parse_args().most
    if not has_valgrind():
        print("document costs: not measured, since there is no valgrind")
        return 2
    wrong = 0
    with tempfile.TemporaryDirectory() as folder:
        for crate in ("starlark_bench", "starlark_rows"):
            built(crate)
        for name, make in COSTS.items():
            costs = costs_of(make, Path(folder))
            is_right = costs is not None and 0 < costs[1] <= most * costs[0]
            wrong += not is_right
            said = "gave up" if costs is None else f"{costs[0]:9.0f} and {costs[1]:9.0f} instructions, {costs[1] / costs[0]:.2f} times"
            print(f"{name:12} {said}{'' if is_right else ': WRONG'}")
    return 1 if wrong else 0


if __name__ == "__main__":
    sys.exit(main())
