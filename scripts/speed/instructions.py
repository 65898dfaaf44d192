#!/usr/bin/env python3
"""Counts the instructions a lexeme of the benchmark and of other lexers, by valgrind: other work doesn't change them.

    scripts/speed/instructions.py [--bench PROGRAM] [--against NAME=PROGRAM].. TEXT..

PROGRAM is a `starlark_bench` in place of the proved one. Another lexer is called as `PROGRAM --bench N TEXT`, and prints N lines as
the benchmark does, with the number of lexemes second. What a lexeme costs is what two runs over a text take beyond one. Memory is what
of it allocates, frees, and copies by a call. A ratio is to another lexer, and the last row has the geometric means.
"""

import argparse
import collections
import re
import subprocess
import sys
import tempfile
from concurrent.futures import ThreadPoolExecutor
from pathlib import Path
from statistics import geometric_mean

sys.path.append(f"{sys.path[0]}/..")  # where shared/ lies
from shared.counting import has_valgrind
from shared.programs import built, give_up

MEMORY = re.compile(r"alloc|free|mem(cpy|move|set)|unlink_chunk")


def costs_of(command, text):
    """The instructions of a run by function, and its number of lexemes."""
    with tempfile.NamedTemporaryFile(mode="r") as out, text.open("rb") as source:
        valgrind = ["valgrind", "--tool=cachegrind", "--cache-sim=no", f"--cachegrind-out-file={out.name}"]
        ran = subprocess.run([*valgrind, *command], stdin=source, capture_output=True, text=True)
        if ran.returncode:
            give_up(f"{command[0]} gave up on {text}")
        costs, name = collections.Counter(), ""
        for line in out:
            if line.startswith("fn="):
                name = line[3:].strip()
            elif line[0] in "0123456789+-":
                costs[name] += int(line.split()[1])
    return costs, int(ran.stdout.split()[1])


def cost_of(command, text):
    """The instructions a lexeme of a lexer over a text, and how many of them are memory."""
    once, twice = (costs_of([word.format(count=count, text=text) for word in command], text) for count in (1, 2))
    more = {name: cost - once[0][name] for name, cost in twice[0].items()}
    memory = sum(cost for name, cost in more.items() if MEMORY.search(name))
    return sum(more.values()) / once[1], memory / once[1]


def rows_of(texts, names, costs):
    """The table, a row for each text: of the benchmark and each other lexer instructions and memory, and ratios to the others."""
    yield ["Text", "Here", "Memory", *(word for name in names for word in (name, "Memory", "Ratio"))]
    yield ["---"] * (3 + 3 * len(names))
    ratios = {name: [] for name in names}
    for text in texts:
        own = costs["", text]
        row = [text.stem, f"{own[0]:.0f}", f"{own[1]:.0f}"]
        for name in names:
            cost, memory = costs[name, text]
            ratios[name].append(own[0] / cost)
            row += [f"{cost:.0f}", f"{memory:.0f}", f"{own[0] / cost:.2f}"]
        yield row
    yield ["geometric mean", "", "", *(word for name in names for word in ("", "", f"{geometric_mean(ratios[name]):.3f}"))]


def main():
    arguments = argparse.ArgumentParser(description=__doc__.splitlines()[0])
    arguments.add_argument("--bench", metavar="PROGRAM")
    arguments.add_argument("--against", action="append", default=[], metavar="NAME=PROGRAM")
    arguments.add_argument("texts", nargs="+", type=Path, metavar="TEXT")
    asked = arguments.parse_args()
    if not has_valgrind():
        give_up("instructions: not counted, since there is no valgrind", 2)
    commands = {"": [str(asked.bench or built("starlark_bench")), "--bench", "{count}"]}
    for word in asked.against:
        name, _, program = word.partition("=")
        commands[name] = [str(Path(program).resolve()), "--bench", "{count}", "{text}"]
    pairs = [(name, text) for text in asked.texts for name in commands]
    with ThreadPoolExecutor() as pool:
        costs = dict(zip(pairs, pool.map(lambda pair: cost_of(commands[pair[0]], pair[1]), pairs)))
    for row in rows_of(asked.texts, list(commands)[1:], costs):
        print("|", " | ".join(row), "|")


if __name__ == "__main__":
    main()
