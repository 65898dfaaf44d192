#!/usr/bin/env python3
"""Measures keystrokes in a document by Rattle, C, Rust and Python, and by the language server.

    PYTHONPATH=out/bindings/python scripts/speed/document_speed.py [--count N] [--rounds N] [--bench PROGRAM] TEXT

Each types N characters (2000) into the middle half of a document of the text, each at another place,
and deletes each again. They run in turns, N rounds (5). The table has, in microseconds, the median
over the rounds of a keystroke at the median and at 99 %, its ratio to that by Rattle, and of making
the document; then lexing the whole text by C. A keystroke by the server goes from its message to the
diagnostics. `scripts/bindings.sh` builds what is run; PROGRAM is a `starlark_bench` in place of the
proved one. Without cargo or the package their rows are left out.
"""

import argparse
import io
import json
import os
import shutil
import statistics
import subprocess
import sys
from pathlib import Path
from tempfile import TemporaryDirectory
from time import perf_counter_ns

sys.path.append(f"{sys.path[0]}/..")  # where shared/ lies
from shared.programs import TOP, built, give_up

MADE = TOP / "out/bindings"
TYPED = "a_x =1,se."


def places(length, is_boundary, count):
    """The offsets where characters are typed, as crates/starlark_bench finds them."""
    number = 1
    for _ in range(count):
        number = (number * 6364136223846793005 + 1442695040888963407) % 2**64
        quarter = length // 4
        at = quarter + (number >> 33) % max(2 * quarter, 1)
        yield at if is_boundary(at) else 0


def timed(call):
    """Nanoseconds of a call."""
    start = perf_counter_ns()
    call()
    return perf_counter_ns() - start


def summary(made, times):
    """What the programs print: nanoseconds of making the document, and of a keystroke at the median and at 99 %."""
    times.sort()
    return made, times[len(times) // 2], times[len(times) * 99 // 100]


def by_python(text, count):
    """Keystrokes by the package."""
    from starlark_lexer import Document

    start = perf_counter_ns()
    with Document(text) as document:
        made = perf_counter_ns() - start
        times = []
        for stroke, at in enumerate(places(len(text), lambda at: document.place(at) is not None, count)):
            times.append(timed(lambda: document.edit(at, at, TYPED[stroke % 10])))
            times.append(timed(lambda: document.edit(at, at + 1, "")))
    return summary(made, times)


def message(method, **params):
    """A notification as a client sends it."""
    return json.dumps({"jsonrpc": "2.0", "method": f"textDocument/{method}", "params": params}).encode()


def by_server(text, count):
    """Keystrokes by the language server."""
    from starlark_lexer.lsp.params import shown
    from starlark_lexer.lsp.server import Server

    server, file = Server(io.BytesIO(), io.BytesIO()), {"uri": "file:///a.bzl"}
    server.take(b'{"id":1,"method":"initialize"}')
    opened = message("didOpen", textDocument={**file, "text": text.decode()})
    made, times = timed(lambda: server.take(opened)), []
    kept = server.text_of(file["uri"])
    for stroke, at in enumerate(places(len(text), lambda at: kept.document.place(at) is not None, count)):
        begin = kept.position(at)
        after = begin._replace(character=begin.character + 1)
        for end, typed in ((begin, TYPED[stroke % 10]), (after, "")):
            change = {"range": shown(begin, end), "text": typed}
            sent = message("didChange", textDocument=file, contentChanges=[change])
            times.append(timed(lambda: server.take(sent)))
    return summary(made, times)


def run(words, text):
    """The numbers of the line that a program prints."""
    ran = subprocess.run(words, input=text, capture_output=True, check=False)
    if ran.returncode:
        give_up(f"{words[0]} ended with {ran.returncode}: {ran.stderr.decode()}")
    return [int(word) for word in ran.stdout.split()]


def rust_program(folder):
    """The crate's example, built; None without cargo."""
    if shutil.which("cargo") is None:
        return None
    names = {**os.environ, "STARLARK_LEX_DIR": str(MADE), "CARGO_TARGET_DIR": str(folder)}
    words = ["cargo", "build", "--offline", "--quiet", "--release", "--example", "keystrokes"]
    subprocess.run(words, cwd=TOP / "bindings/rust", env=names, check=True)
    return folder / "release/examples/keystrokes"


def c_program(folder):
    """The program in C, built."""
    words = ["cc", "-std=c11", "-O2", "-I", MADE, TOP / "bindings/c/keystrokes.c", MADE / "libstarlark_lex.a"]
    subprocess.run([*words, "-o", folder / "keystrokes"], check=True)
    return folder / "keystrokes"


def ways(folder, text, asked):
    """What is measured: names, and calls that return the three times, and of C the time of the whole text, too."""
    count = str(asked.count)
    bench = asked.bench or built("starlark_bench")
    yield "Rattle", lambda: run([bench, "--keystrokes", count], text)[1:4]
    program = c_program(folder)
    yield "C", lambda: run([program, count], text)[1:]
    rust = rust_program(folder / "cargo")
    if rust is not None:
        yield "Rust", lambda: run([rust, count], text)[1:4]
    try:
        import starlark_lexer  # noqa: F401
    except ImportError:
        return
    yield "Python", lambda: by_python(text, asked.count)
    yield "the language server", lambda: by_server(text, asked.count)


def main():
    """Measures all in turns, and prints the table."""
    parser = argparse.ArgumentParser(description=__doc__.splitlines()[0])
    parser.add_argument("--count", type=int, default=2000, metavar="N")
    parser.add_argument("--rounds", type=int, default=5, metavar="N")
    parser.add_argument("--bench", type=Path, metavar="PROGRAM")
    parser.add_argument("text", type=Path, metavar="TEXT")
    asked = parser.parse_args()
    text = asked.text.read_bytes()
    with TemporaryDirectory() as folder:
        calls = dict(ways(Path(folder), text, asked))
        found = {name: [] for name in calls}
        for _ in range(asked.rounds):
            for name, call in calls.items():
                found[name].append(call())
    medians = {name: [statistics.median(column) for column in zip(*rounds)] for name, rounds in found.items()}
    print("| By | Keystroke, median | 99 % | Ratio | The document |\n|---|---|---|---|---|")
    for name, (made, median, most, *_) in medians.items():
        ratio = median / medians["Rattle"][1]
        print(f"| {name} | {median / 1000:.1f} µs | {most / 1000:.0f} µs | {ratio:.2f} | {made / 1e6:.0f} ms |")
    print(f"\nLexing the whole text of {len(text)} bytes by C takes {medians['C'][3] / 1e6:.1f} ms.")
    return 0


if __name__ == "__main__":
    sys.exit(main())
