#!/usr/bin/env python3
"""Looks for memory that the package for Python doesn't give back, or handles wrongly where there is none.

    PYTHONPATH=out/bindings/python scripts/bindings/python_leaks.py [--calls N]

It makes N calls (1,000,000) of all kinds over small texts, with and without faults, with wrong
arguments, with iterators and columns that are dropped half used. After them no more memory is in use
than before, and in a debug build of Python there are no more references. Then it refuses each
allocation of a call in turn, by the interpreter, by the extension module and by the library. Each
such call has to end as with enough memory, or in MemoryError, and leave no more memory in use than
before. It needs a C compiler and the GNU C library: python_allocator.c is loaded into the
interpreter. The exit status is 0, 1 where something was not as it has to be, and 2 where nothing
could be tried.
"""

import argparse
import ctypes
import gc
import os
import subprocess
import sys
import tempfile
from itertools import cycle, islice
from pathlib import Path

ALLOCATOR = Path(__file__).with_name("python_allocator.c")
LOADED = "PYTHON_LEAKS_LOADED"

TEXTS = [
    "",
    "x = 1\n",
    b"def f(a, *b):\n    return f'{a!r} \xc3\xa9' + b'\\xff' # c\n\nf(12345678901, 0x1F, 1.5)\n",
    "x = 'é\ny = 01\nif z:\n\tw\n'汉🔬' !\n\"\"\"a\nb\"\"\" $\n" + "name ! '" * 40,
    b"x = '\xff'",
    "x = '\ud800'",
    7,
    None,
    bytearray(b"x"),
    "long_name = ['a', 'b', 1]  # c\n" * 40,
]
ERRORS = (TypeError, ValueError)

# How many bytes may be in use after a million calls that were not before: caches of the interpreter.
SLACK = 100_000


def some_tokens(source):
    """The first tokens of a text."""
    from starlark_lexer import tokenize

    return list(islice(tokenize(source), 3))


def all_tokens(source):
    """All tokens of a text, and after them its fault."""
    from starlark_lexer import StarlarkFault, tokenize

    found = []
    try:
        for token in tokenize(source):
            found.append(token)
    except StarlarkFault as error:
        found.append(error.fault)
    return found


def columns(source):
    """What the columns of a text say."""
    from starlark_lexer import lex_columns

    made = lex_columns(source, recover=True)
    values = [made.value(i) for i in range(len(made))]
    return values, [made.string(i) for i in range(len(made))], made.begin.tolist(), made.end.tolist(), made.faults


def document(source):
    """What a document of a text says."""
    from starlark_lexer import Document
    from starlark_lexer.library import semantic_tokens

    with Document(source) as made:
        found = len(made), made.tokens(), made.faults(), made.text(), made.place(len(made))
        return found, made.edit(0, 0, "é🔬"), len(made), semantic_tokens(made, bytes(99), 16, 0, 0, 1, 1, 6)


def calls():
    """All calls, each of one text."""
    from starlark_lexer import faults, lex, lex_all
    from starlark_lexer.library import lex_items

    return [some_tokens, all_tokens, columns, document, lex, lex_all, faults, lex_items]


def outcome(call, source):
    """What a call returns, or the type of its error."""
    try:
        return call(source)
    except ERRORS as error:
        return type(error)


class Memory(ctypes.Structure):
    """The library's `struct mallinfo2`."""

    _fields_ = [(name, ctypes.c_size_t) for name in "arena ordblks smblks hblks hblkhd usmblks fsmblks uordblks".split()] + [
        (name, ctypes.c_size_t) for name in ("fordblks", "keepcost")
    ]


def in_use():
    """The bytes that are allocated, and the references in a debug build."""
    gc.collect()
    ask = ctypes.CDLL(None).mallinfo2
    ask.restype = Memory
    memory = ask()
    return memory.uordblks + memory.hblkhd, getattr(sys, "gettotalrefcount", int)()


def repeat(count):
    """Makes a number of calls, and says how much more is in use after them. Returns whether that is too much."""
    every = [(call, source) for call in calls() for source in TEXTS]
    for call, source in every * 20:
        outcome(call, source)
    before = in_use()
    for call, source in islice(cycle(every), count):
        outcome(call, source)
    after = in_use()
    more, references = after[0] - before[0], after[1] - before[1]
    print(f"{count} calls: {more} bytes more in use" + (f", {references} references" if before[1] else ""))
    return more > SLACK or references > 100


def refuse_none(refuse):
    """Lets all allocations be. The one that is refused may be of this call itself."""
    while True:
        try:
            return refuse(0)
        except (MemoryError, ctypes.ArgumentError):
            pass


def is_lost(error, call):
    """Whether CPython lost an exception: it does where it has no memory for the frame of a function."""
    return hasattr(call, "__code__") and "without exception set" in str(error)


def refuse_one(refuse, call, source, number):
    """The outcome of a call whose allocation of a number is refused, or None where memory ran out."""
    found = None
    try:
        refuse(number)
        found = outcome(call, source)
    except MemoryError:
        pass
    except SystemError as error:
        found = None if is_lost(error, call) else error
    refuse_none(refuse)
    return found


def refuse_each(refuse, call, source):
    """Refuses each allocation of a call in turn. Returns how many were, and what was wrong."""
    refuse_none(refuse)
    wanted = outcome(call, source)
    refused = 0
    for number in range(1, refuse_none(refuse) + 1):
        found = refuse_one(refuse, call, source, number)
        refused += found is None
        if found is not None and found != wanted:
            return refused, f"{call.__name__}({source!r:.40}), allocation {number}: {found!r:.200}"
        del found
    if outcome(call, source) != wanted:
        return refused, f"{call.__name__}({source!r:.40}) returns something else after refusals"
    return refused, None


def refuse_all():
    """Refuses the allocations of all calls, twice. Returns whether something was wrong."""
    refuse = ctypes.CDLL(None).refuse_allocation
    refuse.argtypes, refuse.restype = [ctypes.c_long], ctypes.c_long
    used, total = [], 0
    for _ in range(2):
        for call in calls():
            for source in TEXTS:
                refused, wrong = refuse_each(refuse, call, source)
                total += refused
                if wrong:
                    print(wrong)
                    return True
        used.append(in_use()[0])
    print(f"{total} refused allocations: {used[1] - used[0]} bytes more in use")
    return total == 0 or used[1] - used[0] > SLACK


def run_loaded():
    """Runs this script again with the allocator loaded, and returns its exit status."""
    with tempfile.TemporaryDirectory() as folder:
        library = Path(folder) / "allocator.so"
        compiler = os.environ.get("CC", "cc")
        try:
            subprocess.run([compiler, "-O2", "-shared", "-fPIC", ALLOCATOR, "-o", library], check=True)
        except (OSError, subprocess.CalledProcessError) as error:
            print(f"python_leaks.py: {error}", file=sys.stderr)
            return 2
        # What a thread keeps of freed memory would count as in use.
        tunables = {"GLIBC_TUNABLES": "glibc.malloc.tcache_count=0", "PYTHONMALLOC": "malloc"}
        environment = {**os.environ, **tunables, "LD_PRELOAD": str(library), LOADED: "1"}
        return subprocess.run([sys.executable, *sys.argv], env=environment, check=False).returncode


def main():
    parser = argparse.ArgumentParser()
    parser.add_argument("--calls", type=int, default=1_000_000)
    asked = parser.parse_args()
    if LOADED not in os.environ:
        return run_loaded()
    has_leaks = repeat(asked.calls)
    if hasattr(sys, "gettotalrefcount"):
        print("no allocation was refused: a debug build stops where it loses an exception for that")
        return int(has_leaks)
    return int(has_leaks or refuse_all())


if __name__ == "__main__":
    sys.exit(main())
