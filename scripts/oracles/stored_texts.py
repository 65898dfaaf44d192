#!/usr/bin/env python3
"""Checks the stored texts of crates/starlark_rows against the plain lexer.

usage: stored_texts.py [--write]

The part `texts` of the crate's `stdin` has texts, some of them after edits, and that of its `stdout` what the program has to
print for them. This script makes that output again without the program, and says how many texts agree, or prints the first
that doesn't and exits with 1.

--write  store the output that it made; for a change of the language, after docs/GRAMMAR.md and the plain lexer say the new rule
"""

import argparse
import sys

sys.path.append(f"{sys.path[0]}/..")  # where shared/ lies
from shared.expected_runs import runs_of, stored_runs
from shared.stored import TEXTS, read_part, write_part


def main():
    parser = argparse.ArgumentParser()
    parser.add_argument("--write", action="store_true")
    options = parser.parse_args()
    pairs = list(runs_of(read_part("stdin", TEXTS)))
    runs = [run for _, run in pairs]
    if options.write:
        write_part("stdout", TEXTS, b"".join(runs))
        print(f"{len(runs)} texts stored")
        return 0
    stored = read_part("stdout", TEXTS)
    if b"".join(runs) == stored:
        print(f"{len(runs)} texts agree")
        return 0
    found = [*stored_runs(stored), *[b""] * len(runs)]
    differing = ((text, run, other) for (text, run), other in zip(pairs, found) if run != other)
    text, wanted, found = next(differing, (b"", b"", b"the number of texts differs"))
    print(f"text {text!r}\nwanted {wanted!r}\nstored {found!r}")
    return 1


if __name__ == "__main__":
    sys.exit(main())
