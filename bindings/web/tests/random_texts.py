#!/usr/bin/env python3
"""Writes random texts, each with the lines that the program `starlark_lex` has to print of it.

    random_texts.py COUNT SEED [FILE]

The plain lexer of scripts/shared finds the lines. Each text is a line of JSON: its bytes in hexadecimal
digits, and its lines. They go to standard output, or to a file. compare_lines.mjs reads them.
"""

import json
import random
import sys
from contextlib import nullcontext
from pathlib import Path

sys.path.insert(0, str(Path(__file__).resolve().parents[3] / "scripts"))

from shared.plain_lexer import expected
from shared.random_texts import random_text


def main():
    """Writes the texts."""
    count, seed = map(int, sys.argv[1:3])
    dice = random.Random(seed)
    with open(sys.argv[3], "w", encoding="utf-8") if sys.argv[3:] else nullcontext(sys.stdout) as output:
        for _ in range(count):
            text = random_text(dice)
            printed, status = expected(text)
            lines = printed.decode() if status != 2 else "input is not UTF-8\n"
            print(json.dumps([text.hex(), lines]), file=output)


if __name__ == "__main__":
    main()
