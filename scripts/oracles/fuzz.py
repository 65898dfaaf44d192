#!/usr/bin/env python3
"""Compares the program starlark_lex with the plain lexer over many texts.

usage: fuzz.py [--count N] [--seed N] [--length N] [--seconds N]

--count N    random texts (1000)
--seed N     another seed gives other texts (1)
--length N   also all texts of up to N characters of small alphabets, some of them after a beginning (0)
--seconds N  ends after N seconds, though not all texts are compared

Prints the first text for which the two differ, made smaller, and exits with 1; else says how many texts were compared. The
program is proved and built first where it isn't current.
"""

import argparse
import itertools
import random
import subprocess
import sys
import time

sys.path.append(f"{sys.path[0]}/..")  # where shared/ lies
from shared.plain_lexer import expected
from shared.programs import built
from shared.random_texts import random_text

# All short texts: what they begin with, and the characters of the rest.

ALPHABETS = [
    ("", "if x\n"), ("", "as\n é"), ("", "or_0\t"), ("", "01 a!"), ("", "1.e+0"), ("", "0xbof1"), ("", "<=>!*/"),
    ("", "'\"\\a\n"), ("", "rbf'\""), ("'", "\\x4a'"), ("b'", "\\047'"), ("r'", "\\'\"\r\n"), ("'''", "'\\\r\na"),
    ("", "() x\n"), ("", " x\n#\r"), ("", " x\n\t#"), (" x\n  x\n", " x\n#)"),
    ("f'", "{}'a!"), ("f'", "\\x{\ré"), ('fr"', "\\\"'{}"), ('f"{', '}!= \n'), ('f"{', "()[]}!"), ('f"{', "({)}\n"),
    ("f'{", "\"a\n\\\r"), ("f'{", "f'\"{}"),
]


def short_texts(length):
    """All texts of these alphabets with up to `length` characters after the beginning."""
    for beginning, alphabet in ALPHABETS:
        for characters in range(length + 1):
            for rest in itertools.product(alphabet, repeat=characters):
                yield (beginning + "".join(rest)).encode()


def texts(options):
    """All texts that are asked for."""
    dice = random.Random(options.seed)
    yield from (random_text(dice) for _ in range(options.count))
    if options.length:
        yield from short_texts(options.length)


def difference(text):
    """What to print where the program and the lexer differ on a text; else nothing."""
    run = subprocess.run([built("starlark_lex")], input=text, capture_output=True, check=False)
    output, status = expected(text)
    if (run.stdout, run.returncode) == (output, status):
        return ""
    pairs = itertools.zip_longest(output.splitlines(True), run.stdout.splitlines(True), fillvalue=b"")
    wanted, printed = next((pair for pair in pairs if pair[0] != pair[1]), (b"", b""))
    return f"text {text!r}\nwanted {wanted!r}, status {status}\nprinted {printed!r}, status {run.returncode}"


def smaller(text):
    """The text without the slices that can be left out while the two still differ."""
    for length in (256, 64, 16, 4, 1):
        offset = 0
        while offset < len(text):
            rest = text[:offset] + text[offset + length:]
            text, offset = (rest, offset) if difference(rest) else (text, offset + length)
    return text


def main():
    parser = argparse.ArgumentParser()
    parser.add_argument("--count", type=int, default=1000)
    parser.add_argument("--seed", type=int, default=1)
    parser.add_argument("--length", type=int, default=0)
    parser.add_argument("--seconds", type=float, default=float("inf"))
    options = parser.parse_args()
    built("starlark_lex")
    compared, end = 0, time.monotonic() + options.seconds
    for text in texts(options):
        if time.monotonic() > end:
            break
        if difference(text):
            print(difference(smaller(text)))
            return 1
        compared += 1
    print(f"fuzz: {compared} texts printed by starlark_lex, no difference from the plain lexer")
    return 0


if __name__ == "__main__":
    sys.exit(main())
