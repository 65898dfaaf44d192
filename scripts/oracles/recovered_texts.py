#!/usr/bin/env python3
"""Compares texts that are lexed on after their faults with the plain lexer.

usage: recovered_texts.py [--write] [--count N] [--seed N] [--stored] [--reference FOLDER]

Without options it compares the stored output of the part `recovered` of crates/starlark_rows with what the plain lexer finds.

--write             store what the plain lexer finds
--count N           also compare the program starlark_rows on N random texts (0); half of them get more faults
--seed N            another seed gives other texts (1)
--stored            also compare the program on the texts of the part `texts`
--reference FOLDER  also compare the plain lexer with that of a folder: its recovery.py has `recovered(text)`, all lexemes and
                    all faults, each with its begin and end

It prints the first text for which two of them differ, and exits with 1; else it says how many were compared.
"""

import argparse
import random
import re
import sys

sys.path.append(f"{sys.path[0]}/..")  # where shared/ lies
from shared.random_texts import LONGEST, is_utf8, random_texts
from shared.recovering import items_of, lines_of
from shared.stored import TEXTS, printed_for, read_part, records_of, write_part

PART = "recovered"
SALT = [b" assert ", b"$", b" 01 ", b"\t", b"as", "\u00e9".encode(), b"0777", b"!", b"while", b"\t\t ", b"\r", b"`", b"00", b"try:"]


def salted(text, dice):
    """The text with a few faults more, if it is UTF-8 then, and else the text."""
    changed = text
    for _ in range(dice.randrange(4)):
        at = dice.randrange(len(changed) + 1)
        changed = changed[:at] + dice.choice(SALT) + changed[at:]
    return changed if is_utf8(changed) else text


def stored_texts():
    """The texts of the part `texts` that are UTF-8 and not long."""
    for _, text in records_of(read_part("stdin", TEXTS)):
        if is_utf8(text) and len(text) <= LONGEST:
            yield text


def written(runs):
    """What the program has to print."""
    return b"".join(f"text {number}\n".encode() + run for number, run in enumerate(runs, 1))


def cut(printed):
    """What was printed for each text."""
    return re.split(rb"(?m)^text [0-9]+\n", printed)[1:]


def printed_for_texts(texts):
    """What the built program prints for each text."""
    return printed_for(PART, b"".join(f"{len(text)}\n".encode() + text + b"\n" for text in texts))


def compare(what, texts, runs, printed):
    """Says the first text whose lines differ, if there is one."""
    if printed == written(runs):
        print(f"recovered texts: {len(texts)} {what} ones, no difference from the plain lexer")
        return True
    for text, run, found in zip(texts, runs, cut(printed) + [b""] * len(texts)):
        if run != found:
            print(f"text {text!r}\nwanted {run.decode()}\nfound {found.decode()}")
            return False
    print("the number of texts differs")
    return False


def spans(items):
    """The begin and end of each."""
    return [(item.begin, item.end) for item in items]


def agrees_with(folder, texts):
    """Whether another plain lexer finds the same lexemes and faults, by their kinds and spans."""
    sys.path.insert(0, folder)
    import recovery

    for text in texts:
        lexemes, faults = recovery.recovered(text)
        found = list(items_of(text))
        own_lexemes = [item for what, item in found if what == "lexeme"]
        own_faults = [item for what, item in found if what == "fault"]
        kinds = [lexeme.kind for lexeme in lexemes] == [lexeme.kind for lexeme in own_lexemes]
        if not kinds or spans(lexemes) != spans(own_lexemes) or spans(faults) != spans(own_faults):
            print(f"text {text!r}: the two plain lexers differ")
            return False
    print(f"{len(texts)} texts, the two plain lexers agree")
    return True


def main():
    parser = argparse.ArgumentParser()
    parser.add_argument("--write", action="store_true")
    parser.add_argument("--count", type=int, default=0, metavar="N")
    parser.add_argument("--seed", type=int, default=1, metavar="N")
    parser.add_argument("--stored", action="store_true")
    parser.add_argument("--reference", metavar="FOLDER")
    options = parser.parse_args()
    rows = [text for _, text in records_of(read_part("stdin", PART))]
    if options.write:
        write_part("stdout", PART, written([lines_of(text) for text in rows]))
    groups = [("stored", rows, read_part("stdout", PART))]
    if options.count:
        dice = random.Random(options.seed)
        texts = [salted(text, dice) if number % 2 else text for number, text in enumerate(random_texts(options.count, options.seed))]
        groups.append(("random", texts, printed_for_texts(texts)))
    if options.stored:
        texts = list(stored_texts())
        groups.append(("other stored", texts, printed_for_texts(texts)))
    for what, texts, printed in groups:
        if not compare(what, texts, [lines_of(text) for text in texts], printed):
            return 1
        if options.reference and not agrees_with(options.reference, texts):
            return 1
    return 0


if __name__ == "__main__":
    sys.exit(main())
