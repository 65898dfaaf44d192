#!/usr/bin/env python3
"""Compares what `run_edits` prints for random edits of random texts with the plain lexer.

usage: random_edits.py [--texts N] [--chains N] [--edits N] [--seed N]

--texts N   texts (50)
--chains N  lists of edits of each text (11)
--edits N   edits of a list; its first edit alone is tried, too, and then the first two, and so on (10)
--seed N    another seed gives other texts and edits (1)

The program starlark_rows gives the edits to `run_edits`; it is proved and built first where it isn't current. This script
edits the texts by itself, and knows which edit doesn't fit. It prints the first list for which the two differ, and exits with
1; else it says how many were compared.
"""

import argparse
import random
import sys

sys.path.append(f"{sys.path[0]}/..")  # where shared/ lies
from shared.expected_runs import runs_of, stored_runs
from shared.random_texts import INSERTIONS, is_utf8, random_text
from shared.stored import TEXTS, Edit, edited, edited_record, printed_for


def utf8_text(dice):
    """A random text that is UTF-8."""
    return next(text for text in iter(lambda: random_text(dice), None) if is_utf8(text))


def random_edit(dice, text):
    """An edit of a few characters that fits a text, or, more rarely, one at any bytes."""
    if dice.random() < 0.02:
        return Edit(dice.randrange(len(text) + 2), dice.randrange(len(text) + 2), b"x")
    characters = text.decode()
    start = dice.randrange(len(characters) + 1)
    end = min(len(characters), start + dice.choice([0, 0, 1, 1, 2, 5, 20]))
    new = "".join(dice.choice(INSERTIONS) for _ in range(dice.choice([0, 1, 1, 1, 3])))
    return Edit(len(characters[:start].encode()), len(characters[:end].encode()), new.encode())


def cases(options):
    """Texts, each after its edits, as the program reads them."""
    dice = random.Random(options.seed)
    for _ in range(options.texts):
        first = utf8_text(dice)
        for _ in range(options.chains):
            text, edits = first, []
            while text is not None and len(edits) < options.edits:
                edits.append(random_edit(dice, text))
                text = edited(text, edits[-1])
                yield edited_record(edits, first)


def main():
    parser = argparse.ArgumentParser()
    for name, count in [("texts", 50), ("chains", 11), ("edits", 10), ("seed", 1)]:
        parser.add_argument(f"--{name}", type=int, default=count, metavar="N")
    tried = list(cases(parser.parse_args()))
    stored = b"".join(tried)
    printed = printed_for(TEXTS, stored)
    wanted = [run for _, run in runs_of(stored)]
    for case, want, answer in zip(tried, wanted, stored_runs(printed), strict=True):
        if answer != want:
            print(f"{case}\n  prints {answer}\n  and not {want}")
            return 1
    refused = sum(b": edit " in want for want in wanted)
    print(f"random edits: {len(tried)} lists of edits, {refused} of them refused, no difference from the plain lexer")
    return 0


if __name__ == "__main__":
    sys.exit(main())
