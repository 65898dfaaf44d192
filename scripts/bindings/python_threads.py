#!/usr/bin/env python3
"""Compares the package for Python with the plain lexer of scripts/shared, over random texts, in threads at once.

    PYTHONPATH=out/bindings/python scripts/bindings/python_threads.py [--count N] [--seed N] [--threads N]

Each of N threads (8) lexes its part of N random texts (20,000) by each call: all tokens and faults in
order, the tokens by an iterator, the columns. Each text is lexed by two threads. The exit status is 1
where something differs from what the plain lexer finds; the first such text is printed.
"""

import argparse
import sys
from threading import Thread

sys.path.append(f"{sys.path[0]}/..")  # where shared/ lies
from shared.programs import TOP
from shared.random_texts import random_texts
from shared.recovering import lines_of

sys.path.insert(0, str(TOP / "bindings/python/tests"))

from starlark_lexer import Token, lex_all, lex_columns, tokenize
from starlark_lexer.library import lex_items
from test_lexer import fault_line, token_line


def own_lines(text):
    """The lines of all that the package finds in a text."""
    items = lex_items(text)
    return "".join(token_line(item) if isinstance(item, Token) else fault_line(item) for item in items).encode()


def agree(text):
    """Whether all calls find the same in a text."""
    tokens, faults = lex_all(text)
    columns = lex_columns(text, recover=True)
    spans = [token.span for token in tokens]
    values = [columns.value(i) for i in range(len(columns))]
    source = text.decode()
    by_characters = list(tokenize(source, recover=True))
    return (
        [token._replace(span=span) for token, span in zip(by_characters, spans)] == tokens
        and all(source[slice(*token.span)] == token.string for token in by_characters)
        and list(zip(columns.begin, columns.end)) == spans
        and values == [token.value for token in tokens]
        and columns.faults == tuple(faults)
    )


def compare(texts, wrong):
    """Adds each text to a list of which the package finds something else than the plain lexer."""
    for text in texts:
        if own_lines(text) != lines_of(text) or not agree(text):
            wrong.append(text)


def main():
    parser = argparse.ArgumentParser()
    parser.add_argument("--count", type=int, default=20_000)
    parser.add_argument("--seed", type=int, default=1)
    parser.add_argument("--threads", type=int, default=8)
    asked = parser.parse_args()
    sys.setswitchinterval(1e-5)
    texts = list(random_texts(asked.count, asked.seed))
    wrong = []
    parts = [texts[number :: asked.threads] for number in range(asked.threads)]
    pairs = zip(parts, parts[1:] + parts[:1])
    threads = [Thread(target=compare, args=(one + other, wrong)) for one, other in pairs]
    for thread in threads:
        thread.start()
    for thread in threads:
        thread.join()
    if wrong:
        print(f"text {wrong[0]!r}\nwanted {lines_of(wrong[0]).decode()}\nfound {own_lines(wrong[0]).decode()}")
        return 1
    print(f"{len(texts)} random texts in {asked.threads} threads, no difference")
    return 0


if __name__ == "__main__":
    sys.exit(main())
