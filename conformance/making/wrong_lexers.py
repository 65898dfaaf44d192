#!/usr/bin/env python3
"""Tries the suite with twelve wrong lexers: the plain lexer with one mistake each, put into its source in memory.

Each has to fail the case whose name says why; the plain lexer itself has to pass all. The exit status is 1 where one
doesn't.
"""

import concurrent.futures
import sys
import types
from pathlib import Path
from typing import NamedTuple

from answers import answered, plain_lexer

SUITE = Path(__file__).resolve().parent.parent
sys.path.append(str(SUITE))

from runner import difference, read_cases  # noqa: E402


class Mistake(NamedTuple):
    """What a wrong lexer does, the change that makes it so, and the name of a case that it fails."""

    words: str
    old: str
    new: str
    case: str


MISTAKES = [
    Mistake("takes the last row of the words of one length", "if found and len(found.group()) > len(longest):",
            "if found and len(found.group()) >= len(longest):", "`if` is a keyword"),
    Mistake("takes the shortest symbol", "key=len, reverse=True", "key=len", "`<<=` alone"),
    Mistake("takes an exponent without digits", 'EXPONENT = rb"([eE][+-]?[0-9]+)"', 'EXPONENT = rb"([eE][+-]?[0-9]*)"',
            "an exponent letter without digits is a name"),
    Mistake("takes a leading zero before one digit", "len(word) > 1", "len(word) > 2", "a zero before a digit"),
    Mistake("takes two octal digits at most", "match(text, begin + 1, begin + 4)", "match(text, begin + 1, begin + 3)",
            "three octal digits, in a string"),
    Mistake("refuses the character after the surrogates", "0xD800 <= value < 0xE000", "0xD800 <= value <= 0xE000",
            "the character after the surrogates, in a string"),
    Mistake("keeps each raw backslash", "return (character if character in bare else", "return (character if False else",
            "a raw backslash before its own quote is dropped"),
    Mistake("ends a triple literal at one quote", "if text.startswith(opening.quotes, offset):",
            "if text.startswith(opening.quotes[:1], offset):", "a single quote in three single quotes"),
    Mistake("gives one dedent for a line", "while widths and widths[-1] > width:", "if widths and widths[-1] > width:",
            "two blocks end at once"),
    Mistake("gives newlines in brackets", "if situation.fstrings or situation.brackets:", "if situation.fstrings:",
            "a line end in round brackets is no token"),
    Mistake("takes a bang after a space", "not follows_gap and BANG", "BANG", "a bang after a space is a fault"),
    Mistake("counts closing brackets of an f-string below zero", "max(0, self.depths[shape] - 1)", "self.depths[shape] - 1",
            "a closing round, then an opening one"),
]


def changed_lexer(old, new):
    """The plain lexer with a change of its source."""
    source = Path(plain_lexer.__file__).read_text(encoding="utf-8")
    if source.count(old) != 1:
        raise ValueError(f"{source.count(old)} places of the plain lexer have {old!r}")
    module = types.ModuleType("changed_lexer")
    exec(compile(source.replace(old, new), "changed_lexer", "exec"), module.__dict__)
    return module


def failures(lexed):
    """The names of the cases that a lexer fails, but for those of lexing on after faults."""
    def said(case):
        try:
            return difference(case, answered(case, lexed), [])
        except (ValueError, IndexError, KeyError) as error:
            return repr(error)

    return {case["name"] for case in read_cases([SUITE / "cases"]) if "recovering" not in case and said(case)}


def failures_of(mistake):
    """The names of the cases that a wrong lexer fails."""
    return failures(changed_lexer(mistake.old, mistake.new).outcome)


def main():
    failed = failures(plain_lexer.outcome)
    for name in failed:
        print(f"the plain lexer fails: {name}")
    with concurrent.futures.ProcessPoolExecutor() as pool:
        found = pool.map(failures_of, MISTAKES)
    for mistake, names in zip(MISTAKES, found):
        print(f"{mistake.words}: {len(names)} cases fail, one of them \"{mistake.case}\"")
        if mistake.case not in names:
            print("    but that one doesn't")
            failed.add(mistake.case)
    return 1 if failed else 0


if __name__ == "__main__":
    sys.exit(main())
