#!/usr/bin/env python3
"""Makes the cases of the suite.

    cases.py          compares the folder cases with what is written here, and fails where they differ
    cases.py --write  writes the files of the folder

Names and texts are in the folder written, and answers are the plain lexer's. How other lexers differ is in the lists of
the folder expected, which reports.py makes, and in KNOWN.
"""

import json
import re
import sys
from collections import Counter
from pathlib import Path

from answers import answered, case_line, text_fields, text_of
from written import edits, fstrings, layout, neighbours, numbers, recovering, strings, words

HERE = Path(__file__).resolve().parent
CASES = HERE.parent / "cases"
PAGE = HERE.parent / "README.md"
EXPECTED = HERE.parent / "expected"
KNOWN = [  # of lexers that aren't run here: the lexer, how it differs, and a pattern on texts
    ("starlark_syntax 0.14.2", "`rf` is a name", rb"(?<![A-Za-z0-9_])rf['\"]"),
    ("Bazel", "a raw backslash before a quote stays", rb"(?<![A-Za-z0-9_])r('|\")(?:[^\\]|\\[^'\"])*\\['\"]"),
]
NOT_UTF8 = {
    "a byte that begins no character": b"x = '\xff'",
    "a character that is cut off": b"# \xe2\x82",
    "a continuation byte alone": b"\x80",
    "a surrogate's bytes": b"'\xed\xa0\x80'",
    "a character in more bytes than it needs": b"# \xc0\xaf",
    "a Latin letter in one byte": b"# caf\xe9\n",
}


TAGS = {  # that a case gets by its text
    "bytes": rb"(?<![A-Za-z0-9_])(b|br|rb)['\"]",
    "fstrings": rb"(?<![A-Za-z0-9_])(f|fr|rf)['\"]",
    "crlf": rb"\r\n",
    "cr": rb"\r(?!\n)",
}


def said_on_page(words):
    """Whether the page says these words; where it doesn't, that is told."""
    if words in PAGE.read_text(encoding="utf-8"):
        return True
    print(f"README.md doesn't say: {words}", file=sys.stderr)
    return False


def all_tags(tags, text, answer):
    """The tags of a case: those that are given, and those that its text and its answer give."""
    found = tags.split() + [tag for tag, pattern in TAGS.items() if re.search(pattern, text)]
    kinds = [item[0] for item in (answer["tokens"] or []) + answer["faults"]]
    found += ["bytes"] * ("bytes" in kinds) + ["fstrings"] * ("fstring_start" in kinds)
    found += ["faults"] * bool(answer["faults"]) + ["reserved"] * ("reserved_word" in kinds) + ["tabs"] * ("invalid_tab" in kinds)
    return list(dict.fromkeys(found))


class Cases:
    """The cases so far, each with another name and none with the same text as one before it."""

    def __init__(self):
        self.cases, self.names, self.texts = [], set(), set()

    def add(self, tags, name, text, **more):
        """Adds a case; one whose text was there already is left out."""
        if name in self.names:
            raise ValueError(f"two cases have the name {name!r}")
        text = text if isinstance(text, bytes) else text.encode()
        key = text, json.dumps(more)
        if key in self.texts:
            return
        self.names.add(name)
        self.texts.add(key)
        case = {"name": name, **text_fields(text), **more}
        answer = answered(case)
        self.cases.append({**case, "tags": all_tags(tags, text, answer), **answer})


def made():
    """All cases."""
    found = Cases()
    for module in (words, numbers, strings, fstrings, layout, neighbours, recovering, edits):
        module.cases(found.add)
    for name, text in NOT_UTF8.items():
        found.add("not_utf8", name, text)
    return found.cases


def differences(path):
    """The name of a lexer, and how it differs by the name of the case: a list has its reasons as comments above the names."""
    head, *lines = path.read_text(encoding="utf-8").split("\n")
    lexer, reason, found = re.match(r"# What (.*) is known to read otherwise", head)[1], "", {}
    for line in lines:
        if line.startswith("# "):
            reason = line[2:]
        elif line:
            found[line] = reason
    return lexer, found


def with_differences(cases):
    """Cases with how other lexers differ."""
    lists = [differences(path) for path in sorted(EXPECTED.glob("*.txt"))]
    for case in cases:
        known = {lexer: found[case["name"]] for lexer, found in lists if case["name"] in found}
        if not case["faults"]:
            known.update({lexer: how for lexer, how, pattern in KNOWN if re.search(pattern, text_of(case))})
        if known:
            case["differs"] = known
    return cases


def files(cases):
    """The content of each file: the cases with the same first tag."""
    found = {}
    for case in cases:
        found[case["tags"][0] + ".jsonl"] = found.get(case["tags"][0] + ".jsonl", "") + case_line(case)
    return found


def main():
    cases = with_differences(made())
    wanted = files(cases)
    if sys.argv[1:] == ["--write"]:
        CASES.mkdir(exist_ok=True)
        for path in CASES.iterdir():
            path.unlink()
        for name, content in wanted.items():
            (CASES / name).write_text(content, encoding="utf-8")
    stored = {path.name: path.read_text(encoding="utf-8") for path in CASES.iterdir()}
    if stored != wanted:
        print("the folder cases isn't what conformance/making says: cases.py --write", file=sys.stderr)
        return 1
    tags = Counter(case["tags"][0] for case in cases)
    print(f"{len(cases)} cases: " + ", ".join(f"{tag} {count}" for tag, count in tags.items()))
    return 0 if said_on_page(f"{len(cases):,} small texts") else 1


if __name__ == "__main__":
    sys.exit(main())
