#!/usr/bin/env python3
"""Runs the suite with this lexer and the others that are here, and compares how these differ with what is stored.

    reports.py [--write] [--unproved]

It fails where this lexer differs, where another differs without a reason of REASONS, and where what is stored isn't
what is found: the lists of the folder expected, of which cases.py makes the field `differs`, and the table between the
markers of docs/use/compatible.md. With --write it stores them. With --unproved this lexer's programs may be built without
proof. A lexer that isn't here is left out, and then the table too.
"""

import argparse
import re
import subprocess
import sys
import tempfile
from pathlib import Path

from answers import text_of
from shared.programs import built

HERE = Path(__file__).resolve().parent
SUITE = HERE.parent
ADAPTERS = SUITE / "adapters"
PAGE = SUITE.parent / "docs/use/compatible.md"
MARKERS = "<!-- the table of conformance/making/reports.py -->\n", "<!-- its end -->\n"
sys.path.append(str(SUITE))

from runner import read_cases, run_all  # noqa: E402

QUOTE_AFTER_RAW = re.compile(rb"r('|\")(?s:.*)\\['\"]")
NAME = 'has to be ["name"'
# Why a lexer differs: words, and a test on a case, its text, and what the runner said.
GO = [
    ("a tab is blank space", lambda case, text, said: "tabs" in case["tags"]),
    ("a closing bracket needs an opening one", lambda case, text, said: "a fault" in said and is_overclosed(case)),
    ("`->` and `...` are no words", lambda case, text, said: has_kind(case, "->", "...")),
    ("octal and binary integers have at most 63 bits", lambda case, text, said: re.search(rb"0[oObB]\d{20}", text)),
    ("digits have to follow a base and an exponent letter", lambda case, text, said: "a fault" in said and re.search(
        rb"0[xX](?![0-9a-fA-F])|0[oO](?![0-7])|0[bB](?![01])|[0-9.][eE][+-]?(?![0-9+-])|[eE][+-]{2}", text)),
    ("zeros alone are an integer", lambda case, text, said: "leading_zero" in said and re.match(rb"0+\b|00x", text)),
    ("a CR without LF is a line end", lambda case, text, said: "cr" in case["tags"]),
    ("a raw backslash before a quote stays", lambda case, text, said: QUOTE_AFTER_RAW.search(text)),
    ("`\\x80` and `\\200` are bytes that aren't UTF-8", lambda case, text, said: "not UTF-8" in said),
    ("`\\u` and `\\U` are no escapes", lambda case, text, said: re.search(rb"\\[uU]", text)),
    ("octal escapes end at `\\377`", lambda case, text, said: re.search(rb"\\[4-7]\d\d", text)),
    ("a backslash has to begin an escape", lambda case, text, said: "others" in case["tags"]),
    ("`assert`, `async`, `await` are names, `while` a keyword", lambda case, text, said: "reserved" in case["tags"]),
    ("letters beyond ASCII are letters of names", lambda case, text, said: re.search(rb"[\x80-\xff]", text)),
    ("a zero byte ends the text", lambda case, text, said: b"\0" in text),
    ("an open bracket needs no newline at the end", lambda case, text, said: is_open(case)),
]
PYTHON = [
    ("a tab is blank space", lambda case, text, said: "tabs" in case["tags"]),
    ("brackets have to be closed as often as opened", lambda case, text, said: is_overclosed(case) or is_open(case)),
    ("`load` is a name", lambda case, text, said: has_kind(case, "load")),
    ("`@`, `:=`, `**` with `=` are operators", lambda case, text, said: re.search(rb"@|:=|\*\*=", text)),
    ("digits may have underscores, a base and complex numbers", lambda case, text, said: re.search(rb"\d_\d|x_|\dj", text)),
    ("digits after a zero are a second integer", lambda case, text, said: "leading_zero" in said),
    ("a CR without LF is a line end", lambda case, text, said: "cr" in case["tags"]),
    ("a raw backslash before a quote stays",
     lambda case, text, said: QUOTE_AFTER_RAW.search(text) and "one too many" not in said),
    ("CR LF is LF before a raw literal is read", lambda case, text, said: re.search(rb"r('|\")(?s:.*)\\\r\n", text)),
    ("bytes are ASCII", lambda case, text, said: re.search(rb"\b(b|br|rb)['\"].*[\x80-\xff]", text)),
    ("`\\u` and `\\U` are no escapes of bytes", lambda case, text, said: re.search(rb"b['\"]\\[uU]", text)),
    ("an octal escape of bytes loses its ninth bit", lambda case, text, said: re.search(rb"b['\"]\\[4-7]\d\d", text)),
    ("surrogates are characters", lambda case, text, said: re.search(rb"\\(u|U0000)d[89a-f]", text)),
    ("`\\N` is an escape", lambda case, text, said: b"\\N" in text),
    ("a zero byte in a literal is refused", lambda case, text, said: b"\0" in text),
    ("prefixes may be capital letters, or `u`",
     lambda case, text, said: re.match(rb"(?i)(u|r|b|br|rb)['\"]", text) and NAME in said),
    ("the prefix of an open literal is a name", lambda case, text, said: "one too many" in said),
    ("letters and digits beyond ASCII belong to names", lambda case, text, said: re.search(rb"[\x80-\xff]", text)),
    ("a form feed is blank space", lambda case, text, said: b"\f" in text),
    ("a line has to follow a backslash and a line end",
     lambda case, text, said: text.endswith((b"\\\n", b"\\\r\n"))),
]
REASONS = {"starlark-go": GO, "CPython 3.11": PYTHON}


def has_kind(case, *kinds):
    """Whether a case has a token of one of these kinds."""
    return any(token[0] in kinds for token in case["tokens"])


def depths(case):
    """The bracket depth after each token."""
    depth, found = 0, [0]
    for token in case["tokens"]:
        depth += (token[0] in "([{") - (token[0] in ")]}")
        found.append(depth)
    return found


def is_overclosed(case):
    """Whether a bracket is closed that isn't open."""
    return min(depths(case)) < 0


def is_open(case):
    """Whether a bracket is open at the end."""
    return depths(case)[-1] != 0


def reasons_of(lexer, results):
    """How a lexer differs, by the name of the case; and what has no reason."""
    found, missing = {}, []
    for result in results:
        if result.state != "differs":
            continue
        text = text_of(result.case)
        reason = next((words for words, test in REASONS.get(lexer, []) if test(result.case, text, result.said)), None)
        if reason is None:
            missing.append(f"{result.case['name']}: {text!r}: {result.said}")
        else:
            found[result.case["name"]] = reason
    return found, missing


def expected_list(differences, lexer):
    """The list of the expected differences of a lexer, by their reasons."""
    by_reason = {words: [] for words, _ in REASONS[lexer]}
    for name, reason in differences.items():
        by_reason[reason].append(name)
    lines = [f"# What {lexer} is known to read otherwise.\n"]
    for reason, names in by_reason.items():
        if names:
            lines += [f"\n# {reason}\n"] + [name + "\n" for name in names]
    return "".join(lines)


TAGS = ("words", "numbers", "strings", "bytes", "fstrings", "layout", "neighbours", "edits", "recovering")


def cell(results, tag=None):
    """How many cases of a tag, or of all, a lexer answered as wanted, of how many that it is asked."""
    asked = [result for result in results if tag in (None, result.case["tags"][0]) and result.state != "skipped"]
    same = sum(1 for result in asked if result.state == "same")
    return "" if not asked else str(same) if same == len(asked) else f"{same}/{len(asked)}"


def table(found):
    """The table of the page: for each lexer, of the cases that it is asked those that it answers alike."""
    rows = [["", *TAGS, "all"], ["---"] + ["---:"] * (1 + len(TAGS))]
    rows += [[lexer, *(cell(results, tag) for tag in TAGS), cell(results)] for lexer, (_, results) in found.items()]
    return "".join("| " + " | ".join(row) + " |\n" for row in rows)


def page_with(page, new):
    """A page with another text between the markers."""
    begin, end = MARKERS
    front, rest = page.split(begin)
    return front + begin + "\n" + new + "\n" + end + rest.split(end)[1]


def stored(path, content, is_written):
    """Whether a file has a content, or gets it."""
    if is_written:
        path.parent.mkdir(exist_ok=True)
        path.write_text(content, encoding="utf-8")
    if not path.exists() or path.read_text(encoding="utf-8") != content:
        print(f"{path.name} isn't what is found: reports.py --write", file=sys.stderr)
        return False
    return True


def go_command(folder):
    """The command of the adapter for starlark-go, which is built in a folder; none where what it needs is missing."""
    output = Path(folder) / "starlark_go"
    ran = subprocess.run([ADAPTERS / "starlark_go/build.sh", output], check=False)
    return [output] if ran.returncode == 0 else None


def commands(folder):
    """The command of each lexer, none for one that isn't here."""
    programs = [built(name) for name in ("starlark_tokens", "starlark_rows")]
    is_python = sys.version_info[:2] == (3, 11)
    return {
        "this lexer": [sys.executable, ADAPTERS / "starlark_tokens.py", *programs],
        "starlark-go": go_command(folder),
        "CPython 3.11": [sys.executable, ADAPTERS / "cpython.py"] if is_python else None,
    }


def has_reasons(lexer, reasons, missing):
    """Whether each difference of a lexer has a reason, and each reason a difference."""
    for line in missing:
        print(f"{lexer} differs without a reason: {line}")
    idle = [words for words, _ in REASONS.get(lexer, []) if words not in reasons.values()]
    for words in idle:
        print(f"{lexer} no more differs so: {words}")
    return not missing and not idle


def main():
    parser = argparse.ArgumentParser()
    parser.add_argument("--write", action="store_true")
    options = parser.parse_args()
    cases, found, is_right = read_cases([SUITE / "cases"]), {}, True
    with tempfile.TemporaryDirectory() as folder:
        for lexer, command in commands(folder).items():
            if command is None:
                print(f"{lexer} was left out: it is not here", file=sys.stderr)
                continue
            found[lexer] = run_all(list(map(str, command)), cases)
            reasons, missing = reasons_of(lexer, found[lexer][1])
            is_right &= has_reasons(lexer, reasons, missing)
            print(f"{lexer}: {cell(found[lexer][1])} cases alike")
            if lexer in REASONS:
                path = SUITE / "expected" / (lexer.lower().replace(" ", "-") + ".txt")
                is_right &= stored(path, expected_list(reasons, lexer), options.write)
    if len(found) == 1 + len(REASONS):
        page = PAGE.read_text(encoding="utf-8")
        is_right &= stored(PAGE, page_with(page, table(found)), options.write)
    return 0 if is_right else 1


if __name__ == "__main__":
    sys.exit(main())
