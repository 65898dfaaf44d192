#!/usr/bin/env python3
"""Compares what starlark_tokens prints with plain reports, made here over the lexer of recovered_texts.py.

    scripts/oracles/token_reports.py [--count N] [--seed N] [--program PROGRAM] [--write]

It runs the stored runs of each form (crates/starlark_tokens/data has the files and what is wanted of them), margins with
faults, N random texts in each form (300), rows of options and statuses, folders with links, loops, and names of any bytes, a
folder of 10,000 files, a thousand files in one call, a file of 10 MB, whose report may take at most three times as long as
starlark_lex's lines, and what a shell does with a program: a closed pipe, a missing file, bytes that are not UTF-8, names with
a line feed and with quotes, progress and colours at a terminal. An unproved build isn't timed. Documents of JSON are compared with docs/use/lexemes.schema.json,
and those of SARIF with what its schema says. `--write` stores the plain reports. Programs that aren't built, or are older than
a source, are proved and built first. The exit status is 1 where something is not as it has to be.
"""

import argparse
import ast
import io
import json
import keyword
import os
import pty
import re
import resource
import subprocess
import sys
import tempfile
import threading
import time
import tokenize
import unicodedata
import urllib.parse
import warnings
from pathlib import Path
from typing import NamedTuple

sys.path.append(f"{sys.path[0]}/..")  # where shared/ lies
from shared import plain_checks
from shared.plain_lexer import line_and_column
from shared.programs import TOP, built
from shared.random_texts import random_texts
from shared.recovering import items_of

DATA = TOP / "crates/starlark_tokens/data"
SCHEMA = TOP / "docs/use/lexemes.schema.json"
# A report of 10 MB takes at most twice as long as starlark_lex's lines, each by the least of three runs. On a busy machine
# that was missed once, by a hundredth. So what fails is a report that takes three times as long.
MOST_RATIO = 3.0

# -- Plain reports

HIDDEN = [
    (0, 0x1F), (0x7F, 0xA0), (0xAD, 0xAD), (0x1680, 0x1680), (0x2000, 0x200F), (0x2028, 0x202F), (0x205F, 0x206F),
    (0x3000, 0x3000), (0xE000, 0xF8FF), (0xFEFF, 0xFEFF), (0xFFF0, 0xFFFB), (0xE0000, 0xE007F), (0xF0000, 0x10FFFF),
]


def is_hidden(character):
    """Whether a character isn't shown as it is."""
    return any(first <= ord(character) <= last for first, last in HIDDEN)


def shown(character, quote=""):
    """A character as a text shows it that has this quote around it."""
    if quote and character in ("\\", quote):
        return "\\" + character
    return repr(character)[1:-1] if is_hidden(character) else character


def quoted(text):
    """A text in quotes, as Python writes it."""
    quote = '"' if "'" in text and '"' not in text else "'"
    return quote + "".join(shown(character, quote) for character in text) + quote


def name_text(name):
    """A name, in quotes only where it has characters that aren't plain."""
    return quoted(name) if any(is_hidden(c) or c in "'\"\\" for c in name) else name


def integer(printed):
    """The integer that a printed value of starlark_lex means, and how it is written where 53 bits don't hold it."""
    digits, _, base = printed.rstrip(")").partition(" (base ")
    prefix = {"16": "0x", "8": "0o", "2": "0b"}.get(base, "")
    return int(digits, int(base or 10)), prefix + digits


def value_of(lexeme):
    """The value of a lexeme: a text, bytes, an integer, or None."""
    if lexeme.kind in ("String", "FStringText"):
        return bytes.fromhex(lexeme.value).decode()
    return bytes.fromhex(lexeme.value) if lexeme.kind == "Bytes" else lexeme.value


def readable(lexeme):
    """The value of a lexeme for people, after a space."""
    value = value_of(lexeme)
    if value is None:
        return ""
    if lexeme.kind == "Bytes":
        return " " + repr(value)
    if lexeme.kind == "Int":
        number, written = integer(value)
        return f" {number if number < 2**53 else written}"
    return " " + (value if lexeme.kind in ("Float", "FStringStart") else quoted(value))


def json_value(lexeme):
    """The value of a lexeme as an object of Python."""
    value = value_of(lexeme)
    if lexeme.kind == "Bytes":
        return value.hex()
    if lexeme.kind == "Int":
        number, written = integer(value)
        return number if number < 2**53 else written
    return value


def of_fault(begin, end, message):
    """A fault as (begin, end, kind, value for people, value)."""
    return begin, end, "Fault", " " + quoted(message), message


def items(text):
    """All lexemes and faults of a text, in order, as (begin, end, kind, value for people, value)."""
    for what, item in items_of(text):
        if what == "fault":
            yield of_fault(item.begin, item.end, item.message)
        else:
            yield item.begin, item.end, item.kind, readable(item), json_value(item)


def each_problem(text):
    """All faults of a text and what the checks find in it, in order, as items."""
    for item, found in plain_checks.findings_between(text, items_of(text)):
        if item and item[0] == "fault":
            yield of_fault(item[1].begin, item[1].end, item[1].message)
        if found:
            yield of_fault(found[0], found[1], found[3])


INVALID = "Parse error: invalid input `"


def joined(text, found):
    """Problems, where characters that begin no token and touch are one. Its message has those of the first 24 bytes."""
    runs = []
    for item in found:
        if runs and runs[-1][1] == item[0] and all(message.startswith(INVALID) for message in (runs[-1][4], item[4])):
            begin, end = runs[-1][0], item[1]
            first = boundary(text[begin:end], 24)
            more = len(text[begin + first:end].decode())
            message = f"{INVALID}{text[begin:begin + first].decode()}`" + f" and {more} more" * (more > 0)
            runs[-1] = of_fault(begin, end, message)
        else:
            runs.append(item)
    return runs


def is_ignored(text, item):
    """Whether the line where a fault is shown ends with a comment that leaves it out."""
    at = shown_at(text, item)
    line_end = text.find(b"\n", at) if b"\n" in text[at:] else len(text)
    if line_end > boundary(text, at + 1024):
        return False
    _, mark, comment = text[at:line_end].removesuffix(b"\r").decode().rpartition("#")
    if not mark or comment == " starlark: ignore":
        return bool(mark)
    listed = re.fullmatch(r" starlark: ignore\[(.*)\]", comment)
    return bool(listed) and any(code and code_of(item[4]).startswith(code) for code in re.split("[, ]", listed[1]))


def problems(text):
    """The problems of a text that are told, as items."""
    return [item for item in joined(text, each_problem(text)) if not is_ignored(text, item)]


CODES = {
    "incorrect indentation": "SL001", "invalid input": "SL002", "tabs are not allowed": "SL003", "unfinished string literal": "SL004",
    "invalid string escape": "SL005", "missing string escape": "SL006", "cannot use reserved": "SL007",
    "integer cannot have leading": "SL008", "f-string expression": "SL009",
    **{message: code for code, message in plain_checks.MESSAGES.items()},
}


HELPS = {
    "SL001": "indent the line as the block that it belongs to",
    "SL002": "remove it: only strings and comments may have it",
    "SL003": "write spaces",
    "SL004": "close the quotes, or use three for several lines",
    "SL005": "write two backslashes, or r before the quotes",
    "SL006": "write two backslashes, and close the quotes",
    "SL007": "choose another name",
    "SL008": "write 0o in front of an octal number, or leave the zeros out",
    "SL009": "close the expression with `}`, or write `{{` for a brace that is text",
    "SL101": "close it, or remove it",
    "SL102": "remove it, or open one before it",
    "SL103": "close the open bracket by one of its kind",
    "SL104": "write a space after the number, or mend it",
    "SL105": "keep one side of the merge, and remove its marker lines",
    "SL106": "close the expression on its line, or use three quotes",
}


# What to do about characters that begin no token, in place of what is to be done about all others.
INPUT_HELPS = {
    **dict.fromkeys("“”„", 'write " in place of a typographic quote'),
    **dict.fromkeys("‘’‚", "write ' in place of a typographic quote"),
    **dict.fromkeys("–—−", "write - in place of a dash"),
    "\xa0": "write a space: this is U+00A0 NO-BREAK SPACE",
    "\ufeff": "remove it: this is U+FEFF BYTE ORDER MARK",
    "`": "write quotes: Starlark has no backticks",
}


def help_of(message):
    """What to do about a fault with this message."""
    code = code_of(message)
    named = reason(message).removeprefix("invalid input `").removesuffix("`")
    return INPUT_HELPS.get(named, HELPS[code]) if code == "SL002" else HELPS[code]


def reason(message):
    """A message without the words that all begin with."""
    return message.removeprefix("Parse error: ")


def code_of(message):
    """The code of a fault with this message."""
    return next(code for begin, code in CODES.items() if reason(message).startswith(begin))


def json_written(fields):
    """An object of JSON on one line."""
    written = json.dumps(fields, ensure_ascii=False, separators=(",", ":"))
    # These two controls have short forms too, which Python takes.
    return re.sub(r"\\([bf\\])", lambda match: {"b": "\\u0008", "f": "\\u000c"}.get(match[1], match[0]), written)


def json_line(name, text, item):
    """The line of an item as JSON."""
    begin, end, kind, _, value = item
    (line, column), (end_line, end_column) = line_and_column(text, begin), line_and_column(text, end)
    front = text[text.rfind(b"\n", 0, begin) + 1:begin].decode()
    fields = {
        "file": name, "kind": kind, "begin": begin, "end": end, "line": line, "column": column, "end_line": end_line,
        "end_column": end_column, "utf16_column": len(front.encode("utf-16-le")) // 2 + 1, "value": value,
    }
    if kind == "Fault":
        fields.update(value=reason(value), code=code_of(value), help=help_of(value))
    return json_written(fields)


def readable_line(prefix, text, item):
    """The line of an item for people."""
    begin, end, kind, value, _ = item
    places = "-".join("%d:%d" % line_and_column(text, place) for place in (begin, end))
    return f"{prefix}{places} {kind}{value}"


INDENTATION = "Parse error: incorrect indentation"
TABS = "Parse error: tabs are not allowed"


def shown_at(text, item):
    """The offset where a fault is shown: an indentation at the start of the line that the fault ends on, a tab at the tab."""
    begin, end, _, _, message = item
    if message == INDENTATION:
        return text.rfind(b"\n", 0, end) + 1
    if message != TABS or text[begin:begin + 1] == b"\t":
        return begin
    line_end = re.match(rb"\r?\n", text[begin:])
    begin += line_end.end() if line_end else 0
    comments = re.match(rb"([ \t\r]*#[^\n]*\n)*", text[begin:])
    return text.index(b"\t", begin + comments.end())


def width(character):
    """How many columns a character of a line of the source takes."""
    if is_hidden(character):
        return 1
    if unicodedata.category(character) in ("Mn", "Me"):
        return 0
    return 2 if unicodedata.east_asian_width(character) in ("W", "F") else 1


def boundary(line, at):
    """The first place from one on where a character of a line begins, or the line's end."""
    while at < len(line) and line[at] & 0xC0 == 0x80:
        at += 1
    return min(at, len(line))


def cut_line(front, back, columns):
    """What a line of so many columns shows around a fault: the parts before it and from it on, each with what goes before and after."""
    side = (columns - 5) // 2
    room = side + max(side - boundary(back, side), 0)
    begin = boundary(front, max(len(front) - room, 0))
    end = boundary(back, side + max(side - (len(front) - begin), 0))
    return "\u2026" * (begin > 0), front[begin:].decode(), back[:end], "\u2026" * (end < len(back))


def place_in(unit, text, at):
    """The line and the column of an offset, with the column counted in characters, bytes or units of UTF-16."""
    line, column = line_and_column(text, at)
    front = text[text.rfind(b"\n", 0, at) + 1:at]
    return line, {"characters": column, "bytes": len(front) + 1, "utf16": len(front.decode().encode("utf-16-le")) // 2 + 1}[unit]


def message_in(unit, text, message):
    """A message, with the column of the open bracket that it tells counted so."""

    def counted(match):
        line, column = int(match[1]), int(match[2])
        lines = text.split(b"\n")
        at = sum(len(before) + 1 for before in lines[:line - 1]) + len(lines[line - 1].decode()[:column - 1].encode())
        return "; the open bracket is at %d:%d" % place_in(unit, text, at)

    return re.sub(r"; the open bracket is at (\d+):(\d+)", counted, message)


def fault_lines(name, text, item, columns=160, unit="characters"):
    """The lines of a fault with its source."""
    _, end, _, _, message = item
    message = message_in(unit, text, message)
    begin = shown_at(text, item)
    stop = text.find(b"\n", begin)
    line = text[text.rfind(b"\n", 0, begin) + 1:begin], text[begin:stop if stop >= 0 else len(text)]
    before, front, back, after = cut_line(*line, columns)
    marked = sum(map(width, back[:max(end - begin, 0)].decode(errors="ignore")))
    source = front + back.decode().removesuffix("\r")
    line, column = place_in(unit, text, begin)
    said = "".join(shown(character) for character in reason(message))
    seen = "".join("\ufffd" if character != "\t" and is_hidden(character) else character for character in source)
    below = " " * len(before) + "".join("\t" if character == "\t" else " " * width(character) for character in front)
    first = f"{name_text(name)}:{line}:{column}: error: {said} [{code_of(message)}]"
    return f"{first}\n{before}{seen}{after}\n{below}{'^' * max(marked, 1)}\nhelp: {help_of(message)}"


def shown_region(text, item, unit="characters"):
    """Where what is shown of a fault begins and ends, as lines and columns."""
    begin = shown_at(text, item)
    return *place_in(unit, text, begin), *place_in(unit, text, max(begin, item[1]))


def github_line(name, text, item, unit="characters"):
    """The annotation of a fault."""
    line, column, end_line, end_column = shown_region(text, item, unit)
    escaped = {"%": "%25", "\r": "%0D", "\n": "%0A"}
    said = "".join(escaped.get(c, c) for c in reason(message_in(unit, text, item[4])))
    place = f"line={line},col={column},endLine={end_line},endColumn={end_column}"
    return f"::error file={escaped_name(name)},{place},title={code_of(item[4])}::{said}"


def sarif_result(name, text, item):
    """The result of a fault, as an object."""
    line, column, end_line, end_column = shown_region(text, item)
    region = {"startLine": line, "startColumn": column, "endLine": end_line, "endColumn": end_column}
    place = {"artifactLocation": {"uri": uri_of(name)}, "region": region}
    said = {"text": reason(item[4])}
    return {"ruleId": code_of(item[4]), "level": "error", "message": said, "locations": [{"physicalLocation": place}]}


MOST_FAULTS = 100


def escaped_name(name):
    """A file's name as a property of an annotation."""
    return "".join({"%": "%25", "\r": "%0D", "\n": "%0A", ":": "%3A", ",": "%2C"}.get(c, c) for c in name)


def uri_of(name):
    """A file's name as SARIF has it."""
    return ("file://" if name.startswith("/") else "") + urllib.parse.quote(name, safe="/-._~")


def report(form, name, text, most=None, is_told=lambda item: True):
    """The plain report of a text in a form, and how many faults it has; `most` of them are shown, and 100 of --check in text.
    Where no tokens are printed, only faults that are told are among them. A file that can't be read has a reason, a string, in
    place of its text."""
    if isinstance(text, str):
        return f"::error file={escaped_name(name)}::{text}\n" if form == "github" else "", 0
    of_faults = {"check": fault_lines, "check json": json_line, "github": github_line}
    found = [item for item in problems(text) if is_told(item)] if form in of_faults else list(items(text))
    faults = [item for item in found if item[2] == "Fault"]
    most = (MOST_FAULTS if form == "check" else len(faults)) if most is None else most or len(faults)
    if form in of_faults:
        lines = [of_faults[form](name, text, item) for item in faults[:most]]
        if form == "check" and len(faults) > most:
            lines.append(f"{name_text(name)}: faults not shown: {len(faults) - most}; --max-faults 0 shows all")
    elif form == "json":
        lines = [json_line(name, text, item) for item in found]
    else:
        prefix = name_text(name) + ":" if form == "named" else ""
        lines = [readable_line(prefix, text, item) for item in found]
    return "".join(line + "\n" for line in lines), len(faults)


OPTIONS = {
    "tokens": [], "named": [], "json": ["--json"], "check": ["--check"], "check json": ["--check", "--json"],
    "github": ["--format", "github"],
}
FORMS = ["tokens", "json", "check", "check json", "github"]
# What editors read the lines of gcc by, from VS Code's problem matcher $gcc.
GCC_LINE = re.compile(r"^(.*):(\d+):(\d+):\s+(?:fatal\s+)?(warning|error):\s+(.*)$")

# -- Runs


class Ended(NamedTuple):
    """How a run ended."""

    status: int
    stdout: str
    stderr: str


class Tester:
    """Runs of the program, and what was wrong with them."""

    def __init__(self, program):
        self.program = program
        self.runs = self.wrong = 0
        self.build = self.run(["--version"]).stdout.partition("(")[2].rstrip(")\n")

    def run(self, arguments, stdin=b"", **options):
        """Runs the program, with its output neither painted nor at a terminal."""
        made = subprocess.run([self.program, *arguments], input=stdin, capture_output=True, check=False, timeout=300, **options)
        return Ended(made.returncode, made.stdout.decode(), made.stderr.decode())

    def compare(self, what, found, wanted):
        """Counts a run, and says where it isn't as it has to be."""
        self.runs += 1
        if found == wanted:
            return
        self.wrong += 1
        if isinstance(found, Ended) and isinstance(wanted, Ended) and len(found.stdout) > 2000:
            pairs = zip(found.stdout.splitlines(), wanted.stdout.splitlines())
            found, wanted = next((pair for pair in pairs if pair[0] != pair[1]), (found[::2], wanted[::2]))
        print(f"{what}\nwanted: {wanted!r}\nfound:  {found!r}")


def plural(count, word):
    """A number of things."""
    return f"{count} {word}" if count == 1 else f"{count} {word}s"


def summary(form, counts, unreadable):
    """What a run of --check says at its end, by the faults of its files, and how many others couldn't be read."""
    if not form.startswith("check"):
        return ""
    lost = f"; {unreadable} couldn't be read" if unreadable else ""
    return f"{plural(sum(counts), 'fault')} in {sum(count > 0 for count in counts)} of {plural(len(counts), 'file')}{lost}\n"


def document(form, lines, counts, unreadable, build):
    """The reports of all files, with what is before and after them."""
    if "json" not in form:
        return lines
    head = json_written({"format": "starlark_lexemes", "version": 1, "proved": build == "proved"})
    found = {"files": len(counts), "faulty_files": sum(count > 0 for count in counts), "faults": sum(counts), "unreadable": unreadable}
    return f"{head}\n{lines}{json_written({'kind': 'Summary', **found})}\n"


def said_of(name, reason):
    """What is said of a file that can't be read."""
    bad_byte = re.fullmatch(r"(.*: byte 0x..) at (.*)", reason)
    return f"{name_text(name)}:{bad_byte[2]}: error: {bad_byte[1]}\n" if bad_byte else f"starlark_tokens: {name_text(name)}: {reason}\n"


def parted(named_texts, said="", lost=0):
    """The files that can't be read, as names and reasons, what is said of these and of others, which aren't named in reports, and
    how many they are."""
    unread = [(name, text) for name, text in named_texts if isinstance(text, str)]
    return unread, said + "".join(said_of(*one) for one in unread), lost + len(unread)


def ended(tester, form, named_texts, said="", lost=0):
    """How a run over files has to end, with what is said of others, which couldn't be read."""
    named_texts = list(named_texts)
    reports = [report(form, name, text) for name, text in named_texts]
    counts = [count for (_, count), (_, text) in zip(reports, named_texts) if isinstance(text, bytes)]
    _, said, unreadable = parted(named_texts, said, lost)
    lines = document(form, "".join(lines for lines, _ in reports), counts, unreadable, tester.build)
    status = 2 if unreadable else 1 if any(counts) else 0
    return Ended(status, lines, said + summary(form, counts, unreadable))


CHECKED = ["BUILD", "faults.bzl", "margins.bzl", "quotes.bzl", "wide.bzl", "zero.bzl"]
STORED = [
    ("tokens", "tokens", ["values.star"]), ("named", "named", ["BUILD", "faults.bzl"]), ("json", "json", ["values.star"]),
    ("check", "check", CHECKED), ("check_json", "check json", ["faults.bzl"]), ("github", "github", CHECKED),
]


def stored_runs(tester, is_written):
    """The stored runs of each form: the plain report, what is stored, and what the program prints are the same."""
    for stored, form, names in STORED:
        wanted = ended(tester, form, [(name, (DATA / name).read_bytes()) for name in names])
        path = DATA / f"{stored}.wanted"
        proved = wanted.stdout.replace('"proved":false', '"proved":true', 1)
        if is_written:
            path.write_text(proved)
        tester.compare(f"what is stored of {stored}", path.read_text(), proved)
        tester.compare(f"the run {stored}", tester.run([*OPTIONS[form], *names], cwd=DATA), wanted)


# Margins with faults: after line ends, comments and blank lines, at the start of a text and of what is lexed on, in CR LF.
# The last texts have faults that begin at a line end or at a line's start and are no margin's.
MARGINS = [
    b"if x:\n    y\n  z\n", b"if x:\r\n    y\r\n  z\r\n", b"if x:\n    y\n\n  # c\n\n  z", b"if x:\n    y\n\t# c\n  z\n",
    b"  x\n y\n", b"if x:\n    y\n \xc3\xa9\n", b"if x:\n  y\n z\n w\n if v:\n   u\n  t\n", b"if x:\n\ty\n", b"x\r\n  \ty",
    b"if x:\n\n  #\tc\n\n \t\tz\n", b"\tx", b"\n\tx\n", b"\n\n# c\n \tx\n", b"!\n\tx\n", b"!\n\n# c\t\n \tx\n", b"!\n# c\n \tx\n",
    b"x\n\r \ty", b"x\n# \xe2\x80\xa8\n \tx", b"(\n\ty)", b"(\n\t# c\n y)\n", b"x \ty # c\n", b"f'''{x}\n\n", b"f'a{x}\r\ny", b"f'\n x",
]


def margin_runs(tester):
    """Faults of margins are shown on the line that has to be changed."""
    for text in MARGINS:
        for form in FORMS:
            tester.compare(f"{form} of {text!r}", tester.run(OPTIONS[form], text), ended(tester, form, [("<stdin>", text)]))


# What the checks find: brackets, numbers, merge markers and f-strings; far from each other; beside characters of several bytes.
CHECKED_TEXTS = [
    b"f(1, [2, 3)\n", b"(]\n)\n", b"([)]\n", b"}", b"{(\n[", b"x = 0o8 + 0xg + 1e + 123abc + 1.5in + 1or\n", b"[x for x in 1if 2]\n", b"1 2 a\n",
    b"<<<<<<< HEAD\nx\n=======\ny\n>>>>>>> main\n", b"<<<<<<<\r\n", b"=======", b" =======\n", b"======\n", b"========\n", b"x\n\n>>>>>>>\tz\n",
    b'f"{a\n}"\n', b"f\"\"\"{a\n}\"\"\"\n", b'f"{f\'{a\n}\'}"\n', b'f"{(a}"\n', b'f"{a)}"\n', b'f"{a]}" ]\n', b'x = f"{name', b'f"{a}{b\n}{c}"\n',
    b'f"{x:{y\n}}"\n', b"(\n!\n]\n", b"(\n01)\n]\n", b"('a\n]\n", b"!\n<<<<<<< x\n1a\n",
    "(# 日本\n'é', 😀 ]\n".encode(), ("[ # " + "é" * 2000 + "\n" + "'日本' + (\n" * 500 + ")]" * 500 + "\n").encode(),
    b"[" * 3000 + b")" * 2999 + b"\n", b"[\n" * 700 + "# é\n".encode() * 700 + b")\n" * 701, b'f"{1a\n}" ' * 300, ("'" + "😀" * 600 + "' 1a " + "0b2 " * 300).encode(),
]


NAMED = "".join(f"x {character} y\n" for character in [*INPUT_HELPS, "“", "$", "é"]).encode()


def check_runs(tester):
    """What the checks find in each form that has only faults."""
    for text in [*CHECKED_TEXTS, NAMED]:
        for form in FORMS:
            for options in ([], ["--max-faults", "0"]) if form == "check" else ([],):
                found = tester.run([*OPTIONS[form], *options], text)
                lines, count = report(form, "<stdin>", text, 0 if options else None)
                wanted = Ended(1 if count else 0, document(form, lines, [count], 0, tester.build), summary(form, [count], 0))
                tester.compare(f"{form} {options} of {text[:60]!r}", found, wanted)
        compare_sarif(tester, repr(text[:60]), tester.run(["--format", "sarif"], text), [("<stdin>", text)])


# Characters that begin no token: alone, in runs, beside other faults, long runs; and comments that leave out faults, or don't.
RUNS = [
    "x = 你好世界你好 + “é”\n", "$$ $\n$$", "!$\t$$x$01$$", "f'{$$}}'\n$", "(\n$$\n)$?$\n", "$" * 24, "$" * 25 + "\n", "é" * 12 + "$", "x" + "世" * 300,
    "“" * 2, "$\ufeff$\xa0", "$" * 3000,
]
IGNORED = [
    "x = 01 # starlark: ignore\n01\n", "x = 01 # starlark: ignore[SL008]\r\n01", "class = 01 # starlark: ignore[SL007]\n", "class = 01 # starlark: ignore[SL]",
    "class = 01 # starlark: ignore[SL1, SL008]\n", "class = 01 # starlark: ignore[SL001 SL007,,]\n", "01 # starlark: ignore[]\n", "01 # starlark: ignore[,]\n",
    "01 # starlark: ignored\n", "01 # starlark: ignore \n", "01 #starlark: ignore\n", "01 # starlark: ignore[SL008\n", "01 # starlark: ignore]\n",
    "01 # starlark: ignore[SL008] # c\n", "01 # c # starlark: ignore[SL008]\n", "01 starlark: ignore\n", "'a # starlark: ignore[SL004]\n", "'a # starlark: ignore\n01\n",
    "if x:\n    y\n  z # starlark: ignore[SL001]\n", "if x: # starlark: ignore\n    y\n  z\n", "\tx # starlark: ignore[SL003]\n", "f(1, [2) # starlark: ignore[SL103]\n",
    "( # starlark: ignore[SL101]\n[\n", "你好 # starlark: ignore[SL002]\n你好", "01 " * 400 + "# starlark: ignore\n", "01" + "é" * 500 + " # starlark: ignore\n",
    "01 " + " " * 1003 + "# starlark: ignore", "01 " + " " * 1004 + "# starlark: ignore\n", "01 " + " " * 1005 + "# starlark: ignore\n", "1a # starlark: ignore[SL104]\r",
    "<<<<<<< a # starlark: ignore\n1a\n", "f'{a\n}' # starlark: ignore[SL106]\n", "f'{a # starlark: ignore[SL106]\n}'\n", '"""a\n# starlark: ignore', "01 # starlark: ignore[[SL008]\n",
]


def told_runs(tester):
    """Runs of characters that begin no token, and comments that leave out faults, in each form."""
    for text in [text.encode() for text in [*RUNS, *IGNORED]]:
        for form in FORMS:
            tester.compare(f"{form} of {text!r}", tester.run(OPTIONS[form], text), ended(tester, form, [("<stdin>", text)]))
        compare_sarif(tester, repr(text), tester.run(["--format", "sarif"], text), [("<stdin>", text)])


COLUMNED = [
    "x = '日本😀' + 01 # é\n'é' 01 😀\n", "('é', 😀😀 [ 'é' )\n", "é\n" * 3 + "f'é{1a}😀{\n}'\n", "if x:\n    y\n  'é'\n\t\n", "'" + "é😀" * 900 + "' 1a 01 ]" + "é" * 700 + "01",
    "[" + "'😀'," * 700 + "01)" * 3 + "\n", "f\"é{f'é{a\n}'}\" 'é' 01\n",
]


def columned_runs(tester):
    """Columns of faults in bytes and in units of UTF-16, in lines for people and in annotations; JSON and SARIF have theirs."""
    for text in [text.encode() for text in COLUMNED]:
        for unit in ("characters", "bytes", "utf16"):
            for form, line_of in (("check", fault_lines), ("github", github_line)):
                lines = "".join(line_of("<stdin>", text, item, unit=unit) + "\n" for item in problems(text))
                found = tester.run([*OPTIONS[form], "--quiet", "--columns", unit], text)
                tester.compare(f"{form} of {text!r} in {unit}", found, Ended(1, lines, ""))
            for arguments in (["--json"], ["--check", "--json"], ["--format", "sarif"], []):
                found = tester.run([*arguments, "-q", f"--columns={unit}"], text)
                tester.compare(f"{arguments} of {text!r} in {unit}", found, tester.run([*arguments, "-q"], text))


# For each row of options: what the codes begin with that are told and that are left out, and words that are names.
FILTERS = [
    (["--select", "SL0"], ["SL0"], [], []),
    (["--select=SL008,SL104"], ["SL008", "SL104"], [], []),
    (["--select", "SL1", "--select", "SL007"], ["SL1", "SL007"], [], []),
    (["--ignore", "SL007"], [], ["SL007"], []),
    (["--ignore", "SL00,,SL105"], [], ["SL00", "SL105"], []),
    (["--ignore", "S"], [], ["S"], []),
    (["--ignore", ","], [], [], []),
    (["--select", "SL0", "--ignore=SL007"], ["SL0"], ["SL007"], []),
    (["--names", "assert,class"], [], [], ["assert", "class"]),
    (["--names=assert", "--names=as", "--select", "SL007"], ["SL007"], [], ["assert", "as"]),
]
FILTERED_TEXT = b"x = 01\nclass = (1a)\nassert x\nif is $:\n as 'a\n<<<<<<< a\n" + b"1a\n" * 3


def filtered_runs(tester):
    """What is told with --select, --ignore and --names, in each form; tokens are printed as ever."""
    for options, selected, ignored, names in FILTERS:

        def is_told(item):
            code, word = code_of(item[4]), reason(item[4]).split("`")[1:2]
            is_name = code == "SL007" and word[0] in names
            return (not selected or code.startswith(tuple(selected))) and not code.startswith(tuple(ignored)) and not is_name

        for form in FORMS:
            for most in (None, 2):
                arguments = [*OPTIONS[form], *options, *([] if most is None else ["--max-faults", str(most)])]
                if form == "tokens" and most:
                    continue
                lines, count = report(form, "<stdin>", FILTERED_TEXT, most, is_told)
                if form == "json" and most:
                    continue
                wanted = Ended(1 if count else 0, document(form, lines, [count], 0, tester.build), summary(form, [count], 0))
                tester.compare(f"{arguments}", tester.run(arguments, FILTERED_TEXT), wanted)


def is_read_back(line, lexeme):
    """Whether Python reads the value of a line for people back."""
    shown_value = line.split(" ", 2)[2:]
    if lexeme.kind in ("String", "FStringText", "Bytes", "Identifier", "Comment"):
        return ast.literal_eval(shown_value[0]) == value_of(lexeme)
    return lexeme.kind not in ("Int",) or ast.literal_eval(shown_value[0]) == integer(lexeme.value)[0]


def random_runs(tester, count, seed):
    """Random texts in each form; each line of JSON is read by Python, and each value for people too."""
    for text in random_texts(count, seed):
        for form in FORMS:
            found = tester.run(OPTIONS[form], text)
            wanted = ended(tester, form, [("<stdin>", text)])
            tester.compare(f"{form} of {text!r}", found, wanted)
            if form == "tokens" and found == wanted:
                pairs = zip(found.stdout.splitlines(), items_of(text))
                values = [is_read_back(line, item) for line, (what, item) in pairs if what == "lexeme"]
                tester.compare(f"values of {text!r}", all(values), True)
            if "json" in form:
                tester.compare(f"schema of {form} of {text!r}", wrong_objects(found.stdout), [])
            if form == "check":
                firsts = [line for line in found.stdout.split("\n") if line.startswith("<stdin>:")]
                tester.compare(f"lines of {text!r} that editors read", all(map(GCC_LINE.match, firsts)), True)


# -- Documents

TYPES = {"string": str, "integer": int, "boolean": bool, "null": type(None)}


def is_of_type(value, name):
    """Whether a value has a type of JSON Schema."""
    return isinstance(value, TYPES[name]) and (name != "integer" or not isinstance(value, bool))


def fits_schema(fields, schema):
    """Whether an object fits a schema of one object, by the words that docs/use/lexemes.schema.json has."""
    properties = schema["properties"]
    if not set(schema["required"]) <= set(fields) or not set(fields) <= set(properties):
        return False
    for name, value in fields.items():
        rule = properties[name]
        types = [rule["type"]] if isinstance(rule.get("type"), str) else rule.get("type", [])
        if types and not any(is_of_type(value, name) for name in types):
            return False
        if "const" in rule and value != rule["const"] or "not" in rule and value == rule["not"]["const"]:
            return False
        if "pattern" in rule and not re.search(rule["pattern"], value) or "minimum" in rule and value < rule["minimum"]:
            return False
    return True


def wrong_objects(printed):
    """The lines of a document of JSON that don't fit their schema: a head, then tokens and faults, and a summary."""
    schemas = json.loads(SCHEMA.read_text())["$defs"]
    lines = printed.split("\n")[:-1]
    kinds = ["head", *["item"] * (len(lines) - 2), "summary"]
    wanted = [schema["oneOf"] if "oneOf" in schema else [schema] for schema in (schemas[kind] for kind in kinds)]
    resolved = [[schemas[s["$ref"].rpartition("/")[2]] if "$ref" in s else s for s in choices] for choices in wanted]
    return [line for line, choices in zip(lines, resolved, strict=True) if sum(fits_schema(json.loads(line), s) for s in choices) != 1]


RULE_TEXTS = {"shortDescription", "fullDescription", "help"}


def wrong_sarif(printed, build):
    """What of a document isn't as SARIF 2.1.0 has it, in words of our own; the document may have no other properties."""
    document = json.loads(printed)
    [run] = document["runs"]
    driver = run["tool"]["driver"]
    rules = [rule["id"] for rule in driver["rules"]]
    facts = {
        "the top": set(document) == {"$schema", "version", "runs"} and document["version"] == "2.1.0",
        "the run": set(run) == {"tool", "columnKind", "results", "invocations"},
        "its columns": run["columnKind"] in ("utf16CodeUnits", "unicodeCodePoints"),
        "the driver": set(driver) == {"name", "version", "rules", "properties"} and driver["properties"] == {"proved": build == "proved"},
        "its version": driver["version"] == (TOP / "VERSION").read_text().strip(),
        "rules": rules == list(HELPS),
        "their words": all(set(rule) == {"id", "name", *RULE_TEXTS} and all(set(rule[text]) == {"text"} for text in RULE_TEXTS) for rule in driver["rules"]),
        "their help": {rule["id"]: rule["help"]["text"] for rule in driver["rules"]} == HELPS,
        "invocations": [set(one) - {"toolExecutionNotifications"} for one in run["invocations"]] == [{"executionSuccessful"}],
        "notifications": all(set(told) <= {"level", "message", "locations"} for told in run["invocations"][0].get("toolExecutionNotifications", [])),
    }
    for result in run["results"]:
        [place] = result["locations"]
        physical = place["physicalLocation"]
        region, uri = physical["region"], physical["artifactLocation"]["uri"]
        facts[f"the result {result}"] = (
            set(result) == {"ruleId", "level", "message", "locations"} and result["ruleId"] in rules and set(result["message"]) == {"text"}
            and result["level"] in ("none", "note", "warning", "error") and set(physical) == {"artifactLocation", "region"}
            and set(region) == {"startLine", "startColumn", "endLine", "endColumn"} and min(region.values()) >= 1
            and (region["startLine"], region["startColumn"]) <= (region["endLine"], region["endColumn"]) and re.fullmatch(r"(file://)?([\w.~/-]|%[0-9a-fA-F]{2})*", uri, re.ASCII)
        )
    return [what for what, is_right in facts.items() if not is_right]


def notifications(unread, unreadable):
    """What an invocation tells of files that couldn't be read: how many they are, and then each that is named, with the reason."""
    counted = {"level": "error", "message": {"text": f"files that couldn't be read: {unreadable}"}}
    places = [[{"physicalLocation": {"artifactLocation": {"uri": uri_of(name)}}}] for name, _ in unread]
    named = [{"level": "error", "message": {"text": reason}, "locations": place} for (_, reason), place in zip(unread, places)]
    return {"toolExecutionNotifications": [counted, *named]} if unreadable else {}


def compare_sarif(tester, what, found, named_texts, said="", lost=0):
    """Compares a run in SARIF with the plain results."""
    named_texts = list(named_texts)
    unread, said, unreadable = parted(named_texts, said, lost)
    wanted = [sarif_result(name, text, item) for name, text in named_texts if isinstance(text, bytes) for item in problems(text)]
    tester.compare(f"sarif of {what}", wrong_sarif(found.stdout, tester.build), [])
    [run] = json.loads(found.stdout)["runs"]
    told = run["invocations"][0].get("toolExecutionNotifications", [])
    urls = [one["locations"][0]["physicalLocation"]["artifactLocation"] for one in [*run["results"], *told[1:]]]
    for url in urls:
        url["uri"] = re.sub("%..", lambda match: match[0].upper(), url["uri"])
    tester.compare(f"results of {what}", run["results"], wanted)
    invocation = {"executionSuccessful": unreadable == 0, **notifications(unread, unreadable)}
    tester.compare(f"invocations of {what}", run["invocations"], [invocation])
    tester.compare(f"status of {what}", (found.status, found.stderr), (2 if unreadable else 1 if wanted else 0, said))


def sarif_runs(tester, count, seed):
    """Documents of SARIF over texts and files."""
    for text in [b"", b"x\n", *MARGINS, *random_texts(count // 3, seed + 1)]:
        compare_sarif(tester, repr(text), tester.run(["--format", "sarif"], text), [("<stdin>", text)])
    texts = [(name, (DATA / name).read_bytes()) for name in CHECKED]
    compare_sarif(tester, "files", tester.run(["--format=sarif", *CHECKED], cwd=DATA), texts)


# -- Options


def option_runs(tester):
    """Rows of options and statuses."""
    usage = tester.run(["--help"])
    tester.compare("--help", (usage.status, usage.stderr, usage.stdout.startswith("usage: starlark_tokens ")), (0, "", True))
    tester.compare("lines of --help", usage.stdout.count("\n") <= 30, True)
    tester.compare("build", tester.build in ("proved", "unproved build"), True)
    version = f"starlark_tokens {(TOP / 'VERSION').read_text().strip()} ({tester.build})\n"
    tester.compare("--version", tester.run(["--version"]), Ended(0, version, ""))
    x_line = "1:1-1:2 Identifier 'x'\n1:2-2:1 Newline\n2:1-2:1 Newline\n"
    fault = "1:1-1:2 Fault 'Parse error: invalid input `!`'\n1:2-1:2 Newline\n"
    shown_fault = f"%s:%d:1: error: invalid input `!` [SL002]\n!\n^\nhelp: {HELPS['SL002']}\n"
    of_stdin = shown_fault % ("<stdin>", 1)
    unknown = "starlark_tokens: %s: unknown option; --help lists them\n"
    no_value = "starlark_tokens: %s: needs a value; --help lists the options\n"
    no_number = "starlark_tokens: --max-faults=%s: the value is a number in decimal digits\n"
    annotation = "::error file=<stdin>,line=1,col=1,endLine=1,endColumn=2,title=SL002::invalid input `!`\n"
    rows = [
        ([], b"x\n", 0, x_line, ""),
        (["-"], b"x\n", 0, x_line, ""),
        (["--"], b"x\n", 0, x_line, ""),
        (["--", "-"], b"x\n", 0, x_line, ""),
        (["--quiet"], b"x\n", 0, x_line, ""),
        (["--format", "text"], b"x\n", 0, x_line, ""),
        (["--format=text"], b"x\n", 0, x_line, ""),
        ([], b"", 0, "1:1-1:1 Newline\n", ""),
        ([], b"!", 1, fault, ""),
        (["--check"], b"x\n", 0, "", "0 faults in 0 of 1 file\n"),
        (["--check", "--quiet"], b"x\n", 0, "", ""),
        (["-q", "--check"], b"!", 1, of_stdin, ""),
        (["--check"], b"!", 1, of_stdin, "1 fault in 1 of 1 file\n"),
        (["--check"], b"!\n!", 1, of_stdin + shown_fault % ("<stdin>", 2), "2 faults in 1 of 1 file\n"),
        (["--check", "-q", "--stdin-filename", "a b.bzl"], b"!", 1, shown_fault % ("a b.bzl", 1), ""),
        (["--check", "-q", "--stdin-filename=--check", "-"], b"!", 1, shown_fault % ("--check", 1), ""),
        (["--check", "-q", "--stdin-filename", b"\xff"], b"!", 1, shown_fault % ("\ufffd", 1), ""),
        (["--check", "-q", "--exclude", "--", "-"], b"!", 2, "", no_value % "--exclude"),
        (["--format", "github"], b"!", 1, annotation, ""),
        (["--format", "github", "--check"], b"!", 1, annotation, "1 fault in 1 of 1 file\n"),
        (["--format", "xml"], b"x\n", 2, "", "starlark_tokens: --format=xml: the formats are text, json, github and sarif\n"),
        (["--color", "red"], b"x\n", 2, "", "starlark_tokens: --color=red: the values are auto, always and never\n"),
        (["--columns", "chars"], b"x\n", 2, "", "starlark_tokens: --columns=chars: the values are characters, bytes and utf16\n"),
        (["--check", "-q", "--color", "always", "--color=never"], b"!", 1, of_stdin, ""),
        (["--format"], b"x\n", 2, "", no_value % "--format"),
        (["--chekc"], b"x\n", 2, "", unknown % "--chekc"),
        (["--max-faults", "1x"], b"x\n", 2, "", no_number % "1x"),
        (["--max-faults="], b"x\n", 2, "", no_number % ""),
        (["--max-faults", "-1"], b"x\n", 2, "", no_number % "-1"),
        (["-x", "--help"], b"x\n", 2, "", unknown % "-x"),
        (["--check", "--json="], b"x\n", 2, "", unknown % "--json="),
        (["--\n"], b"x\n", 2, "", unknown % "'--\\n'"),
        ([b"--\xff"], b"x\n", 2, "", unknown % "b'--\\xff'"),
        (["--version", "--help"], b"x\n", 0, usage.stdout, ""),
        (["-h"], b"x\n", 0, usage.stdout, ""),
        (["-V"], b"x\n", 0, version, ""),
        (["-qV"], b"x\n", 0, version, ""),
        (["-qq", "--check"], b"x\n", 0, "", ""),
        (["-qx"], b"x\n", 2, "", unknown % "-qx"),
        (["--explain", "SL010"], b"", 2, "", "starlark_tokens: SL010: no fault has this code; they are SL001 to SL009 and SL101 to SL106\n"),
        (["--explain", b"SL\xff"], b"", 2, "", "starlark_tokens: b'SL\\xff': no fault has this code; they are SL001 to SL009 and SL101 to SL106\n"),
    ]
    for arguments, stdin, *wanted in rows:
        tester.compare(f"{arguments} over {stdin!r}", tester.run(arguments, stdin), Ended(*wanted))


def explained_faults(tester):
    """What --explain prints of each code: the program finds one fault in its example, of this code. That of SL006 has no line end."""
    for code in CODES.values():
        explained = tester.run(["--explain", code])
        tester.compare(f"--explain {code}", (explained.status, explained.stderr, explained.stdout.startswith(f"{code}: ")), (0, "", True))
        example = "".join(f"{line[4:]}\n" for line in explained.stdout.split("\n") if line.startswith("    "))
        example = example.removesuffix("\n" * (code == "SL006")).encode()
        found = re.findall(r" \[(SL\d+)\]$", tester.run(["--check", "-q"], example).stdout, re.MULTILINE)
        tester.compare(f"the example of {code}", found, [code])


LONG = [
    b"x = [" + b"1, " * 100 + b"01, " + b"2, " * 100 + b"]\n", b"a" * 140 + b" = 01\n", b"01" + b" " * 153 + b"\n",
    b"01" + b" " * 152 + b"\r\n", b"01 # " + b"\xe2\x82\xac" * 80, "é".encode() * 99 + b"\t01" + "本".encode() * 99,
    b" " * 77 + b"01" + b" " * 75, b" " * 78 + b"01" + b" " * 75, b" " * 77 + b"01" + b" " * 76, b"x" + b"\t" * 300 + b"y",
    b"x = '" + b"b" * 300 + b"\ny = 0" + b"1" * 400 + b"\n", b"f(" + "́".encode() * 200 + b")",
]


def long_runs(tester, folder):
    """Lines that are longer than what is shown of them, in a pipe and at a terminal of so many columns; and limits of faults."""
    for text in LONG:
        tester.compare(f"the long line {text!r}", tester.run(["--check"], text), ended(tester, "check", [("<stdin>", text)]))
        (folder / "long.star").write_bytes(text)
        faults = list(problems(text))[:MOST_FAULTS]
        for columns in (20, 79, 80, 81):
            environment = {**os.environ, "NO_COLOR": "1", "COLUMNS": str(columns)}
            _, seen = at_terminal([tester.program, "--check", "-q", "long.star"], folder, environment)
            wanted = "".join(fault_lines("long.star", text, item, columns) + "\n" for item in faults)
            tester.compare(f"the long line {text!r} in {columns} columns", seen.split("long.star: faults not shown")[0], wanted)
    for most, count in ((None, 300), (0, 300), (1, 3), (3, 3), (7, 300), (100, 100), (2**64, 300)):
        for form in ("check", "check json", "github"):
            text = b"01\n" * count
            lines, _ = report(form, "<stdin>", text, most)
            arguments = [*OPTIONS[form], *([] if most is None else ["--max-faults", str(most)])]
            found = tester.run(arguments, text)
            shown_lines = "".join(line for line in found.stdout.splitlines(True) if not line.startswith(('{"format"', '{"kind":"Summary"')))
            tester.compare(f"{form} of {count} faults with a limit of {most}", (found.status, shown_lines), (1, lines))
            tester.compare(f"the count of {count} faults with a limit of {most}", str(count) in (found.stdout + found.stderr)[-120:] or form == "github", True)


# What is printed of n bytes with k faults is at most this many times n + k, also where all are shown.
MOST_PRINTED = 400
# Findings whose places were each counted from the text's start would take a minute.
MOST_SECONDS = 10


def bounded_runs(tester):
    """Faults every three bytes of one line of 300 KB: what is printed is little, and stays in proportion where all are shown."""
    text = b"01 " * 100_000 + b"\n"
    for arguments, most in (([], 1_000_000), (["--max-faults", "0"], MOST_PRINTED * (len(text) + 100_000))):
        begun = time.monotonic()
        found = tester.run(["--check", *arguments], text)
        taken = time.monotonic() - begun
        print(f"300 KB of faults on one line, {arguments}: {len(found.stdout)} bytes, {taken:.2f} s")
        counted = "100000 faults in 1 of 1 file\n"
        tester.compare(f"300 KB of faults {arguments}", (found.status, found.stderr, len(found.stdout) <= most), (1, counted, True))
    for text in (b"[" * 100_000 + b")" * 100_000, b'f"{1a\n}" ' * 50_000):
        begun = time.monotonic()
        found = tester.run(["--check", "--json"], text)
        taken = time.monotonic() - begun
        print(f"{len(text)} bytes like {text[-8:]}: {len(found.stdout)} bytes, {taken:.2f} s")
        tester.compare(f"100,000 findings like {text[-8:]}", (found.stderr, taken < MOST_SECONDS), (counted, True))


MISSING = "No such file or directory (os error 2)"
# Files of which a document tells why they have no text, beside one with a fault and one without.
UNREAD = [
    ("bad.star", "not UTF-8: byte 0xff at 3:4"), ("fault.star", b"01\n"), ("missing.star", MISSING), ("x.star", b"x\n"), ("long.star", "longer than 4294967295 bytes"),
    ("no\nsuch: a,b %.star", MISSING), ("/no/\"such\\ \u00e9\u65e5.star", MISSING), ("bad.star", "not UTF-8: byte 0xff at 3:4"), ("fault.star/x", "Not a directory (os error 20)"),
    ("n" * 300, "File name too long (os error 36)"),
]


def unread_runs(tester, folder):
    """Files that aren't UTF-8, are too long or can't be opened, each told with the reason, in each form; alone, in a list, and standard input."""
    (folder / "fault.star").write_bytes(b"01\n")
    with open(folder / "long.star", "wb") as file:
        file.truncate(2**32)
    for named in (UNREAD, UNREAD[:1], UNREAD[2:3], UNREAD[4:5], [UNREAD[3], UNREAD[5]]):
        names = [name for name, _ in named]
        for form in ("named", "json", "check", "check json", "github"):
            tester.compare(f"{form} of {names}", tester.run([*OPTIONS[form], *names], cwd=folder), ended(tester, form, named))
            found = tester.run([*OPTIONS[form], "--files-from=-"], "\0".join(names + [""]).encode(), cwd=folder)
            tester.compare(f"{form} of a list {names}", found, ended(tester, form, named))
        compare_sarif(tester, f"{names}", tester.run(["--format", "sarif", *names], cwd=folder), named)
    for text, reason in ((b"\xff", "not UTF-8: byte 0xff at 1:1"), ("x\né ".encode() + b"\xed\xa0\x80", "not UTF-8: byte 0xed at 2:3")):
        tester.compare(f"github of {text}", tester.run(["--format", "github"], text), ended(tester, "github", [("<stdin>", reason)]))
        compare_sarif(tester, f"{text}", tester.run(["--format", "sarif"], text), [("<stdin>", reason)])
    for name in ("fault.star", "long.star"):
        (folder / name).unlink()


ODD_NAMES = ["a\nb.star", "it's \"a\" test.star", "--check", "a b.star", "é.star", "\u202e.star"]


def file_runs(tester, folder):
    """Files that can't be read, aren't UTF-8 or have odd names; the others are still reported."""
    (folder / "empty.star").write_bytes(b"")
    (folder / "bad.star").write_bytes("x\né = 1\ny é\xff\n".encode("latin-1").replace(b"\xe9", "é".encode()))
    (folder / "x.star").write_bytes(b"x\n")
    (folder / "folder").mkdir()
    named = "x.star:1:1-1:2 Identifier 'x'\nx.star:1:2-2:1 Newline\nx.star:2:1-2:1 Newline\n"
    rows = [
        (["empty.star"], 0, "1:1-1:1 Newline\n", ""),
        (["missing.star", "x.star"], 2, named, "starlark_tokens: missing.star: No such file or directory (os error 2)\n"),
        (["folder", "x.star"], 0, named, ""),
        (["bad.star", "x.star"], 2, named, "bad.star:3:4: error: not UTF-8: byte 0xff\n"),
        (["--check", "bad.star", "x.star"], 2, "", "bad.star:3:4: error: not UTF-8: byte 0xff\n0 faults in 0 of 1 file; 1 couldn't be read\n"),
        ([b"\xff.star", "x.star"], 2, named, "starlark_tokens: b'\\xff.star': the name is not UTF-8\n"),
        (["no\nsuch"], 2, "", "starlark_tokens: 'no\\nsuch': No such file or directory (os error 2)\n"),
    ]
    for arguments, *wanted in rows:
        tester.compare(f"{arguments}", tester.run(arguments, cwd=folder), Ended(*wanted))
    unread_runs(tester, folder)
    for name in ODD_NAMES:
        (folder / name).write_bytes(b"x = 01\n")
    for form in ("named", "json", "check"):
        texts = [(name, b"x = 01\n") for name in ODD_NAMES]
        found = tester.run([*OPTIONS[form], "--", *ODD_NAMES], cwd=folder)
        tester.compare(f"{form} of odd names", found, ended(tester, form, texts))


def shell_runs(tester, folder):
    """A thousand files in one call, and a pipe that is closed after a line."""
    texts = [(f"f{number}.star", b"x%d = '%d'\n" % (number, number) + (b"y = 00\n" if number % 100 == 7 else b"")) for number in range(1000)]
    for name, text in texts:
        (folder / name).write_bytes(text)
    for form in ("named", "check"):
        found = tester.run([*OPTIONS[form], *[name for name, _ in texts]], cwd=folder)
        tester.compare(f"{form} of a thousand files", found, ended(tester, form, texts))
    (folder / "long.star").write_bytes(b"x = 1\n" * 200_000)
    command = '"$0" long.star | head -1; echo "${PIPESTATUS[0]}"'
    made = subprocess.run(["bash", "-c", command, tester.program], cwd=folder, capture_output=True, check=False)
    tester.compare("| head -1", (made.stdout, made.stderr), (b"1:1-1:2 Identifier 'x'\n141\n", b""))


# What prints something, by how it ends where that can't be written, or nobody reads it.
PRINTED = [["--help"], ["--version"], ["--explain", "SL001"], ["x.star"], ["--json", "x.star"], ["--check", "y.star"], ["--format=github", "y.star"], ["--format", "sarif", "x.star"]]
FULL = "starlark_tokens: cannot write the output: No space left on device (os error 28)\n"


def unwritable_runs(tester, folder):
    """The status of whatever is printed: 2 on a full device, which is told, and 141 in a pipe that nobody reads."""
    (folder / "x.star").write_bytes(b"x\n")
    (folder / "y.star").write_bytes(b"!\n")
    for arguments in PRINTED:
        with open("/dev/full", "wb") as full:
            made = subprocess.run([tester.program, *arguments], cwd=folder, stdout=full, stderr=subprocess.PIPE, check=False, timeout=60)
        tester.compare(f"{arguments} on a full device", (made.returncode, made.stderr.decode()), (2, FULL))
        reader, writer = os.pipe()
        os.close(reader)
        made = subprocess.run([tester.program, *arguments], cwd=folder, stdout=writer, stderr=subprocess.PIPE, check=False, timeout=60)
        os.close(writer)
        tester.compare(f"{arguments} in a closed pipe", (made.returncode, made.stderr), (141, b""))


# -- Folders

TREE = {
    "BUILD": b"x = 01\n", "BUILD.bazel": b"x\n", "WORKSPACE": b"!\n", "WORKSPACE.bzlmod": b"", "MODULE.bazel": b"x\n", "BUCK": b"x\n",
    "a.bzl": b"!", "a.star": b"!", "a.sky": b"!", "a.bxl": b"!", "build": b"!", "BUILD.txt": b"!", "a.bzl.orig": b"!", "notes.txt": b"!",
    "TARGETS": b"!", "TARGETS.v2": b"!", "zlib.BUILD": b"!", "zlib.BUILD.bazel": b"!", "zlib.BUILD.txt": b"!", "zlibBUILD": b"!", "BUILDS": b"!",
    "deps.MODULE.bazel": b"!", "MODULE.bazel.lock": b"!", "a.bazel": b"!",
    ".hidden/BUILD": b"!", ".hidden.bzl": b"!", "b/c/BUILD": b"!", "b/c.bzl": b"!", "b/d/e/BUCK": b"\tx\n", "b.bzl": b"x\n",
    "third_party/x/BUILD": b"!", "third_party/y.bzl": b"!", "it's/a,b:c%.bzl": b"!", "e\u0301/\u4e2d.bzl": b"!", "z/BUILD": b"x\n",
}
TAKEN = re.compile(r"BUILD|BUCK|TARGETS|MODULE\.bazel|(BUILD\.|WORKSPACE).*|.*\.(BUILD|BUILD\.bazel|MODULE\.bazel|bzl|star|sky|bxl)")


def walked(folder, prefix="", is_taken=TAKEN.fullmatch, is_left_out=lambda name, path: False):
    """The files of a folder that are read, in order, as names and texts."""
    for name in sorted(os.listdir(folder), key=os.fsencode):
        path = prefix + name
        if name.startswith(".") or is_left_out(name, path):
            continue
        here = folder / name
        if here.is_dir() and not here.is_symlink():
            yield from walked(here, path + "/", is_taken, is_left_out)
        elif is_taken(name) and here.is_file():
            yield path, here.read_bytes()


def in_order(named_texts):
    """Files by names, in the order in which folders are walked."""
    return sorted(named_texts, key=lambda named: os.fsencode(named[0]).split(b"/"))


def made_tree(folder):
    """A tree of files with links, loops, a pipe and empty folders."""
    for name, text in TREE.items():
        (folder / name).parent.mkdir(parents=True, exist_ok=True)
        (folder / name).write_bytes(text)
    (folder / "empty").mkdir()
    (folder / "b/loop").symlink_to("..")
    (folder / "b/BUILD").symlink_to("BUILD")
    (folder / "bazel-out").symlink_to("third_party")
    (folder / "b/linked.bzl").symlink_to("../a.bzl")
    (folder / "b/folder.bzl").mkdir()
    (folder / "b/folder.bzl/x.star").write_bytes(b"!")
    (folder / "b/linked_folder.bzl").symlink_to("folder.bzl")
    (folder / "b/itself").symlink_to("itself")
    os.mkfifo(folder / "b/pipe.bzl")


def folder_runs(tester, folder):
    """Runs over a tree: what is read, in which order, and what is left out."""
    made_tree(folder)
    everything = in_order([*walked(folder), ("b/BUILD", "Too many levels of symbolic links (os error 40)")])
    for form in ("named", "json", "check", "check json", "github"):
        tester.compare(f"{form} of a tree", tester.run([*OPTIONS[form], "."], cwd=folder), ended(tester, form, everything))
    compare_sarif(tester, "a tree", tester.run(["--format", "sarif", "."], cwd=folder), everything)
    (folder / "b/BUILD").unlink()
    everything = list(walked(folder))
    globs = {
        ("--exclude", "third_party"): lambda name, path: name == "third_party",
        ("--exclude=*party/x/*",): lambda name, path: path.startswith("third_party/x/"),
        ("--exclude", "b/*", "--exclude=*.star"): lambda name, path: path.startswith("b/") or name.endswith(".star"),
        ("--exclude", "*"): lambda name, path: True,
        ("--exclude", "*B*I*L*D*"): lambda name, path: re.search("B.*I.*L.*D", name, re.DOTALL),
        ("--exclude", "folder.bzl/", "--exclude=c/"): lambda name, path: path in ("b/folder.bzl", "b/c"),
        ("--exclude", "/b", "--exclude=./a.bzl"): lambda name, path: path in ("b", "a.bzl"),
        ("--exclude=b/**/BUCK", "--exclude", "**/y.bzl"): lambda name, path: path == "b/d/e/BUCK" or name == "y.bzl",
        ("--exclude", "[ab].s[k-y]?", "--exclude=[!ab].bzl", "--exclude=\\b.bzl"): lambda name, path: re.fullmatch(r"[ab]\.s[k-y].|[c-z]\.bzl|b\.bzl", name),
    }
    for options, is_left_out in globs.items():
        wanted = ended(tester, "check", walked(folder, is_left_out=is_left_out))
        tester.compare(f"{options} of a tree", tester.run(["--check", *options, "."], cwd=folder), wanted)
    for glob in ("ird_party", "", "/", "..", "x/third_party", "BUILD/", "b/BUILD", "[", "a.bz?/"):
        said = f"starlark_tokens: {glob}: no file or folder was left out by this --exclude\n"
        tester.compare(f"--exclude {glob} of a tree", tester.run(["--check", "--exclude", glob, "."], cwd=folder), ended(tester, "check", everything, said))
    said = "starlark_tokens: *.txt: no file was taken by this --include\n"
    tester.compare("--include of nothing", tester.run(["--check", "--include=*.txt", "z"], cwd=folder), ended(tester, "check", [("z/BUILD", b"x\n")], said))
    said = "starlark_tokens: z: no file or folder was left out by this --exclude\n"
    tester.compare("--exclude of a name", tester.run(["--check", "--exclude=z", "z/BUILD"], cwd=folder), ended(tester, "check", [("z/BUILD", b"x\n")], said))
    included = walked(folder, is_taken=lambda name: TAKEN.fullmatch(name) or name == "build" or name.endswith(".txt"))
    found = tester.run(["--check", "--include", "*.txt", "--include=build", "."], cwd=folder)
    tester.compare("--include of a tree", found, ended(tester, "check", included))
    named = [
        (["b"], [("b/" + name, text) for name, text in walked(folder / "b")]),
        (["b/"], [("b/" + name, text) for name, text in walked(folder / "b")]),
        (["./b"], [("./b/" + name, text) for name, text in walked(folder / "b")]),
        (["./b", "--exclude", "b/d/"], [("./b/" + name, text) for name, text in walked(folder / "b", is_left_out=lambda name, path: path == "d")]),
        (["bazel-out"], [("bazel-out/" + name, text) for name, text in walked(folder / "third_party")]),
        ([".hidden", ".hidden.bzl", "notes.txt"], [(".hidden/BUILD", b"!"), (".hidden.bzl", b"!"), ("notes.txt", b"!")]),
        (["b", "a.bzl", "b"], [*[("b/" + n, t) for n, t in walked(folder / "b")], ("a.bzl", b"!"), *[("b/" + n, t) for n, t in walked(folder / "b")]]),
        (["empty"], []),
        ([str(folder)], [(f"{folder}/{name}", text) for name, text in everything]),
    ]
    for arguments, texts in named:
        tester.compare(f"{arguments} of a tree", tester.run(["--check", *arguments], cwd=folder), ended(tester, "check", texts))
    tester.compare("tokens of one file of a folder", tester.run(["z"], cwd=folder), ended(tester, "named", [("z/BUILD", b"x\n")]))
    (folder / "gone.bzl").symlink_to("nowhere")
    wanted = in_order([*everything, ("gone.bzl", MISSING)])
    tester.compare("a link that leads nowhere", tester.run(["--check", "."], cwd=folder), ended(tester, "check", wanted))
    (folder / "gone.bzl").unlink()


def list_runs(tester, folder):
    """Names in files: ended by zero bytes or by line feeds, of any bytes."""
    texts = {name.encode(): text for name, text in walked(folder)}
    wanted = ended(tester, "check", [(name.decode(), text) for name, text in texts.items()])
    for separator in (b"\0", b"\n"):
        for list_text in (separator.join(texts), separator.join(texts) + separator, separator * 2 + separator.join(texts) + separator * 3):
            tester.compare(f"a list by {separator}", tester.run(["--check", "--files-from", "-"], list_text, cwd=folder), wanted)
    globs = ["--exclude", "third_party", "--exclude=z/", "--exclude=/b/d", "--exclude", "a.s*"]
    kept = [(name.decode(), text) for name, text in texts.items() if not re.match(rb"third_party/|z/|b/d/|a\.s", name)]
    found = tester.run(["--check", *globs, "--files-from=-"], b"\0".join([*texts, b"./z"]), cwd=folder)
    tester.compare("a list with globs", found, ended(tester, "check", kept))
    (folder / "list").write_bytes(b"BUILD\0z\0a\nb\0\xff\0")
    (folder / "a\nb").write_bytes(b"!")
    named = [("notes.txt", b"!"), ("BUILD", b"x = 01\n"), ("z/BUILD", b"x\n"), ("a\nb", b"!")]
    said = "starlark_tokens: b'\\xff': the name is not UTF-8\n"
    found = tester.run(["--check", "--files-from=list", "notes.txt"], cwd=folder)
    tester.compare("a list with odd names", found, ended(tester, "check", named, said, 1))
    tester.compare("an empty list", tester.run(["--check", "--files-from", "/dev/null"]), ended(tester, "check", []))
    said = "starlark_tokens: no: No such file or directory (os error 2)\n"
    tester.compare("no list", tester.run(["--json", "--files-from", "no"], cwd=folder), ended(tester, "json", [], said, 1))
    for name in ("list", "a\nb"):
        (folder / name).unlink()


def too_long_runs(tester, folder):
    """A file that is longer than a text may be is refused before it is read: here one whose bytes aren't stored."""
    with open(folder / "long.bzl", "wb") as file:
        file.truncate(2**32)
    (folder / "x.bzl").write_bytes(b"!")
    begun = time.monotonic()
    found = tester.run(["--check", "."], cwd=folder)
    wanted = ended(tester, "check", [("long.bzl", "longer than 4294967295 bytes"), ("x.bzl", b"!")])
    tester.compare("a file that is too long", found, wanted)
    tester.compare("a file that is too long is not read", time.monotonic() - begun < 2, True)


def any_bytes_runs(tester, folder):
    """Names that aren't UTF-8 are named and counted, and all others are checked. `--exclude` leaves them out."""
    bytes_of = os.fsencode(folder)
    for name in (b"\xe9.bzl", b"\xe9.txt", b"b\xff/BUILD"):
        os.makedirs(os.path.dirname(os.path.join(bytes_of, name)), exist_ok=True)
        with open(os.path.join(bytes_of, name), "wb") as file:
            file.write(b"!")
    (folder / "x.bzl").write_bytes(b"!")
    lost = ["b'b\\xff'", "b'\\xe9.bzl'", "b'\\xe9.txt'"]
    said = "".join(f"starlark_tokens: {name}: the name is not UTF-8\n" for name in reversed(lost))
    found = tester.run(["--check", "."], cwd=folder)
    tester.compare("names of any bytes", found, ended(tester, "check", [("x.bzl", b"!")], said, 3))
    found = tester.run(["--check", "--exclude", b"*\xe9*", b"--exclude=b\xff", "."], cwd=folder)
    tester.compare("names of any bytes left out", found, ended(tester, "check", [("x.bzl", b"!")]))


def locked_runs(tester, folder):
    """Folders that can't be listed and files that can't be read, as a user who isn't root."""
    (folder / "locked").mkdir()
    (folder / "x.bzl").write_bytes(b"!")
    (folder / "y.bzl").write_bytes(b"!")
    for name in ("locked", "y.bzl"):
        (folder / name).chmod(0)
    folder.chmod(0o755)
    options = {"cwd": folder}
    if os.geteuid() == 0:
        options["user"] = 65534
    if not os.access(tester.program, os.X_OK) or any(not parent.stat().st_mode & 0o001 for parent in tester.program.parents):
        print("no other user can run the program: unreadable folders weren't tried")
        return
    denied = "Permission denied (os error 13)"
    everything = [("x.bzl", b"!"), ("y.bzl", denied)]
    for form in ("check", "github"):
        found = tester.run([*OPTIONS[form], "."], **options)
        tester.compare(f"{form} of an unreadable folder", found, ended(tester, form, everything, said_of("locked", denied), 1))
    compare_sarif(tester, "an unreadable folder", tester.run(["--format=sarif", "."], **options), everything, said_of("locked", denied), 1)


# Literals of docs/use/compatible.md: the value here and in Python; None is a fault or no single literal.
LITERALS = [
    (rb'r"\""', '"', '\\"'), (rb'"\N{BULLET}"', "\\N{BULLET}", "\u2022"), (rb'"\400"', "\u0100", "\u0100"), (rb'b"\400"', None, b"\0"),
    (rb'b"\u00e9"', "\u00e9".encode(), rb"\u00e9"), ('b"\u00e9"'.encode(), "\u00e9".encode(), None), (b'"""a\rb"""', "ab", "a\nb"),
    (b"0777", None, None), (b"00", None, 0), (b"1_000", None, 1000), (b"1j", None, 1j), (b'u"x"', None, "x"), (b'Rb"x"', None, b"x"),
    (b"'a' 'b'", None, "ab"), (rb'"\w"', "\\w", "\\w"), (rb'"\377"', "\u00ff", "\u00ff"), (b"0o17", 15, 15), (b'"a\\\nb"', "ab", "ab"),
    (b'"""a\r\nb"""', "a\nb", "a\nb"), (rb'rb"\n"', rb"\n", rb"\n"),
]
# Texts of that page that Python's tokenizer takes: whether the program does.
TOKENIZED = [
    ("\u00e9 = 1".encode(), False), (b"\xef\xbb\xbfx\n", False), (b"if x:\n\ty\n", False), (b"x\t= 1\n", False), (b"x\x0cy\n", False),
    (b"x @ y\n", False), (b"x := 1\n", True), (b'f"{x}"\n', True), (b'rf"{x}"\n', True),
]


def value_here(tester, text):
    """The value of a literal that is a whole text, in the program; None where it isn't one."""
    objects = [json.loads(line) for line in tester.run(["--json"], text).stdout.splitlines()[1:-1]]
    if [found["kind"] for found in objects[1:]] != ["Newline"] or objects[0]["kind"] == "Fault":
        return None
    value = objects[0]["value"]
    return bytes.fromhex(value) if objects[0]["kind"] == "Bytes" else value


def value_in_python(text):
    """The value of a literal in Python; None where it isn't one."""
    with warnings.catch_warnings():
        warnings.simplefilter("ignore")
        try:
            return ast.literal_eval(text.decode())
        except (SyntaxError, ValueError):
            return None


def python_runs(tester):
    """What docs/use/compatible.md says of Python."""
    for text, here, in_python in LITERALS:
        tester.compare(f"the literal {text!r}", (value_here(tester, text), value_in_python(text)), (here, in_python))
    for text, is_taken in TOKENIZED:
        tester.compare(f"the text {text!r}", tester.run(["--check", "-q"], text).status, 0 if is_taken else 1)
        kinds = [token.type for token in tokenize.tokenize(io.BytesIO(text).readline)]
        tester.compare(f"the text {text!r} in Python", tokenize.ERRORTOKEN in kinds, False)
    words = {word for word in keyword.kwlist if tester.run(["-q"], word.encode()).stdout.splitlines()[0].split(" ")[1] == "Identifier"}
    tester.compare("keywords of Python that are names", words, {"False", "None", "True"})


MANY = 10_000


def many_runs(tester, folder):
    """A folder of 10,000 files, and the time that it takes beside the same files by their names."""
    for number in range(MANY):
        inner = folder / f"d{number % 100}"
        inner.mkdir(exist_ok=True)
        (inner / f"f{number}.bzl").write_bytes((DATA / "BUILD").read_bytes() if number % 7 else b"!")
    texts = list(walked(folder))
    wanted = ended(tester, "check", [(name, text) for name, text in texts if text == b"!"])
    begun = time.monotonic()
    found = tester.run(["--check", "-q", "."], cwd=folder)
    of_folder = time.monotonic() - begun
    tester.compare("10,000 files", found, wanted._replace(stderr=""))
    begun = time.monotonic()
    found = tester.run(["--check", "-q", *[name for name, _ in texts]], cwd=folder)
    by_names = time.monotonic() - begun
    tester.compare("10,000 files by their names", found, wanted._replace(stderr=""))
    print(f"{MANY} files in a folder: {of_folder:.2f} s; by their names {by_names:.2f} s")


def git_runs(tester, folder):
    """The hook of docs/use/tokens.md reads the index, not the working tree."""
    page = (TOP / "docs/use/tokens.md").read_text()
    hook = "".join(line[4:] + "\n" for line in re.search(r"((?:    .*\n)*    #!/bin/sh\n(?:    .*\n)*)", page)[1].splitlines())
    git = ["git", "-c", "user.name=a", "-c", "user.email=a"]
    (folder / "bin").mkdir()
    (folder / "bin/starlark_tokens").symlink_to(tester.program)
    environment = {**os.environ, "PATH": f"{folder}/bin:{os.environ['PATH']}"}
    tree = folder / "tree"
    subprocess.run([*git, "init", "-q", tree], check=True)
    (tree / ".git/hooks/pre-commit").write_text(hook)
    (tree / ".git/hooks/pre-commit").chmod(0o755)
    rows = [(b"x = 01\n", b"x = 1\n", 1), (b"x = 1\n", b"x = 01\n", 0), (b"x = 2\n", None, 0), (b"!\n", b"!\n", 1)]
    for number, (staged, present, status) in enumerate(rows):
        (tree / "a b.bzl").write_bytes(staged)
        subprocess.run([*git, "add", "-A"], cwd=tree, check=True)
        if present is None:
            (tree / "a b.bzl").unlink()
        else:
            (tree / "a b.bzl").write_bytes(present)
        made = subprocess.run([*git, "commit", "-qm", "x"], cwd=tree, env=environment, capture_output=True, check=False)
        tester.compare(f"the hook, row {number}", (made.returncode, made.stderr if not status else b""), (status, b""))


SEVERAL = 400
PROGRESS = re.compile(r"(?<![^\n])((?:\r\d+ of %d files)+)\r\x1b\[K" % (SEVERAL + 2))


def fed_slowly(path, text):
    """Writes a text to a named pipe more than a second after its reader has opened it, so that the run takes that long."""
    end = time.monotonic() + 60
    while time.monotonic() < end:
        try:
            writer = os.open(path, os.O_WRONLY | os.O_NONBLOCK)
        except OSError:
            time.sleep(0.01)
            continue
        time.sleep(1.2)
        os.write(writer, text)
        os.close(writer)
        return


def at_terminal(command, folder, environment):
    """What a program writes where standard output and standard error are a terminal."""
    terminal, inner = pty.openpty()
    with subprocess.Popen(command, cwd=folder, env=environment, stdin=subprocess.DEVNULL, stdout=inner, stderr=inner) as running:
        os.close(inner)
        seen = b""
        try:
            while piece := os.read(terminal, 65536):
                seen += piece
        except OSError:
            pass
        running.wait(60)
    os.close(terminal)
    return running.returncode, seen.decode().replace("\r\n", "\n")


def progress_runs(tester, folder):
    """A run over many files that takes more than a second: at a terminal its progress is shown, and cleared before all else."""
    os.mkfifo(folder / "slow.star")
    names = [f"f{number}.star" for number in range(SEVERAL)]
    names.insert(SEVERAL // 2, "slow.star")
    texts = [(name, b"z = 01\n" if name == "slow.star" else (folder / name).read_bytes()) for name in names]
    missing = "starlark_tokens: missing.star: No such file or directory (os error 2)\n"
    wanted = ended(tester, "check", texts, missing, 1)
    said = wanted.stderr
    arguments = ["--check", *names, "missing.star"]
    for is_terminal in (False, True):
        feeder = threading.Thread(target=fed_slowly, args=(folder / "slow.star", b"z = 01\n"), daemon=True)
        feeder.start()
        if is_terminal:
            status, seen = at_terminal([tester.program, *arguments], folder, {**os.environ, "NO_COLOR": "1"})
            counts = [int(count) for shown_counts in PROGRESS.findall(seen) for count in re.findall(r"\r(\d+)", shown_counts)]
            is_shown = counts != [] and counts[0] == SEVERAL // 2 + 1 and counts == sorted(set(counts))
            tester.compare("progress at a terminal", (status, is_shown), (2, True))
            tester.compare("what a terminal shows besides", PROGRESS.sub("", seen), wanted.stdout + said)
        else:
            tester.compare("progress at no terminal", tester.run(arguments, cwd=folder), Ended(2, wanted.stdout, said))
        feeder.join(60)


PAINT = re.compile("\x1b\\[[0-9;]*m")


def painted_runs(tester, folder):
    """At a terminal the lines of faults are painted, unless NO_COLOR is set or TERM is dumb; --color decides before both. Without
    the paint they are as ever."""
    (folder / "painted.star").write_bytes(b"x = 01\n")
    environment = {**{name: value for name, value in os.environ.items() if name != "NO_COLOR"}, "TERM": "xterm"}
    wanted = ended(tester, "check", [("painted.star", b"x = 01\n")])
    paints = [({}, [], True), ({"NO_COLOR": ""}, [], True), ({"NO_COLOR": "1"}, [], False), ({"TERM": "dumb"}, [], False)]
    paints += [({}, ["--color=never"], False), ({"NO_COLOR": "1", "TERM": "dumb"}, ["--color", "always"], True)]
    for paint, option, is_painted in paints:
        _, seen = at_terminal([tester.program, "--check", *option, "painted.star"], folder, {**environment, **paint})
        shown = PAINT.sub("", seen)
        tester.compare(f"paint with {paint} and {option}", (shown, shown != seen), (wanted.stdout + wanted.stderr, is_painted))
    piped = tester.run(["--check", "--color", "always", "painted.star"], cwd=folder)
    tester.compare("paint in a pipe", (PAINT.sub("", piped.stdout), "\x1b" in piped.stdout), (wanted.stdout, True))
    _, seen = at_terminal([tester.program, "painted.star"], folder, environment)
    tester.compare("paint of tokens", PAINT.sub("", seen), seen)


def seconds(program, arguments, folder):
    """The processor time of a run of a program over the long file."""
    before = resource.getrusage(resource.RUSAGE_CHILDREN)
    with open(folder / "ten.star", "rb") as stdin:
        subprocess.run([program, *arguments], stdin=stdin, stdout=subprocess.DEVNULL, stderr=subprocess.DEVNULL, check=False)
    after = resource.getrusage(resource.RUSAGE_CHILDREN)
    return after.ru_utime + after.ru_stime - before.ru_utime - before.ru_stime


def timed_runs(tester, lexer, folder):
    """The processor time of each form over 10 MB of a file like those of build tools, beside that of starlark_lex. The least
    of some runs counts; other work on the machine may ask for more of them."""
    text = (DATA / "BUILD").read_bytes()
    (folder / "ten.star").write_bytes(text * (10_000_000 // len(text)))
    for form in ("tokens", "json", "check"):
        bases, times = [], []
        while len(times) < 3 or (min(times) > MOST_RATIO * min(bases) and len(times) < 20):
            bases.append(seconds(lexer, [], folder))
            times.append(seconds(tester.program, OPTIONS[form], folder))
        ratio = min(times) / min(bases)
        print(f"10 MB as {form}: {ratio:.2f} times starlark_lex's {min(bases):.2f} s")
        tester.compare(f"time of {form}", ratio <= MOST_RATIO, True)


def main():
    """Runs all, and says what was wrong."""
    parser = argparse.ArgumentParser()
    parser.add_argument("--count", type=int, default=300)
    parser.add_argument("--seed", type=int, default=1)
    parser.add_argument("--program", type=Path)
    parser.add_argument("--lexer", type=Path)
    parser.add_argument("--write", action="store_true")
    options = parser.parse_args()
    tester = Tester((options.program or built("starlark_tokens")).resolve())
    lexer = (options.lexer or built("starlark_lex")).resolve()
    stored_runs(tester, options.write)
    option_runs(tester)
    margin_runs(tester)
    check_runs(tester)
    told_runs(tester)
    columned_runs(tester)
    filtered_runs(tester)
    explained_faults(tester)
    bounded_runs(tester)
    python_runs(tester)
    random_runs(tester, options.count, options.seed)
    sarif_runs(tester, options.count, options.seed)
    with tempfile.TemporaryDirectory() as top:
        top = Path(top)
        top.chmod(0o755)
        for name in ("files", "tree", "bytes", "locked", "many", "git", "long"):
            (top / name).mkdir()
        file_runs(tester, top / "files")
        shell_runs(tester, top / "files")
        unwritable_runs(tester, top / "files")
        progress_runs(tester, top / "files")
        painted_runs(tester, top / "files")
        long_runs(tester, top / "files")
        folder_runs(tester, top / "tree")
        list_runs(tester, top / "tree")
        any_bytes_runs(tester, top / "bytes")
        locked_runs(tester, top / "locked")
        too_long_runs(tester, top / "long")
        git_runs(tester, top / "git")
        many_runs(tester, top / "many")
        if tester.build == "proved":
            timed_runs(tester, lexer, top / "files")
        else:
            print("10 MB: left out, since the time of an unproved build says nothing")
    print(f"{tester.runs} comparisons, {tester.wrong} of them failed")
    return 1 if tester.wrong else 0


if __name__ == "__main__":
    sys.exit(main())
