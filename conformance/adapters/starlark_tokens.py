#!/usr/bin/env python3
"""Answers requests by one run of the program starlark_tokens, which lexes on after faults.

    starlark_tokens.py PROGRAM [ROWS]

ROWS is the program starlark_rows of the repository; without it edits aren't asked for.
"""

import base64
import json
import re
import subprocess
import sys
import tempfile
from pathlib import Path

SYMBOLS = dict(zip(
    "Comma Semicolon Colon PlusEqual MinusEqual StarEqual SlashEqual SlashSlashEqual PercentEqual EqualEqual BangEqual "
    "LessEqual GreaterEqual StarStar MinusGreater Equal LessThan GreaterThan Minus Plus Star Percent Slash SlashSlash "
    "Dot Ampersand Pipe Caret LessLess GreaterGreater Tilde AmpersandEqual PipeEqual CaretEqual LessLessEqual "
    "GreaterGreaterEqual Ellipsis OpeningSquare OpeningCurly OpeningRound ClosingSquare ClosingCurly ClosingRound".split(),
    ", ; : += -= *= /= //= %= == != <= >= ** -> = < > - + * % / // . & | ^ << >> ~ &= |= ^= <<= >>= ... [ { ( ] } )".split(),
))
WORDS = {
    **SYMBOLS, "Identifier": "name", "FStringStart": "fstring_start", "FStringText": "fstring_text",
    "FStringExprStart": "fstring_expression_start", "FStringBang": "fstring_bang",
    "FStringExprEnd": "fstring_expression_end", "FStringEnd": "fstring_end",
}
CODES = {
    "SL001": "indentation", "SL002": "invalid_input", "SL003": "invalid_tab", "SL004": "unfinished_string",
    "SL005": "invalid_escape", "SL006": "empty_escape", "SL007": "reserved_word", "SL008": "leading_zero",
    "SL009": "unfinished_fstring_expression",
}
QUOTES = {"Single": "'", "Double": '"', "TripleSingle": "'''", "TripleDouble": '"""'}


def token_of(item):
    """A token of a report as one of the suite."""
    kind, value = item["kind"], item["value"]
    token = [WORDS.get(kind, kind.lower()), item["begin"], item["end"]]
    if value is None:
        return token
    if kind == "Int":
        value = str(int(str(value), 0))
    return token + [QUOTES[value] if kind == "FStringStart" else value]


def answer_of(items, is_recovering):
    """The answer by the tokens and faults of a report; without recovering up to the first fault."""
    if items is None:
        return {"tokens": None, "faults": [["not_utf8", None, None]]}
    tokens, faults = [], []
    for item in items:
        if item["kind"] == "Fault":
            faults.append([CODES[item["code"]], item["begin"], item["end"]])
            if not is_recovering:
                break
        else:
            tokens.append(token_of(item))
    return {"tokens": tokens, "faults": faults}


def reports(program, texts):
    """The items of each text's report; None for a text that isn't UTF-8."""
    with tempfile.TemporaryDirectory() as folder:
        paths = [Path(folder, f"{number:06}.bzl") for number in range(len(texts))]
        for path, text in zip(paths, texts):
            path.write_bytes(text)
        names = b"".join(bytes(path) + b"\0" for path in paths)
        command = [program, "--json", "--quiet", "--files-from", "-"]
        ran = subprocess.run(command, input=names, stdout=subprocess.PIPE, stderr=subprocess.PIPE)
        found = {str(path): [] for path in paths}
        for line in ran.stdout.split(b"\n"):
            item = json.loads(line or b"{}")
            if "begin" in item:
                found[item["file"]].append(item)
        refused = set(re.findall(r"(?m)^(.*):\d+:\d+: error: not UTF-8", ran.stderr.decode()))
        return [None if name in refused else items for name, items in found.items()]


def check_edits(rows, requests):
    """Fails where a document with the edits of a request hasn't the lexemes that lexing its new text finds."""
    commands, count = b"", 0
    for request in requests:
        before = request["text"].encode()
        commands += b"new 1 %d\n%s\n" % (len(before), before)
        for begin, end, new in request["edits"]:
            commands += b"edit %d %d %d\n%s\n" % (begin, end, len(new.encode()), new.encode())
        count += 1 + len(request["edits"])
    stored = b"part documents %d\n%s" % (len(commands), commands)
    ran = subprocess.run([rows], input=stored, stdout=subprocess.PIPE, check=True)
    if len(re.findall(rb"(?m)\bsame$", ran.stdout)) != count:
        raise ValueError("an edit gives other lexemes than lexing its text")


def text_of(request):
    """The text of a request after its edits."""
    text = request["text"].encode() if "text" in request else base64.b64decode(request["base64"])
    for begin, end, new in request.get("edits", []):
        text = text[:begin] + new.encode() + text[end:]
    return text


def main():
    program, rows = sys.argv[1], sys.argv[2] if len(sys.argv) > 2 else None
    print(json.dumps({"lexer": "starlark_tokens", "skips": [] if rows else ["edits"]}), flush=True)
    requests = [json.loads(line) for line in sys.stdin]
    edited = [request for request in requests if "edits" in request]
    if rows and edited:
        check_edits(rows, edited)
    for request, items in zip(requests, reports(program, [text_of(request) for request in requests])):
        print(json.dumps(answer_of(items, request.get("recovering", False))))


if __name__ == "__main__":
    main()
