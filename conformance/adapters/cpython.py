#!/usr/bin/env python3
"""Answers requests by the module tokenize of the Python that runs it, for what Python and Starlark share.

The lines that adapt it are few: how a token of Python is written here, and spans in bytes.
"""

import ast
import io
import json
import keyword
import sys
import tokenize
import warnings

FAULT = [None, None, None]
NAMES = {"True", "False", "None"}


def kind_and_value(token):
    """The kind of a token with its value, if it has one; None where Python has it and the suite hasn't."""
    if token.type == tokenize.NAME:
        if keyword.iskeyword(token.string) and token.string not in NAMES:
            return [token.string, None]
        return ["name", token.string]
    if token.type == tokenize.OP:
        return [token.string, None]
    if token.type == tokenize.COMMENT:
        return ["comment", token.string[1:]]
    if token.type in (tokenize.NUMBER, tokenize.STRING):
        return literal(ast.literal_eval(token.string))
    layout = {tokenize.NEWLINE: "newline", tokenize.INDENT: "indent", tokenize.DEDENT: "dedent"}
    if token.type in layout:
        return [layout[token.type], None]
    if token.type in (tokenize.NL, tokenize.ENCODING, tokenize.ENDMARKER):
        return None
    raise ValueError(f"a wrong token {token.string!r}")


def literal(value):
    """The kind and the value of a literal."""
    if isinstance(value, bytes):
        return ["bytes", value.hex()]
    return [{int: "int", float: "float", complex: "complex", str: "string"}[type(value)], str(value)]


def lexed(text):
    """The answer for a text."""
    lines = io.StringIO(text, newline="").readlines()
    starts = [0]
    for line in lines:
        starts.append(starts[-1] + len(line.encode()))

    def offset(place):
        line, column = place
        return starts[line - 1] + len((lines[line - 1] if line <= len(lines) else "")[:column].encode())

    tokens = []
    try:
        for token in tokenize.generate_tokens(iter([*lines, ""]).__next__):
            found = kind_and_value(token)
            if found:
                kind, value = found
                # Python has a dedent before the content, and not at the line's start.
                span = [None, None] if kind == "dedent" else [offset(token.start), offset(token.end)]
                tokens.append([kind, *span] + ([] if value is None else [value]))
    except (SyntaxError, ValueError, tokenize.TokenError, StopIteration):
        return {"tokens": tokens, "faults": [FAULT]}
    return {"tokens": tokens, "faults": []}


def main():
    warnings.simplefilter("ignore")
    name = f"CPython {sys.version_info[0]}.{sys.version_info[1]}"
    skips = ["fstrings", "reserved", "recovering", "edits", "not_utf8"]
    print(json.dumps({"lexer": name, "skips": skips, "ignores": ["blank_lines", "layout_before_faults"]}), flush=True)
    for line in sys.stdin:
        print(json.dumps(lexed(json.loads(line)["text"])), flush=True)


if __name__ == "__main__":
    main()
