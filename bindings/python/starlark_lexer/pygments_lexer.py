"""A lexer for Pygments, so that `pygmentize` colours Starlark by the proved lexer.

Nothing else of the package needs Pygments, or imports this module. Where the package is installed,
Pygments finds the class by itself; elsewhere by `pygmentize -x -l FILE:StarlarkLexer`.
"""

from __future__ import annotations

import re
from itertools import chain
from operator import itemgetter
from typing import Any, Iterable, Iterator, List, Sequence, Tuple

from pygments.lexer import Lexer
from pygments.token import (
    Comment,
    Error,
    Keyword,
    Name,
    Number,
    Operator,
    Punctuation,
    String,
    Text,
    Whitespace,
)

# `pygmentize -x` runs this file outside of its package, where no relative import works.
from starlark_lexer.kinds import FaultKind, Kind, KindClass
from starlark_lexer.library import Columns, lex_columns
from starlark_lexer.tokens import Fault

__all__ = ["StarlarkLexer"]

# One of the types of `pygments.token`.
TokenType = Any

# Where a part of the text begins and ends, the number of its kind, and that of the next part.
Part = Tuple[int, int, int, int]

# A fault's number among the kinds.
_FAULT = 0

# How many tokens are taken from the columns at once.
_AT_ONCE = 4096

# The types of classes; None where the text tells it.
_CLASSES = {
    KindClass.COMMENT: Comment.Single,
    KindClass.LAYOUT: Whitespace,
    KindClass.NAME: None,
    KindClass.NUMBER: None,
    KindClass.STRING: String,
    KindClass.KEYWORD: Keyword,
    KindClass.OPERATOR: Operator,
    KindClass.PUNCTUATION: Punctuation,
    KindClass.BRACKET: Punctuation,
}

# The types of kinds that have another one than their class.
_KINDS = {
    Kind.FLOAT: Number.Float,
    **dict.fromkeys([Kind.FSTRING_EXPR_START, Kind.FSTRING_EXPR_END, Kind.FSTRING_BANG], String.Interpol),
    **dict.fromkeys([Kind.AND, Kind.IN, Kind.NOT, Kind.OR], Operator.Word),
    Kind.LOAD: Keyword.Namespace,
}

# The types of all kinds by number.
_TYPES: List[TokenType] = [Error, *(_KINDS.get(kind, _CLASSES[kind.kind_class]) for kind in Kind)]

# Members of `Kind` as plain numbers, which compare faster.
_NAME, _DEF, _DOT, _EQUAL, _BANG = map(
    int, (Kind.IDENTIFIER, Kind.DEF, Kind.DOT, Kind.EQUAL, Kind.FSTRING_BANG)
)

_BUILTIN = Name.Builtin

_BASES = {"x": Number.Hex, "o": Number.Oct, "b": Number.Bin}

# The names with a type of their own: constants, and the functions that each file has.
_NAMES = {
    **dict.fromkeys(["False", "None", "True"], Keyword.Constant),
    **dict.fromkeys(
        "abs all any bool bytes dict dir enumerate fail float getattr hasattr hash int len list max "
        "min print range repr reversed set sorted str tuple type zip".split(),
        _BUILTIN,
    ),
}

# A line end, and the lines of comments up to an indentation.
_BEFORE_INDENTATION = re.compile(r"(?:\r?\n)?(?:[ \t]*#[^\n]*\n)*")


def _word_type(text: str, kind: int, before: int, after: int) -> TokenType:
    """The type of a name or an integer between parts of two kinds."""
    if kind != _NAME:
        return _BASES.get(text[1:2].lower(), Number.Integer)
    if before == _DEF:
        return Name.Function
    if before == _BANG:
        return String.Interpol
    found = _NAMES.get(text, Name)
    if found is _BUILTIN and (before == _DOT or after == _EQUAL):
        return Name
    return found


def _fault_part(text: str, fault: Fault) -> Part:
    """The part of a fault. That of a tab has no characters, and gets the tab."""
    begin, end = fault.span
    if fault.type == FaultKind.INVALID_TAB:
        if text[begin : begin + 1] != "\t":
            before = _BEFORE_INDENTATION.match(text, begin)
            begin = text.find("\t", before.end() if before else begin)
        end = begin + 1
    return begin, end, _FAULT, _FAULT


def _token_parts(columns: Columns) -> Iterator[Part]:
    """The parts of the tokens, made a few thousand at a time."""
    begins, ends = columns.begin, columns.end

    def some(first: int) -> Iterator[Part]:
        last = first + _AT_ONCE
        kinds = columns.kind[first : last + 1].tolist()
        return zip(begins[first:last].tolist(), ends[first:last].tolist(), kinds, [*kinds[1:], _FAULT])

    return chain.from_iterable(map(some, range(0, len(columns), _AT_ONCE)))


def _around(parts: Iterable[Part], faults: Sequence[Part]) -> Iterator[Part]:
    """The parts of tokens, without the characters of the fault that one stands for."""
    number = 0
    for begin, end, kind, after in parts:
        while number < len(faults) and faults[number][1] <= begin:
            number += 1
        if number < len(faults) and begin <= faults[number][0] and faults[number][1] <= end:
            yield begin, faults[number][0], kind, after
            yield faults[number][1], end, kind, after
        else:
            yield begin, end, kind, after


def _parts(text: str, columns: Columns) -> Iterable[Part]:
    """The parts of the tokens and faults of a text, in order of their begins."""
    parts = _token_parts(columns)
    if not columns.faults:
        return parts
    faults = [_fault_part(text, fault) for fault in columns.faults]
    return sorted([*faults, *_around(parts, faults)], key=itemgetter(0))


def _gap_type(gap: str) -> TokenType:
    """The type of what is between two parts: blanks, or what lexing skips after a fault."""
    return Whitespace if gap.isspace() and gap.isascii() else Text


class StarlarkLexer(Lexer):
    """The proved lexer of Starlark for Pygments. Each fault is an `Error`; it goes on after it."""

    name = "Starlark"
    url = "https://github.com/bazelbuild/starlark"
    # Pygments has `starlark` and `bazel` for its lexer of Python, and would not look for them here.
    aliases = ["starlark-proved"]
    filenames = [
        "BUCK",
        "BUILD",
        "BUILD.bazel",
        "MODULE.bazel",
        "WORKSPACE",
        "WORKSPACE.bazel",
        "*.bzl",
        "*.star",
    ]
    mimetypes = ["text/x-starlark"]

    def analyse_text(text: str) -> float:  # type: ignore[misc]
        """The rating that Pygments' lexer of Python gives a text.

        That lexer claims most of these file names. Of equal ratings Pygments takes the class whose
        name is last, this one, for a file of such a name. A text without a name stays Python's.
        """
        from pygments.lexers.python import PythonLexer

        return PythonLexer.analyse_text(text)  # type: ignore[no-any-return]

    def get_tokens_unprocessed(self, text: str) -> Iterator[Tuple[int, TokenType, str]]:
        """The parts of a text in order, without gaps: offset in characters, type, and characters.

        A text of more than 4294967295 bytes in UTF-8 raises `ValueError`.
        """
        # A lone surrogate has no UTF-8. It is lexed as `?`, which is one character as well.
        source = text if text.isascii() else text.encode(errors="replace").decode()
        at = before = 0
        for begin, end, kind, after in _parts(source, lex_columns(source, recover=True)):
            if begin >= at and (begin < end or kind == _FAULT):
                if begin > at:
                    gap = text[at:begin]
                    yield at, _gap_type(gap), gap
                word = text[begin:end]
                yield begin, _TYPES[kind] or _word_type(word, kind, before, after), word
                at = end
            before = kind
        if at < len(text):
            yield at, _gap_type(text[at:]), text[at:]
