"""The faults of a text as diagnostics."""

from __future__ import annotations

from typing import Any, Dict, List, Optional

from starlark_lexer import Fault, FaultKind, Kind, KindClass

from .params import shown
from .texts import OpenText

SOURCE = "starlark-lsp"
_ERROR = 1

_OPENING = {Kind.OPENING_ROUND, Kind.OPENING_SQUARE, Kind.OPENING_CURLY, Kind.FSTRING_EXPR_START}


def _open_bracket(text: OpenText, offset: int) -> Optional[int]:
    """Where the innermost bracket begins that is open at an offset, as far as its lines have it."""
    open_brackets: List[int] = []
    begin = text.line_begin(text.line_of(offset)) or 0
    for token in text.document.tokens(begin, offset):
        if token.span[0] >= offset or token.type.kind_class != KindClass.BRACKET:
            continue
        if token.type in _OPENING:
            open_brackets.append(token.span[0])
        elif open_brackets:
            open_brackets.pop()
    return open_brackets[-1] if open_brackets else None


def _related(text: OpenText, uri: str, fault: Fault) -> List[Dict[str, Any]]:
    """The places of what a fault leaves open: a literal, and the bracket around it."""
    if fault.type not in (FaultKind.UNFINISHED_STRING_LITERAL, FaultKind.UNFINISHED_FSTRING_EXPRESSION):
        return []
    found = []
    if fault.type == FaultKind.UNFINISHED_STRING_LITERAL:
        found.append((fault.span[0], "the literal begins here"))
    bracket = _open_bracket(text, fault.span[0])
    if bracket is not None:
        found.append((bracket, "this bracket is open"))
    return [{"location": {"uri": uri, "range": _first_of(text, begin)}, "message": message} for begin, message in found]


def _first_of(text: OpenText, begin: int) -> Dict[str, Any]:
    """The range of a character of one byte."""
    return shown(text.position(begin), text.position(begin + 1))


def diagnostics(text: OpenText, uri: str, has_related: bool) -> List[Dict[str, Any]]:
    """All faults of a text."""
    found = []
    for fault in text.document.faults():
        begin, end = text.ends_of(fault)
        each: Dict[str, Any] = {
            "range": shown(begin, end),
            "severity": _ERROR,
            "code": fault.code,
            "source": SOURCE,
            "message": fault.message,
        }
        related = _related(text, uri, fault) if has_related else []
        found.append({**each, "relatedInformation": related} if related else each)
    return found
