"""Brackets, blocks, comments and docstrings of a text, by its tokens alone."""

from __future__ import annotations

import re
from bisect import bisect_right
from typing import Any, Dict, Iterator, List, NamedTuple, Optional, Tuple

from starlark_lexer import Kind, lex_columns

from .params import Position, shown
from .texts import OpenText

# The kind of a highlight that neither reads nor writes.
_TEXT = 1

_LINE_END = re.compile(rb"\r\n?|\n")

_CLOSING = {
    Kind.CLOSING_ROUND: Kind.OPENING_ROUND,
    Kind.CLOSING_SQUARE: Kind.OPENING_SQUARE,
    Kind.CLOSING_CURLY: Kind.OPENING_CURLY,
    Kind.FSTRING_EXPR_END: Kind.FSTRING_EXPR_START,
}


def _any_of(*kinds: Kind) -> bytes:
    """A pattern for one of some kinds, each of which is a byte."""
    return b"[" + b"".join(re.escape(bytes([kind])) for kind in kinds) + b"]"


_BRACKET = re.compile(_any_of(*_CLOSING.keys(), *_CLOSING.values()))
_BLOCK = re.compile(_any_of(Kind.INDENT, Kind.DEDENT))
_COMMENTS = re.compile(_any_of(Kind.COMMENT) + b"+")
_NEWLINE = bytes([Kind.NEWLINE])
_BEFORE_STATEMENT = _any_of(Kind.NEWLINE, Kind.INDENT, Kind.COMMENT)
_DOCSTRING = re.compile(b"(?:^|(?<=%b))%b(?=%b)" % (_BEFORE_STATEMENT, _any_of(Kind.STRING), _any_of(Kind.NEWLINE)))
_BETWEEN = bytes([Kind.NEWLINE, Kind.INDENT, Kind.DEDENT, Kind.COMMENT])


class Span(NamedTuple):
    """Two offsets."""

    begin: int
    end: int

    def has(self, offset: int) -> bool:
        """Whether an offset is in the span, or at one of its ends."""
        return self.begin <= offset <= self.end


class Structure:
    """The tokens of a text, and what they enclose."""

    def __init__(self, text: OpenText) -> None:
        self._text = text
        self._source = text.document.text().encode()
        columns = lex_columns(self._source, recover=True)
        self._kinds = columns.kind.tobytes()
        self._begins, self._ends = columns.begin, columns.end
        self._lines: List[int] = []

    def _line(self, offset: int) -> int:
        """The line of an offset."""
        if not self._lines:
            self._lines = [0, *(match.end() for match in _LINE_END.finditer(self._source))]
        return bisect_right(self._lines, offset) - 1

    def _pairs(self) -> Iterator[Tuple[int, int]]:
        """The tokens of brackets that match, in order of the closing ones.

        A newline is no token in brackets. One that is still open there is before a fault, after which
        lexing began again.
        """
        open_brackets: List[int] = []
        before = 0
        for match in _BRACKET.finditer(self._kinds):
            at = match.start()
            if open_brackets and self._kinds.find(_NEWLINE, before, at) >= 0:
                open_brackets.clear()
            before = at
            opening = _CLOSING.get(self._kinds[at])  # type: ignore[call-overload]
            if opening is None:
                open_brackets.append(at)
            elif open_brackets and self._kinds[open_brackets[-1]] == opening:
                yield open_brackets.pop(), at

    def _blocks(self) -> Iterator[Tuple[int, int]]:
        """The first and the last token of each block, in order of their ends."""
        open_blocks: List[int] = []
        for match in _BLOCK.finditer(self._kinds):
            if self._kinds[match.start()] == Kind.INDENT:
                open_blocks.append(match.start())
            elif open_blocks:
                last = match.start() - 1
                while last > open_blocks[-1] and self._kinds[last] in _BETWEEN:
                    last -= 1
                yield open_blocks.pop(), last

    def _header(self, indent: int) -> int:
        """The last token of the line that begins a block, before its newline."""
        return max(self._kinds.rfind(_NEWLINE, 0, indent) - 1, 0)

    def _comments(self) -> Iterator[Tuple[int, int]]:
        """The first and the last line of each group of comments on lines of their own."""
        for match in _COMMENTS.finditer(self._kinds):
            first = last = self._line(self._begins[match.start()])
            for at in range(match.start() + 1, match.end()):
                line = self._line(self._begins[at])
                if line > last + 1:
                    yield first, last
                    first = line
                last = line
            yield first, last

    def folds(self) -> List[Dict[str, Any]]:
        """What can be folded, by lines. The line of a closing bracket stays."""
        line, begins, ends = self._line, self._begins, self._ends
        found = [(line(begins[first]), line(begins[last]) - 1, "") for first, last in self._pairs()]
        found += [(line(begins[self._header(first)]), line(ends[last]), "") for first, last in self._blocks()]
        found += [(first, last, "comment") for first, last in self._comments()]
        for match in _DOCSTRING.finditer(self._kinds):
            found.append((line(begins[match.start()]), line(ends[match.start()]), "comment"))
        return [_fold(*each) for each in sorted(set(found)) if each[0] < each[1]]

    def _statement(self, offset: int) -> Optional[Span]:
        """The logical line at an offset: from after a newline to before the next one."""
        token = bisect_right(self._begins, offset) - 1
        if token < 0:
            return None
        first = self._kinds.rfind(_NEWLINE, 0, token) + 1
        while first < token and self._kinds[first] in _BETWEEN:
            first += 1
        last = self._kinds.find(_NEWLINE, token)
        last = len(self._kinds) - 1 if last < 0 else max(last - 1, first)
        return Span(self._begins[first], self._ends[last])

    def _enclosing(self, offset: int) -> List[Span]:
        """All that encloses an offset, and the text."""
        found = [Span(0, len(self._source))]
        token = bisect_right(self._begins, offset) - 1
        if token >= 0:
            found.append(Span(self._begins[token], self._ends[token]))
        for first, last in self._pairs():
            if self._begins[first] <= offset <= self._ends[last]:
                found.append(Span(self._begins[first], self._ends[last]))
                found.append(Span(self._ends[first], self._begins[last]))
        for first, last in self._blocks():
            header = self._statement(self._begins[self._header(first)])
            found.append(Span(self._ends[first], self._ends[last]))
            if header is not None:
                found.append(Span(header.begin, self._ends[last]))
        statement = self._statement(offset)
        return [span for span in (*found, *([statement] if statement else [])) if span.has(offset)]

    def selection(self, at: Position) -> Dict[str, Any]:
        """The ranges around a position, each in its parent."""
        made: Optional[Dict[str, Any]] = None
        outer: Optional[Span] = None
        for span in sorted(set(self._enclosing(self._text.offset(at))), key=lambda each: each.begin - each.end):
            if outer is None or (outer.begin <= span.begin and span.end <= outer.end):
                made = {"range": self._shown(span), **({"parent": made} if made else {})}
                outer = span
        assert made is not None
        return made

    def _shown(self, span: Span) -> Dict[str, Any]:
        """A span as the protocol has ranges."""
        return shown(self._text.position(span.begin), self._text.position(span.end))

    def brackets(self, offset: int) -> List[Dict[str, Any]]:
        """The bracket at an offset, or else just before it, and its partner."""
        after: List[Tuple[int, int]] = []
        before: List[Tuple[int, int]] = []
        for pair in self._pairs():
            if any(self._begins[token] == offset for token in pair):
                after.append(pair)
            elif any(self._ends[token] == offset for token in pair):
                before.append(pair)
        found = (after or before)[:1]
        spans = (Span(self._begins[token], self._ends[token]) for pair in found for token in pair)
        return [{"range": self._shown(span), "kind": _TEXT} for span in spans]


def _fold(first: int, last: int, kind: str) -> Dict[str, Any]:
    """A range of lines that can be folded."""
    return {"startLine": first, "endLine": last, **({"kind": kind} if kind else {})}
