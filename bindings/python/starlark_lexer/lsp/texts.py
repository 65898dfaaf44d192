"""Texts that clients edit, with positions as they count them.

A client's line ends at LF, CR LF or CR, the lexer's at LF. So the places of CR without LF are kept:
there are none in most texts. A client's text has units of UTF-16, and may have one half of a pair. The
lexer's is UTF-8, and has U+FFFD for each half: that is one unit, too, so that all positions are those
of the client.
"""

from __future__ import annotations

import re
from bisect import bisect_left, bisect_right
from enum import IntEnum
from typing import List, Optional, Tuple

from starlark_lexer import Change, Document, Fault

from .params import Edit, Position, Range

_HALF = re.compile("[\ud800-\udfff]")
_LONE_CR = re.compile(rb"\r(?!\n)")
_SPLIT = "\ufffd\ufffd"


class Unit(IntEnum):
    """What columns count: units of so many bits."""

    UTF8 = 8
    UTF16 = 16
    UTF32 = 32


def utf8(text: str) -> bytes:
    """A text of a client in UTF-8."""
    return text.encode() if text.isascii() else _HALF.sub("\ufffd", text).encode()


def units(text: str, unit: Unit) -> int:
    """The length of a text."""
    if unit == Unit.UTF32 or text.isascii():
        return len(text)
    return len(text.encode()) if unit == Unit.UTF8 else len(text.encode("utf-16-le")) // 2


def front(line: str, column: int, unit: Unit) -> Tuple[str, bool]:
    """The characters of a line before a column, and whether the column is inside of a pair of UTF-16.

    A column past the end is the end, one inside of a character is where that begins.
    """
    if unit == Unit.UTF32 or line.isascii():
        return line[:column], False
    encoding = "utf-8" if unit == Unit.UTF8 else "utf-16-le"
    encoded = line.encode(encoding)[: column * unit // 8]
    found = encoded.decode(encoding, "ignore")
    return found, unit == Unit.UTF16 and len(found.encode(encoding)) < len(encoded)


class OpenText:
    """A text that stays lexed. Offsets are bytes of its UTF-8."""

    def __init__(self, text: str, unit: Unit) -> None:
        source = utf8(text)
        self.unit = unit
        self.document = Document(source)
        self._has_cr = b"\r" in source
        # The offset of each lone CR, and how many LF are before it.
        self._returns: List[int] = []
        self._feeds: List[int] = []
        if self._has_cr:
            self._returns, self._feeds = _lone_returns(source, 0, 0)

    def __len__(self) -> int:
        return len(self.document)

    def line_begin(self, line: int) -> Optional[int]:
        """Where a line begins; None where the text has fewer."""
        if not self._returns:
            return self.document.offset_at_utf16(line, 0)
        # The lone CRs that end a line before this one: each begins line `feeds + number + 1`.
        low, high = 0, len(self._returns)
        while low < high:
            middle = (low + high) // 2
            if self._feeds[middle] + middle + 1 <= line:
                low = middle + 1
            else:
                high = middle
        if low > 0 and self._feeds[low - 1] + low == line:
            return self._returns[low - 1] + 1
        return self.document.offset_at_utf16(line - low, 0)

    def line(self, line: int) -> Optional[Tuple[int, str]]:
        """Where a line begins, and its characters without the line end."""
        begin = self.line_begin(line)
        if begin is None:
            return None
        after = self.line_begin(line + 1)
        text = self.document.text(begin, after)
        if after is not None:
            text = text[: -2 if text.endswith("\r\n") else -1]
        return begin, text

    def offset(self, at: Position) -> int:
        """The offset of a position. A line past the end is the text's end, a column that of its line."""
        return self._offset(at)[0]

    def _offset(self, at: Position) -> Tuple[int, bool]:
        """The offset, and whether the position is inside of the pair of UTF-16 after it."""
        found = self.line(at.line)
        if found is None:
            return len(self.document), False
        begin, line = found
        before, is_inside = front(line, at.character, self.unit)
        return begin + (len(before) if before.isascii() else len(before.encode())), is_inside

    def position(self, offset: int) -> Position:
        """The position of an offset. One between CR and LF is the end of the line."""
        place = self.document.place(offset)
        assert place is not None
        line, _, column = place
        if self.unit == Unit.UTF16 and not self._has_cr:
            return Position(line, column)
        before = bisect_left(self._returns, offset)
        begin = self.document.offset_at_utf16(line, 0) or 0
        if before > 0:
            begin = max(begin, self._returns[before - 1] + 1)
        text = self.document.text(begin, offset)
        return Position(line + before, units(text[:-1] if text.endswith("\r") else text, self.unit))

    def ends_of(self, fault: Fault) -> Tuple[Position, Position]:
        """The positions of a fault, by the line that it has where the client's lines are the lexer's.

        In a long literal or bracket each place that is asked for costs as much as its text.
        """
        if self._returns:
            return self.position(fault.span[0]), self.position(fault.span[1])
        line = fault.line[: -len("\r\n") if fault.line.endswith("\r\n") else len(fault.line.rstrip("\n"))]
        begin, end = (Position(row - 1, units(line[:column], self.unit)) for row, column in (fault.start, fault.end))
        return begin, end if begin.line == end.line else self.position(fault.span[1])

    def line_of(self, offset: int) -> int:
        """The line of an offset, which may be inside of a character."""
        while (place := self.document.place(offset)) is None:
            offset -= 1
        return place[0] + bisect_left(self._returns, offset)

    def change(self, edit: Edit) -> List[Change]:
        """Makes a change of the client, and returns those that it makes in the document."""
        if edit.span is None:
            return [self._replace(0, len(self.document), edit.text)]
        made = [change for at in edit.span for change in self._split(at)]
        begin, end = self._offsets(edit.span)
        return [*made, self._replace(begin, end, edit.text)]

    def _offsets(self, span: Range) -> Tuple[int, int]:
        """The offsets of a range, none of which is inside of a pair."""
        return self.offset(span[0]), self.offset(span[1])

    def _split(self, at: Position) -> List[Change]:
        """Takes a character apart inside of which a position is: the client's has two halves then."""
        offset, is_inside = self._offset(at)
        return [self._replace(offset, offset + 4, _SPLIT)] if is_inside else []

    def _replace(self, begin: int, end: int, text: str) -> Change:
        """Replaces a range of the document by a text."""
        source = utf8(text)
        feeds = 0
        if self._returns:
            feeds = self._feeds_before(end) - self._feeds_before(begin)
        change = self.document.edit(begin, end, source)
        self._has_cr = self._has_cr or b"\r" in source
        if self._has_cr:
            self._replace_returns(begin, end, source, source.count(b"\n") - feeds)
        return change

    def _feeds_before(self, offset: int) -> int:
        """How many LF are before an offset."""
        place = self.document.place(offset)
        assert place is not None
        return place[0]

    def _byte(self, offset: int) -> bytes:
        """The byte at an offset; none outside of the text, and for a character of several."""
        try:
            return self.document.text(offset, offset + 1).encode()
        except IndexError:
            return b""

    def has_bracket(self, offset: int) -> bool:
        """Whether a bracket is at an offset, or just before it."""
        around = (self._byte(offset - 1) if offset > 0 else b"") + self._byte(offset)
        return any(byte in b"()[]{}" for byte in around)

    def _replace_returns(self, begin: int, end: int, source: bytes, more_feeds: int) -> None:
        """Finds the lone CRs anew around an edit: that before it, those in it, none after it."""
        before = self._byte(begin - 1) if begin > 0 else b""
        first = begin - 1 if before == b"\r" else begin
        around = (b"\r" if first < begin else b"") + source + self._byte(begin + len(source))
        found, feeds = _lone_returns(around, first, self._feeds_before(first))
        if found and found[-1] >= begin + len(source):
            found, feeds = found[:-1], feeds[:-1]
        low, high = bisect_left(self._returns, first), bisect_left(self._returns, end)
        moved = len(source) - (end - begin)
        self._returns[low:] = [*found, *(at + moved for at in self._returns[high:])]
        self._feeds[low:] = [*feeds, *(count + more_feeds for count in self._feeds[high:])]


def _lone_returns(source: bytes, begin: int, feeds: int) -> Tuple[List[int], List[int]]:
    """The offset of each lone CR of a text that begins at an offset, and how many LF are before it."""
    found, counts = [], []
    at = 0
    for match in _LONE_CR.finditer(source):
        feeds += source.count(b"\n", at, match.start())
        at = match.start()
        found.append(begin + at)
        counts.append(feeds)
    return found, counts
