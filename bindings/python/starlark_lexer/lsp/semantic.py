"""Semantic tokens: all, those of a range, or what differs from those that were sent last."""

from __future__ import annotations

from typing import Iterable, Iterator, NamedTuple, Optional, Tuple

from starlark_lexer import Change, Kind, KindClass
from starlark_lexer.library import semantic_tokens

from .messages import Json
from .texts import OpenText

TYPES = ["comment", "keyword", "variable", "number", "string", "operator"]

_TYPES_OF_CLASSES = {
    KindClass.COMMENT: "comment",
    KindClass.KEYWORD: "keyword",
    KindClass.NAME: "variable",
    KindClass.NUMBER: "number",
    KindClass.STRING: "string",
    KindClass.OPERATOR: "operator",
    KindClass.PUNCTUATION: "operator",
    KindClass.BRACKET: "operator",
}

_NO_TYPE = 255

# How far around an edit tokens are counted again at the next one, in bytes.
NEAR = 16384


def _type_of(kind: Kind) -> int:
    """The number of a kind's type; layout has none."""
    name = _TYPES_OF_CLASSES.get(kind.kind_class)
    return _NO_TYPE if name is None else TYPES.index(name)


_TYPES_OF_KINDS = bytes([_NO_TYPE, *(_type_of(kind) for kind in Kind)])


def tokens_of_range(text: OpenText, begin: int, end: int) -> Json:
    """The tokens on the lines of a range of offsets."""
    touching = text.document.tokens(begin, begin)
    first = min([begin, *(token.span[0] for token in touching)])
    line = text.line_of(first)
    from_ = text.line_begin(line) or 0
    after = text.line_begin(text.line_of(end) + 1)
    to = len(text) if after is None else after
    _, numbers, _, _ = semantic_tokens(text.document, _TYPES_OF_KINDS, text.unit, line, from_, from_, to, to)
    return Json(b'{"data":[' + numbers + b"]}")


class Stretch(NamedTuple):
    """A part of the text around an edit, with how many tokens begin before it and after it."""

    line: int
    begin: int
    end: int
    before: int
    after: int


class SentTokens:
    """What the client knows of the tokens of a text: which result it has, and what has changed since.

    The numbers of results come from outside, so that two texts have no result of one number.
    """

    def __init__(self, results: Iterator[int]) -> None:
        self._results = results
        self._result: Optional[int] = None
        self._count = 0
        # Where the text differs from that of the result, by its offsets today; None where nowhere.
        self._changed: Optional[Tuple[int, int]] = None
        # Where no change was outside of since its tokens were counted.
        self._stretch: Optional[Stretch] = None

    def take(self, changes: Iterable[Change]) -> None:
        """Takes note of changes of the text."""
        for change in changes:
            begin, end = self._changed or (change.begin, change.old_end)
            moved = change.new_end - change.old_end
            self._changed = min(begin, change.begin), max(end, change.old_end) + moved
            near = self._stretch
            if near is not None:
                is_inside = near.begin <= change.begin and change.old_end <= near.end
                self._stretch = near._replace(end=near.end + moved) if is_inside else None

    def _send(self, count: int, name: bytes, data: bytes) -> Json:
        """A new result, after which nothing has changed."""
        self._result, self._count, self._changed = next(self._results), count, None
        return Json(b'{"resultId":"%d","%s":[%s]}' % (self._result, name, data))

    def all(self, text: OpenText) -> Json:
        """All tokens."""
        end = len(text)
        _, numbers, count, _ = semantic_tokens(text.document, _TYPES_OF_KINDS, text.unit, 0, 0, 0, end, end)
        return self._send(count, b"data", numbers)

    def changed(self, text: OpenText, known: object) -> Json:
        """What differs from the result that the client knows; all tokens where that isn't the last one."""
        if known != str(self._result):
            return self.all(text)
        if self._changed is None:
            return self._send(self._count, b"edits", b"")
        before, numbers, inside, after = self._around(text, *self._changed)
        deleted = self._count - before - after
        edit = b'{"start":%d,"deleteCount":%d,"data":[%s]}' % (5 * before, 5 * deleted, numbers)
        return self._send(before + inside + after, b"edits", edit)

    def _around(self, text: OpenText, begin: int, end: int) -> Tuple[int, bytes, int, int]:
        """The tokens that touch a range and the one after it, and how many are before and after them."""
        near = self._stretch
        if near is not None:
            before, numbers, inside, after = self._within(text, near, begin, end)
            # The first token counts from the one before it, and the range has to have the one after it.
            if before > 0 and after > 0:
                return near.before + before, numbers, inside, near.after + after
        found = self._within(text, Stretch(0, 0, len(text), 0, 0), begin, end)
        line, last = text.line_of(max(begin - NEAR, 0)), text.line_of(min(end + NEAR, len(text)))
        near = Stretch(line, text.line_begin(line) or 0, text.line_begin(last) or 0, 0, 0)
        self._stretch = None
        if near.end > end:
            before, _, _, after = self._within(text, near, begin, end)
            self._stretch = near._replace(before=found[0] - before, after=found[3] - after)
        return found

    @staticmethod
    def _within(text: OpenText, near: Stretch, begin: int, end: int) -> Tuple[int, bytes, int, int]:
        """What of a part of the text touches a range, and how many tokens of it are before and after."""
        return semantic_tokens(
            text.document, _TYPES_OF_KINDS, text.unit, near.line, near.begin, begin, end, near.end
        )
