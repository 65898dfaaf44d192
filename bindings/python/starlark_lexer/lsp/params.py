"""What the client sends, with its types tested."""

from __future__ import annotations

from typing import Any, Dict, List, NamedTuple, Optional, Tuple

from .messages import INVALID_PARAMS, ProtocolError

# The most that the protocol counts to.
_MOST = 2**31 - 1


class Position(NamedTuple):
    """A line and a column, from 0, in units of the encoding that client and server have agreed on."""

    line: int
    character: int


Range = Tuple[Position, Position]


class Edit(NamedTuple):
    """A change of a text: of a range, or of all of it."""

    span: Optional[Range]
    text: str


def _wrong(name: str) -> ProtocolError:
    return ProtocolError(INVALID_PARAMS, f"`{name}` isn't what the protocol says")


def child(params: Any, *names: str) -> Any:
    """What an object has at a path of names; None where it has nothing there."""
    for name in names:
        params = params.get(name) if isinstance(params, dict) else None
    return params


def string(params: Any, *names: str) -> str:
    """A string at a path. ProtocolError where there is none."""
    found = child(params, *names)
    if not isinstance(found, str):
        raise _wrong(".".join(names))
    return found


def uri_of(params: Any) -> str:
    """The URI of the document that a message is about."""
    return string(params, "textDocument", "uri")


def version_of(params: Any) -> Optional[int]:
    """The version of the document that a message is about, if it says one."""
    found = child(params, "textDocument", "version")
    return found if isinstance(found, int) else None


def _number(params: Any, name: str) -> int:
    found = child(params, name)
    if not isinstance(found, int) or isinstance(found, bool) or found < 0:
        raise _wrong(name)
    return min(found, _MOST)


def position(params: Any) -> Position:
    """A position."""
    return Position(_number(params, "line"), _number(params, "character"))


def span(params: Any) -> Range:
    """A range. One whose ends are out of order is taken as if they were in order."""
    begin, end = position(child(params, "start")), position(child(params, "end"))
    return min(begin, end), max(begin, end)


def positions(params: Any) -> List[Position]:
    """The positions of a request."""
    found = child(params, "positions")
    if not isinstance(found, list):
        raise _wrong("positions")
    return [position(each) for each in found]


def edits(params: Any) -> List[Edit]:
    """The changes of a notification, all tested before the first one is made."""
    found = child(params, "contentChanges")
    if not isinstance(found, list):
        raise _wrong("contentChanges")
    return [
        Edit(None if child(each, "range") is None else span(each["range"]), string(each, "text")) for each in found
    ]


def shown(begin: Position, end: Position) -> Dict[str, Any]:
    """A range as the protocol has it."""
    return {"start": begin._asdict(), "end": end._asdict()}
