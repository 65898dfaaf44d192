"""The types of tokens and faults."""

from __future__ import annotations

from typing import TYPE_CHECKING, Any, NamedTuple, Tuple, Type, Union

from .kinds import FaultKind, Kind, Quotes

if TYPE_CHECKING:
    from mmap import mmap

Source = Union[str, bytes, bytearray, memoryview, "mmap"]
Place = Tuple[int, int]
Value = Union[str, bytes, int, Quotes, None]

# Python reads only some thousand digits of base 10 at once.
_MOST_DIGITS = 4000


class Token(NamedTuple):
    """A token: the fields of `tokenize.TokenInfo`, and then its value and its span.

    A place is a line from 1 and a column from 0, in characters, as in `tokenize`. The line of a token
    over several lines has all of them. The span has its first offset and that after the last one, in
    characters of a `str`, else in bytes.
    """

    type: Kind
    string: str
    start: Place
    end: Place
    line: str
    value: Value
    span: Tuple[int, int]


class Fault(NamedTuple):
    """Why a text isn't Starlark's tokens, with its place, and the line that it begins on."""

    type: FaultKind
    message: str
    start: Place
    end: Place
    line: str
    span: Tuple[int, int]

    @property
    def code(self) -> str:
        """The code of the fault's kind, as `SL008`. It never changes."""
        return f"SL{int(self.type):03}"


class Change(NamedTuple):
    """What an edit of a document changed, by offsets as the document counts them.

    Before `begin` and after the ends all tokens and faults are the old ones; those after are moved by
    `new_end - old_end`. `lexed` bytes were given to the lexer, which started `starts` times, and made
    `reads` reads of bytes.
    """

    begin: int
    old_end: int
    new_end: int
    lexed: int
    starts: int
    reads: int


class StarlarkFault(ValueError):
    """A text has a fault: `fault` has it."""

    def __init__(self, fault: Fault) -> None:
        line, column = fault.start
        super().__init__(f"{line}:{column + 1}: {fault.message}")
        self.fault = fault

    def __reduce__(self) -> Tuple[Type[StarlarkFault], Tuple[Any, ...]]:
        return type(self), (self.fault,)


def integer_of_digits(digits: bytes, base: int) -> int:
    """The integer of some digits, however many."""
    if base != 10 or len(digits) <= _MOST_DIGITS:
        return int(digits, base)
    half = len(digits) // 2
    unit: int = 10**half
    return integer_of_digits(digits[:-half], base) * unit + integer_of_digits(digits[-half:], base)
