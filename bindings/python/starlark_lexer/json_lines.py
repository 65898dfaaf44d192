"""Tokens and faults as lines of JSON, which are those of the program `starlark_tokens --json`."""

from __future__ import annotations

from typing import Iterator, List, Union

from .kinds import Kind, Quotes
from .library import kind_name
from .tokens import Fault, Token, Value

HEAD = '{"format":"starlark_lexemes","version":1,"proved":true}\n'

_ESCAPES = {
    **{code: f"\\u{code:04x}" for code in range(32)},
    **str.maketrans({'"': '\\"', "\\": "\\\\", "\t": "\\t", "\n": "\\n", "\r": "\\r"}),
}

# The least number that not every reader of JSON reads exactly.
_TOO_LARGE = 2**53

_BASES = {"x": "#x", "o": "#o", "b": "#b"}


# What to do about a fault of each code.
_HELPS = {
    "SL001": "indent the line as the block that it belongs to",
    "SL002": "remove it: only strings and comments may have it",
    "SL003": "write spaces",
    "SL004": "close the quotes, or use three for several lines",
    "SL005": "write two backslashes, or r before the quotes",
    "SL006": "write two backslashes, and close the quotes",
    "SL007": "choose another name",
    "SL008": "write 0o in front of an octal number, or leave the zeros out",
    "SL009": "close the expression with `}`, or write `{{` for a brace that is text",
}

# What to do about characters that begin no token, by the character.
_INPUT_HELPS = {
    **dict.fromkeys("\u201c\u201d\u201e", 'write " in place of a typographic quote'),
    **dict.fromkeys("\u2018\u2019\u201a", "write ' in place of a typographic quote"),
    **dict.fromkeys("\u2013\u2014\u2212", "write - in place of a dash"),
    "\u00a0": "write a space: this is U+00A0 NO-BREAK SPACE",
    "\ufeff": "remove it: this is U+FEFF BYTE ORDER MARK",
    "`": "write quotes: Starlark has no backticks",
}

_MESSAGE_BEGIN = "Parse error: "
_INPUT_BEGIN = "invalid input `"


def _string(text: str) -> str:
    """A text as a string of JSON."""
    return f'"{text.translate(_ESCAPES)}"'


def _integer(value: int, written: str) -> str:
    """An integer: a number where 53 bits hold it, else its digits as a string."""
    if value < _TOO_LARGE:
        return str(value)
    form = _BASES.get(written[1:2].lower())
    return f'"{format(value, form) if form else written.lstrip("0")}"'


def _value(value: Value, written: str) -> str:
    """The value of a token."""
    if value is None:
        return "null"
    if isinstance(value, str):
        return _string(value)
    if isinstance(value, bytes):
        return f'"{value.hex()}"'
    if isinstance(value, Quotes):
        return f'"{value.name.title().replace("_", "")}"'
    return _integer(value, written)


def _help(code: str, message: str) -> str:
    """What to do about a fault of a code with a message."""
    if message.startswith(_INPUT_BEGIN):
        return _INPUT_HELPS.get(message[len(_INPUT_BEGIN) : -1], _HELPS[code])
    return _HELPS[code]


def _utf16_column(line: str, column: int) -> int:
    """The units of UTF-16 before a column of a line."""
    return column if line.isascii() else len(line[:column].encode("utf-16-le")) // 2


def _line(prefix: str, kind: str, item: Union[Token, Fault], value: str) -> str:
    """The line of a token or a fault."""
    (line, column), (end_line, end_column) = item.start, item.end
    return (
        f'{prefix}{kind}","begin":{item.span[0]},"end":{item.span[1]},"line":{line},"column":{column + 1},'
        f'"end_line":{end_line},"end_column":{end_column + 1},'
        f'"utf16_column":{_utf16_column(item.line, column) + 1},"value":{value}'
    )


def lines(name: str, items: List[Union[Token, Fault]]) -> Iterator[str]:
    """The lines of the tokens and faults of a file."""
    prefix = f'{{"file":{_string(name)},"kind":"'
    names = [kind_name(number) for number in range(max(Kind) + 1)]
    for item in items:
        if isinstance(item, Token):
            yield _line(prefix, names[item.type], item, _value(item.value, item.string)) + "}\n"
        else:
            message = item.message[len(_MESSAGE_BEGIN) :] if item.message.startswith(_MESSAGE_BEGIN) else item.message
            said = f',"code":"{item.code}","help":{_string(_help(item.code, message))}}}\n'
            yield _line(prefix, "Fault", item, _string(message)) + said


def summary(files: int, faulty_files: int, faults: int, unreadable: int) -> str:
    """The last line."""
    return (
        f'{{"kind":"Summary","files":{files},"faulty_files":{faulty_files},'
        f'"faults":{faults},"unreadable":{unreadable}}}\n'
    )
