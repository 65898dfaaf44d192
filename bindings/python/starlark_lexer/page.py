"""A page with a text in colours and its faults marked: one file, which needs no other."""

from __future__ import annotations

from bisect import bisect_left
from html import escape
from typing import Iterator, List, NamedTuple, Sequence, Tuple, Union

from .kinds import KindClass
from .tokens import Fault, Token

_STYLE = """
:root {
  color-scheme: light dark;
  --paper: #ffffff; --ink: #1f2328; --faint: #6e7781; --rule: #d0d7de;
  --comment: #5c6773; --keyword: #a3173f; --string: #0a5c36; --number: #0550ae;
  --operator: #6639ba; --fault: #b3261e; --fault-paper: #ffe9e7;
}
@media (prefers-color-scheme: dark) {
  :root {
    --paper: #14171c; --ink: #e2e6eb; --faint: #8b949e; --rule: #30363d;
    --comment: #9aa5b1; --keyword: #ff8fa8; --string: #8fdca9; --number: #86bdff;
    --operator: #c9a8ff; --fault: #ff8f86; --fault-paper: #45201d;
  }
}
body { background: var(--paper); color: var(--ink); font: 15px/1.5 system-ui, sans-serif; margin: 2rem; }
h1 { font-size: 1.1rem; font-weight: 600; margin: 0 0 .25rem; }
pre + h1 { margin-top: 2rem; }
p { color: var(--faint); margin: 0 0 1rem; }
ul { color: var(--fault); margin: 0 0 1rem; padding-left: 1.25rem; }
a { color: inherit; }
pre { border: 1px solid var(--rule); border-radius: 6px; font: 14px/1.5 ui-monospace, monospace;
  margin: 0; overflow-x: auto; padding: .75rem 0; tab-size: 4; }
pre > span { display: block; padding: 0 1rem 0 0; min-height: 1.5em; }
pre > span::before { color: var(--faint); content: attr(data-line); display: inline-block;
  margin-right: 1rem; text-align: right; user-select: none; width: 3.5rem; }
pre > span.at-fault { background: var(--fault-paper); }
.comment { color: var(--comment); font-style: italic; }
.keyword { color: var(--keyword); font-weight: 600; }
.string { color: var(--string); }
.number { color: var(--number); }
.operator { color: var(--operator); }
mark { background: none; border-bottom: 2px solid var(--fault); color: var(--fault); }
mark:empty::after { content: "\\25B2"; font-size: .7em; }
"""

# The names of the colours; a name and layout have none.
_STYLES = {
    KindClass.COMMENT: "comment",
    KindClass.KEYWORD: "keyword",
    KindClass.STRING: "string",
    KindClass.NUMBER: "number",
    KindClass.OPERATOR: "operator",
    KindClass.PUNCTUATION: "operator",
    KindClass.BRACKET: "operator",
}


class File(NamedTuple):
    """A file that was lexed: its tokens and faults, in order."""

    name: str
    source: bytes
    items: List[Union[Token, Fault]]

    def tokens(self) -> List[Token]:
        """The tokens."""
        return [item for item in self.items if isinstance(item, Token)]

    def faults(self) -> List[Fault]:
        """The faults."""
        return [item for item in self.items if isinstance(item, Fault)]


# Where a part of the text begins and ends in bytes, its colour, and the message of its fault.
Part = Tuple[int, int, str, str]


def _around(tokens: List[Token], faults: List[Fault]) -> Iterator[Part]:
    """The parts of tokens that have a colour, without the bytes of the faults that they stand for."""
    begins = [fault.span[0] for fault in faults]
    for token in tokens:
        style = _STYLES.get(token.type.kind_class, "")
        begin, end = token.span
        number = bisect_left(begins, begin)
        while style and number < len(faults) and begins[number] < end:
            if begin < begins[number]:
                yield begin, begins[number], style, ""
            begin = faults[number].span[1]
            number += 1
        if style and begin < end:
            yield begin, end, style, ""


def _parts(length: int, tokens: List[Token], faults: List[Fault]) -> List[Part]:
    """The parts of a text with a colour each, in order, without gaps."""
    coloured = list(_around(tokens, faults))
    coloured += [(*fault.span, "fault", fault.message) for fault in faults]
    parts: List[Part] = []
    at = 0
    for begin, end, style, message in sorted(coloured):
        if begin >= at:
            parts += [(at, begin, "", ""), (begin, end, style, message)]
            at = end
    return [*parts, (at, length, "", "")]


def _pieces(text: str, style: str, message: str) -> str:
    """The lines of a part, each with its colour, joined by line ends."""
    if not style:
        return escape(text)
    title = escape(message)
    begin, end = (f'<mark title="{title}">', "</mark>") if style == "fault" else (f'<span class="{style}">', "</span>")
    lines = text.split("\n")
    return "\n".join(f"{begin}{escape(line)}{end}" if line or not text else "" for line in lines)


def _lines_of(fault: Fault) -> range:
    """The numbers of the lines that a fault is on."""
    line, column = fault.end
    last = line if column else line - 1
    return range(fault.start[0], max(last, fault.start[0]) + 1)


def _lines(text: str, faults: List[Fault], anchor: str) -> str:
    """The lines of a text in colours, each with its number, and with a name if a fault begins there."""
    named = {fault.start[0] for fault in faults}
    at_fault = {number for fault in faults for number in _lines_of(fault)}
    attributes = {number: ' class="at-fault"' for number in at_fault}
    attributes.update({number: f' id="{anchor}{number}" class="at-fault"' for number in named})
    return "".join(
        f'<span data-line="{number}"{attributes.get(number, "")}>{line}</span>'
        for number, line in enumerate(text.split("\n"), 1)
    )


def _list(faults: List[Fault], anchor: str) -> str:
    """The list of faults, each with a link to its line."""
    rows = "".join(
        f'\n<li><a href="#{anchor}{fault.start[0]}">line {fault.start[0]}, column {fault.start[1] + 1}</a>: '
        f"{escape(fault.message)}</li>"
        for fault in faults
    )
    return f"\n<ul>{rows}\n</ul>" if faults else ""


def _count(number: int, noun: str) -> str:
    """A number with its noun."""
    return f"{number} {noun}" if number == 1 else f"{number} {noun}s"


def _section(file: File, anchor: str) -> str:
    """The part of the page that a file has. The names of its lines begin with the anchor."""
    tokens, faults = file.tokens(), file.faults()
    parts = _parts(len(file.source), tokens, faults)
    text = "".join(_pieces(file.source[begin:end].decode(), style, message) for begin, end, style, message in parts)
    said = f"<p>{_count(len(tokens), 'token')}, {_count(len(faults), 'fault')}</p>{_list(faults, anchor)}"
    return f"<h1>{escape(file.name)}</h1>\n{said}\n<pre>{_lines(text, faults, anchor)}</pre>\n"


def page(files: Sequence[File]) -> str:
    """The page of files."""
    title = escape(", ".join(file.name for file in files))
    sections = "".join(
        _section(file, "line-" if number == 1 else f"file-{number}-line-") for number, file in enumerate(files, 1)
    )
    return (
        f'<!doctype html>\n<html lang="en">\n<meta charset="utf-8">\n<title>{title}</title>\n'
        f'<meta name="viewport" content="width=device-width, initial-scale=1">\n<style>{_STYLE}</style>\n'
        f"{sections}</html>"
    )
