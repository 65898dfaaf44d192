"""Prints the tokens of files.

usage: python -m starlark_lexer [--json | --html] [FILE]..

Without FILE, or for `-`, it reads standard input. A token is printed as `python -m tokenize` does.
--json prints what the program `starlark_tokens --json` prints, --html a page with the text in colours
and its faults marked. It goes on after each fault, within the line or at the next. Each fault has a
line on standard error. The exit status is 0 without a fault, 1 with one or more, and 2 where a file
can't be read or the output can't be written. It is 141 where nobody reads the output any more.
"""

from __future__ import annotations

import argparse
import io
import os
import sys
from typing import List, NamedTuple, Optional, Union

from . import __version__, json_lines
from .library import lex_items
from .page import File, page
from .tokens import Fault, Token

TROUBLE = 2
CLOSED_PIPE = 141


class Totals(NamedTuple):
    """What was found in all files."""

    files: int = 0
    faulty_files: int = 0
    faults: int = 0
    unreadable: int = 0

    def with_file(self, faults: int) -> Totals:
        """The totals with one more file."""
        return self._replace(
            files=self.files + 1, faulty_files=self.faulty_files + (faults > 0), faults=self.faults + faults
        )

    def status(self) -> int:
        """The exit status."""
        return TROUBLE if self.unreadable else int(self.faults > 0)


def _read(name: str) -> bytes:
    """The bytes of a file, or of standard input."""
    if name == "-":
        if sys.stdin is None:
            raise OSError("it is closed")
        return sys.stdin.buffer.read()
    with open(name, "rb") as file:
        return file.read()


def _read_file(name: str) -> Optional[File]:
    """A file with its tokens and faults, or None where it can't be read. Standard error says so."""
    shown = "<stdin>" if name == "-" else name
    try:
        shown.encode()
        source = _read(name)
        return File(shown, source, lex_items(source))
    except (OSError, ValueError) as error:
        _say(f"{shown}: {error}")
        return None


def _say(line: str) -> None:
    """Prints a line on standard error, after all that was printed before."""
    sys.stdout.flush()
    print(line, file=sys.stderr)


def _line(prefix: str, token: Token) -> str:
    """The line that is printed for a token."""
    place = f"{token.start[0]},{token.start[1]}-{token.end[0]},{token.end[1]}:"
    return f"{prefix}{place:20}{token.type.name:15}{token.string!r:15}".rstrip() + "\n"


def _print_file(form: str, prefix: str, file: File) -> None:
    """Prints a file's tokens in a form, and its faults on standard error."""
    if form == "json":
        sys.stdout.writelines(json_lines.lines(file.name, file.items))
    elif form == "lines":
        sys.stdout.writelines(_line(prefix, token) for token in file.tokens())
    for fault in file.faults():
        _say(f"{file.name}:{fault.start[0]}:{fault.start[1] + 1}: {fault.message}")


def _run(form: str, names: List[str]) -> int:
    """Prints all files, and returns the exit status."""
    totals = Totals()
    shown: List[File] = []
    if form == "json":
        sys.stdout.write(json_lines.HEAD)
    for name in names or ["-"]:
        file = _read_file(name)
        if file is None:
            totals = totals._replace(unreadable=totals.unreadable + 1)
            continue
        totals = totals.with_file(len(file.faults()))
        shown += [file] if form == "html" else []
        _print_file(form, f"{file.name}:" if len(names) > 1 else "", file)
    if form == "json":
        sys.stdout.write(json_lines.summary(*totals))
    elif form == "html" and shown:
        print(page(shown))
    sys.stdout.flush()
    return totals.status()


def _prepare_output(form: str) -> None:
    """Makes standard output take any text: lines as the terminal can show them, else UTF-8."""
    if isinstance(sys.stdout, io.TextIOWrapper):
        encoding = sys.stdout.encoding if form == "lines" else "utf-8"
        sys.stdout.reconfigure(encoding=encoding, errors="backslashreplace", newline="\n")


def _drop_output() -> None:
    """Gives up standard output, so that the interpreter doesn't write to it at its end."""
    os.dup2(os.open(os.devnull, os.O_WRONLY), sys.stdout.fileno())


def _asked(words: Optional[List[str]]) -> argparse.Namespace:
    """What the arguments ask for."""
    parser = argparse.ArgumentParser(prog="python -m starlark_lexer", description="prints the tokens of files")
    form = parser.add_mutually_exclusive_group()
    form.add_argument("--json", dest="form", action="store_const", const="json", help="as lines of JSON")
    form.add_argument("--html", dest="form", action="store_const", const="html", help="as a page in colours")
    parser.add_argument("--version", action="version", version=f"starlark_lexer {__version__}")
    parser.add_argument("files", nargs="*", metavar="FILE", help="default, and for -: standard input")
    parser.set_defaults(form="lines")
    return parser.parse_args(words)


def main(words: Optional[List[str]] = None) -> int:
    """Prints the tokens of files, and returns the exit status."""
    asked = _asked(words)
    if sys.stdout is None:
        print("starlark_lexer: standard output is closed", file=sys.stderr)
        return TROUBLE
    try:
        _prepare_output(asked.form)
        return _run(asked.form, asked.files)
    except BrokenPipeError:
        _drop_output()
        return CLOSED_PIPE
    except (OSError, MemoryError) as error:
        _drop_output()
        print(f"starlark_lexer: {str(error) or 'out of memory'}", file=sys.stderr)
        return TROUBLE


if __name__ == "__main__":
    sys.exit(main())
