"""The pages in pieces, what they name in backquotes, and the files and words of the repository."""

import functools
import re
import sys
from pathlib import Path

from shared.programs import TOP

SPAN = r"`([^`\n]+)`"
NAME = re.compile(r"[A-Za-z_]\w*")
SOURCES = {".rt", ".antt", ".py", ".sh", ".rs", ".c", ".h", ".toml", ".go", ".js", ".mjs", ".ts", ".html", ".yml"}


@functools.cache
def files():
    """All files of the repository but what was built."""
    found = [path for path in TOP.rglob("*") if path.is_file()]
    return [path for path in found if not {"out", ".git", "__pycache__", "target", "node_modules"} & set(path.relative_to(TOP).parts)]


@functools.cache
def text_of(path):
    """The text of a file."""
    return path.read_text(encoding="utf-8", errors="replace")


@functools.cache
def words_of(path):
    """The words of a file, and its name without suffix."""
    return frozenset(NAME.findall(text_of(path))) | {path.stem}


@functools.cache
def by_path():
    """The files and folders by the ends of their paths; those of .rt and .antt without suffix, too."""
    found = {}
    for path in {*files(), *(folder for path in files() for folder in path.parents if folder.is_relative_to(TOP))}:
        parts = path.relative_to(TOP).parts
        for at in range(len(parts)):
            end = "/".join(parts[at:])
            for name in {end, end.removesuffix(".rt"), end.removesuffix(".antt")}:
                found.setdefault(name, []).append(path)
    return found


def paths_of(name, page, crate=None):
    """The files and folders that a name means: from the page, or by the end of a path, in a crate where one is given."""
    found = by_path().get(name.rstrip("/"), [])
    if crate:
        return [path for path in found if path.is_relative_to(TOP / "crates" / crate)]
    beside = (page.parent / name).resolve()
    return [*found, beside] if beside.exists() else found


def named_in(text):
    """Each span of a paragraph or row, with the file or crate that is named with it."""
    owners = {}
    for found in re.finditer(rf"((?:{SPAN}(?:, | and |, and |; ))*{SPAN}) \({SPAN}(?: of {SPAN})?\)", text):
        file = re.findall(SPAN, found.group())[-1 if not found.group().endswith("`)") or found.group(5) is None else -2]
        for name in re.findall(SPAN, found.group(1)):
            owners[name] = ("file", file)
    for found in re.finditer(rf"((?:{SPAN}(?: → |, | and |, and ))*{SPAN}) of (?:the )?`(starlark_\w+)`", text):
        for name in re.findall(SPAN, found.group(1)):
            owners.setdefault(name, ("crate", found.groups()[-1]))
    for span in re.findall(SPAN, text):
        yield span, owners.get(span)


def pieces_of(text):
    """The paragraphs and rows of a page, each with its line; blocks of code are left out."""
    piece, first, fenced = [], 0, False
    for number, line in enumerate(text.splitlines(), 1):
        if line.startswith("```"):
            fenced = not fenced
        is_code = fenced or line.startswith(("```", "    ")) and not (piece and piece[-1].startswith(("- ", "  ")))
        if piece and (is_code or not line.strip() or line.startswith(("|", "- ", "#"))):
            yield first, " ".join(piece)
            piece = []
        if line.strip() and not is_code:
            first = first if piece else number
            piece.append(line.strip())
    if piece:
        yield first, " ".join(piece)


def pages():
    """The pages that are read: those of the command line, else all."""
    named = [Path(name).resolve() for name in sys.argv[1:]]
    return named or [TOP / "README.md", *sorted((TOP / "docs").glob("*.md")), *sorted((TOP / "docs/use").glob("*.md"))]


def print_findings(check, what, wrong):
    """Prints what a check finds in the pages, and how many there are. Returns the exit status."""
    found = [f"{page.name}:{line}: {said}" for page in pages() for line, said in check(text_of(page), page)]
    print("\n".join([*found, f"{what}: {len(found)} {wrong}" if found else f"{what}: none {wrong}"]))
    return 1 if found else 0
