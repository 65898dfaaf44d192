#!/usr/bin/env python3
"""Compares what the pages of docs/use and the README show with the repository.

    scripts/checks/pages.py            says where they differ
    scripts/checks/pages.py --write    writes what the repository has into the pages

Two things are compared. After a line `<!-- PATH -->` comes a block of code: the file of that path, but for the comment that
it begins with. After `<!-- PATH: fn NAME, struct NAME -->` it has these items alone, with `// ..` for what is left out. A
line `    $ printf 'TEXT' | ./starlark_lex NAME` shows a run: the indented lines after it are what the program prints. A line `    $ ./starlark_tokens ..` does so too, with what goes to standard error, unless it has `jq`, `git` or
a folder of the reader's. Runs are left out where the program isn't built; it isn't built here, but with `--unproved`.
"""

import re
import subprocess
import sys

sys.path.append(f"{sys.path[0]}/..")  # where shared/ lies
from shared.programs import MAY_BE_UNPROVED, TOP, built


def program_of(name):
    """The program of a crate, whether it is there or not."""
    return built(name) if MAY_BE_UNPROVED else TOP / "crates" / name / "out" / name


PROGRAM, TOKENS_PROGRAM = program_of("starlark_lex"), program_of("starlark_tokens")
FILE = re.compile(r"<!-- (crates/[^\s:]+)(:\s[^>]+)? -->\n```(\w*)\n(.*?)```\n", re.DOTALL)
RUN = re.compile(r"^    \$ printf ('[^']*') \| \./starlark_lex( \w+)?\n((?:    (?!\$).*\n)*)", re.MULTILINE)

TOKENS_RUN = re.compile(r"^    \$ (?!.*(?:jq|git|FILE|FOLDER))((?:printf '[^']*' \| )?\./starlark_tokens.*)\n((?:    (?!\$).*\n)*)", re.MULTILINE)


def code_of(path):
    """The text of a file without the comment that it begins with."""
    lines = (TOP / path).read_text().splitlines(keepends=True)
    while lines and (lines[0].startswith("//!") or not lines[0].strip()):
        lines.pop(0)
    return "".join(lines)


def item_lines(lines, item):
    """The numbers of the lines of an item as `fn NAME`, with its doc comment and attributes."""
    kind, name = item.split()
    head = re.compile(rf"\s*(pub(\(crate\))? )?{kind} {name}\b")
    at = next(number for number, line in enumerate(lines) if head.match(line))
    first = last = at
    while first and lines[first - 1].strip().startswith(("///", "#[")):
        first -= 1
    margin = lines[at][: len(lines[at]) - len(lines[at].lstrip())]
    while not (lines[last].rstrip().endswith(";") if kind == "const" else lines[last].startswith(margin + "}")):
        last += 1
    return range(first, last + 1)


def items_of(code, items):
    """Some items of a file, in the order of the file."""
    lines, shown, end = code.splitlines(keepends=True), "", 0
    for found in sorted((item_lines(lines, item) for item in items), key=min):
        margin = re.match(r"\s*", lines[found[0]]).group()
        left_out = any(line.strip() for line in lines[end : found[0]])
        shown += ("\n" if shown else "") + (f"{margin}// ..\n\n" if left_out and shown else "")
        shown += "".join(lines[found[0] : found[-1] + 1])
        end = found[-1] + 1
    return shown


def with_file(match):
    """A block of code as the file has it."""
    path, items, language, _ = match.groups()
    code = items_of(code_of(path), re.split(r",\s+", items.strip(": \n"))) if items else code_of(path)
    return f"<!-- {path}{items or ''} -->\n```{language}\n{code}```\n"


def with_run(match):
    """A run as the program prints it."""
    text, name, _ = match.groups()
    command = f"printf {text} | {PROGRAM}{name or ''}"
    answer = subprocess.run(["sh", "-c", command], capture_output=True, text=True, check=False)
    lines = "".join(f"    {line}\n" for line in answer.stdout.splitlines())
    return f"    $ printf {text} | ./starlark_lex{name or ''}\n{lines}"


def with_tokens_run(match):
    """A run of starlark_tokens as a terminal shows it."""
    command = match[1].replace("./starlark_tokens", str(TOKENS_PROGRAM), 1)
    answer = subprocess.run(["sh", "-c", f"{{ {command}; }} 2>&1"], cwd=TOP, capture_output=True, text=True, check=False)
    # An unproved build says that it isn't proved.
    printed = answer.stdout.replace('"proved":false', '"proved":true')
    lines = "".join(f"    {line}\n" if line else "\n" for line in printed.splitlines())
    return f"    $ {match[1]}\n{lines}"


def as_it_is(page):
    """A page with the code and the runs that the repository has."""
    page = FILE.sub(with_file, page)
    page = RUN.sub(with_run, page) if PROGRAM.exists() else page
    return TOKENS_RUN.sub(with_tokens_run, page) if TOKENS_PROGRAM.exists() else page


def main():
    """Compares or writes all pages."""
    differing = 0
    for path in [TOP / "README.md", *sorted((TOP / "docs/use").glob("*.md"))]:
        page = path.read_text()
        wanted = as_it_is(page)
        if page == wanted:
            continue
        if "--write" in sys.argv[1:]:
            path.write_text(wanted)
        else:
            differing += 1
            print(f"{path.relative_to(TOP)} shows something else than the repository has")
    for program in (PROGRAM, TOKENS_PROGRAM):
        if not program.exists():
            print(f"the runs of {program.name} were left out: it isn't built")
    if not differing:
        print("pages: they show what the repository has")
    return 1 if differing else 0


if __name__ == "__main__":
    sys.exit(main())
