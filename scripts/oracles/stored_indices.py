#!/usr/bin/env python3
"""Checks the stored rows of parts between two indices against a plain body.

    scripts/oracles/stored_indices.py            says how many answers agree, or where the first differs
    scripts/oracles/stored_indices.py --write    stores the rows and the answers that it made

The part `calls` of crates/starlark_rows has them in `stdin` and `stdout`, in the group `index_grid`.
A row has a text and a first index; its answer has the part for each last index. An index is
missing, or one from -30 to 29. This script makes the answers without the program, from lists of
characters. The exit status is 0 where all agree, and 1 where one differs.
"""

import sys

sys.path.append(f"{sys.path[0]}/..")  # where shared/ lies
from shared.stored import read_part, write_part

PART = "calls"
GROUP = "index_grid"
TEXTS = ["", "a", "abcde", "Телемак"]
INDICES = [None, *range(-30, 30)]


def clamped(index, count):
    """The offset of an index in a text of `count` characters; a negative index counts from the end."""
    if index < 0:
        index += count
    return min(max(index, 0), count)


def is_reversed(start, end):
    """Whether two indices that count from the same side are in the wrong order."""
    if start is None or end is None:
        return False
    return (start < 0) == (end < 0) and start > end


def is_past(start, end, count):
    """Whether a first index lies past `count` characters and the last one doesn't count from the end."""
    return start is not None and start > count and (end is None or end >= 0)


def part(text, start, end):
    """The offset and the characters of the part between two indices; None where there is no part."""
    characters = list(text)
    count = len(characters)
    if is_reversed(start, end) or is_past(start, end, count):
        return None
    begin = 0 if start is None else clamped(start, count)
    stop = count if end is None else clamped(end, count)
    if begin > stop:
        return None
    return begin, "".join(characters[begin:stop])


def shown(found):
    """A part as the program prints it."""
    return "- " if found is None else f"{found[0]}:{found[1]} "


def rows():
    """Each row with its answer."""
    for text in TEXTS:
        for start in INDICES:
            row = f"{GROUP}\t{text}\t{'' if start is None else start}\n"
            yield row, "".join(shown(part(text, start, end)) for end in INDICES) + "\n"


def stored():
    """All rows of the crate with their answers."""
    files = [read_part(file, PART).decode().splitlines(keepends=True) for file in ("stdin", "stdout")]
    return list(zip(*files, strict=True))


def write(lines):
    """Stores rows with their answers."""
    for file, column in zip(("stdin", "stdout"), zip(*lines)):
        write_part(file, PART, "".join(column).encode())


def main():
    """Compares or stores the rows."""
    wanted, lines = list(rows()), stored()
    others = [line for line in lines if not line[0].startswith(GROUP + "\t")]
    if sys.argv[1:] == ["--write"]:
        write(others + wanted)
        return 0
    found = [line for line in lines if line not in others]
    for line, row in zip(found, wanted):
        if line != row:
            print(f"stored: {line}\nwanted: {row}")
            return 1
    if len(found) != len(wanted):
        print(f"{len(found)} rows of parts are stored, and there have to be {len(wanted)}")
        return 1
    print(f"{len(wanted)} rows with {len(wanted) * len(INDICES)} parts agree")
    return 0


if __name__ == "__main__":
    sys.exit(main())
