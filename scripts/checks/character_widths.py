#!/usr/bin/env python3
"""Says which characters a terminal shows in two columns, or in none: a table for starlark_tokens, from Python's unicodedata.

    scripts/checks/character_widths.py            says whether the table differs from that; status 1 where it does
    scripts/checks/character_widths.py --write    writes the table

A character takes two columns where its East Asian width is W or F, and none where it is a mark that combines (categories Mn
and Me). Characters that no version of Unicode has yet count as those around them where both are alike, so that a table of an
older version has fewer ranges. Where Python has another version of Unicode than the table, the two aren't compared.
"""

import argparse
import sys
import unicodedata
from pathlib import Path

TABLE = Path(__file__).resolve().parent.parent.parent / "crates/starlark_tokens/src/output_formats/character_widths/table.rt"
HEAD = """//! Ranges of characters by their width on a terminal, of Unicode {version}. Made by `scripts/checks/character_widths.py`.

/// Characters that take no column, since they combine with the one before them.
pub const COMBINING: &[(char, char)] = &[
{combining}];

/// Characters that take two columns.
pub const WIDE: &[(char, char)] = &[
{wide}];
"""


def is_combining(character):
    """Whether a character takes no column."""
    return unicodedata.category(character) in ("Mn", "Me")


def is_wide(character):
    """Whether a character takes two columns."""
    is_known = unicodedata.category(character) != "Cn"
    return is_known and unicodedata.east_asian_width(character) in ("W", "F") and not is_combining(character)


def ranges(is_one):
    """The first and last characters of the runs of those that pass a test; unassigned ones between two of them are among them."""
    found = []
    gap = True
    for number in [*range(0x80, 0xD800), *range(0xE000, 0x110000)]:
        character = chr(number)
        if is_one(character):
            if gap:
                found.append([number, number])
            found[-1][1] = number
            gap = False
        elif unicodedata.category(character) != "Cn":
            gap = True
    return found


def rows(found):
    """The rows of a table."""
    return "".join(f"    ('\\u{{{first:x}}}', '\\u{{{last:x}}}'),\n" for first, last in found)


def table():
    """The table, by this Python's version of Unicode."""
    return HEAD.format(version=unicodedata.unidata_version, combining=rows(ranges(is_combining)), wide=rows(ranges(is_wide)))


def main():
    """Compares or writes the table."""
    parser = argparse.ArgumentParser(description=__doc__.partition("\n")[0])
    parser.add_argument("--write", action="store_true")
    if parser.parse_args().write:
        TABLE.parent.mkdir(exist_ok=True)
        TABLE.write_text(table())
        return 0
    stored = TABLE.read_text()
    if f"Unicode {unicodedata.unidata_version}." not in stored:
        print("not compared: the table is of another version of Unicode")
        return 0
    if stored != table():
        print(f"{TABLE} isn't what Unicode's data give; scripts/checks/character_widths.py --write writes it")
        return 1
    return 0


if __name__ == "__main__":
    sys.exit(main())
