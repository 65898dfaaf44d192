#!/usr/bin/env python3
"""Writes the large set: the stored texts of crates/starlark_rows as cases without names of their own.

    large_set.py OUTPUT

OUTPUT is a file of JSON lines, compressed; the same texts make the same bytes.
"""

import gzip
import sys

from answers import answered, case_line, text_fields
from cases import all_tags
from shared.stored import TEXTS, read_part, records_of


def cases():
    """A case for each stored text that is lexed by itself."""
    for number, (task, text) in enumerate(records_of(read_part("stdin", TEXTS)), 1):
        if not task:
            case = {"name": f"stored text {number}", **text_fields(text)}
            answer = answered(case)
            yield {**case, "tags": all_tags("large", text, answer), **answer}


def main():
    with open(sys.argv[1], "wb") as file, gzip.GzipFile("", "wb", fileobj=file, mtime=0) as compressed:
        for case in cases():
            compressed.write(case_line(case).encode())


if __name__ == "__main__":
    main()
