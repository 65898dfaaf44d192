#!/usr/bin/env python3
"""Cuts the stored input and output of crates/starlark_rows into files, and joins them again.

    scripts/stored_parts.py cut FOLDER    writes each part of `stdin` and `stdout` into a file of the folder, as `texts.stdin`
    scripts/stored_parts.py join FOLDER   stores the parts that are in the folder; the others stay as they are

A part is a line `part NAME LEN` and its LEN bytes. The files `stdin` and `stdout` of the crate are lists of the parts `calls`,
`texts`, `recovered` and `documents`. So a part is changed by hand between `cut` and `join`, which finds its new length.
"""

import sys
from pathlib import Path

from shared.stored import FILES, read_parts, write_part


def files_in(folder):
    """Each part of the two files, and where it is in a folder."""
    for file in FILES:
        for name, part in read_parts(file).items():
            yield file, name, part, folder / f"{name}.{file}"


def main():
    match sys.argv[1:]:
        case ["cut", folder]:
            Path(folder).mkdir(parents=True, exist_ok=True)
            for _, _, part, path in files_in(Path(folder)):
                path.write_bytes(part)
        case ["join", folder]:
            for file, name, _, path in files_in(Path(folder)):
                if path.exists():
                    write_part(file, name, path.read_bytes())
        case _:
            print(__doc__, file=sys.stderr)
            return 2
    return 0


if __name__ == "__main__":
    sys.exit(main())
