#!/usr/bin/env python3
"""Packs a folder into a zip: the same files and SOURCE_DATE_EPOCH make the same bytes.

    release/zip_folder.py FOLDER OUTPUT

The names in the zip begin with that of the folder.
"""

import os
import sys
import time
import zipfile
from pathlib import Path


def main():
    """Packs the folder."""
    if len(sys.argv) != 3:
        print("usage: release/zip_folder.py FOLDER OUTPUT", file=sys.stderr)
        return 2
    folder = Path(sys.argv[1])
    moment = time.gmtime(int(os.environ["SOURCE_DATE_EPOCH"]))[:6]
    with zipfile.ZipFile(sys.argv[2], "w", zipfile.ZIP_DEFLATED, compresslevel=9) as made:
        for file in sorted(file for file in folder.rglob("*") if file.is_file()):
            entry = zipfile.ZipInfo(str(file.relative_to(folder.parent)), moment)
            entry.external_attr = 0o100644 << 16
            made.writestr(entry, file.read_bytes(), zipfile.ZIP_DEFLATED, 9)
    return 0


if __name__ == "__main__":
    sys.exit(main())
