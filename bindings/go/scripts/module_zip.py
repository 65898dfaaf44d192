#!/usr/bin/env python3
"""Makes a zip with the module for Go, as a proxy in files: GOPROXY=file://.. takes it, once it is unpacked.

    bindings/go/scripts/module_zip.py OUTPUT.zip HEADER FOLDER=ARCHIVE..

Each ARCHIVE goes into the module's folder lib/FOLDER, as linux_amd64=../libstarlark_lex.a. The version is
that of VERSION. Times are SOURCE_DATE_EPOCH, or 1980; so the same files make the same bytes.
"""

import datetime
import io
import json
import os
import sys
import zipfile
from pathlib import Path

PACKAGE = Path(__file__).resolve().parent.parent
TOP = PACKAGE.parent.parent
MODULE = "example.org/starlarklexer"
EARLIEST = 315532800  # zip has no time before 1980
# The parts of the repository's folder that the module doesn't have.
NO_PARTS = {"scripts", "starlarkgo"}
NO_SUFFIXES = {".a", ".h"}


def time_of_files():
    """The time of all files."""
    seconds = max(int(os.environ.get("SOURCE_DATE_EPOCH", EARLIEST)), EARLIEST)
    return datetime.datetime.fromtimestamp(seconds, datetime.timezone.utc)


def zipped(files):
    """The bytes of a zip of files, given by their names."""
    written = io.BytesIO()
    with zipfile.ZipFile(written, "w", zipfile.ZIP_DEFLATED) as archive:
        for name in sorted(files):
            entry = zipfile.ZipInfo(name, time_of_files().timetuple()[:6])
            entry.compress_type = zipfile.ZIP_DEFLATED
            entry.external_attr = 0o644 << 16
            archive.writestr(entry, files[name])
    return written.getvalue()


def module_files(header, archives):
    """The files of the module by their names in it."""
    files = {}
    for path in PACKAGE.rglob("*"):
        parts = path.relative_to(PACKAGE).parts
        if path.is_file() and not NO_PARTS & set(parts) and path.suffix not in NO_SUFFIXES:
            files["/".join(parts)] = path.read_bytes()
    files["LICENSE"] = (TOP / "LICENSE").read_bytes()
    files["lib/include/starlark_lex.h"] = Path(header).read_bytes()
    for folder, archive in archives:
        if not (PACKAGE / "lib" / folder).is_dir():
            sys.exit(f"module_zip.py: the module has no folder lib/{folder}")
        files[f"lib/{folder}/libstarlark_lex.a"] = Path(archive).read_bytes()
    return files


def main():
    """Makes the zip."""
    if len(sys.argv) < 4 or not all("=" in word for word in sys.argv[3:]):
        sys.exit(__doc__)
    version = "v" + (TOP / "VERSION").read_text(encoding="utf-8").strip()
    files = module_files(sys.argv[2], [word.split("=", 1) for word in sys.argv[3:]])
    module = zipped({f"{MODULE}@{version}/{name}": data for name, data in files.items()})
    info = {"Version": version, "Time": time_of_files().strftime("%Y-%m-%dT%H:%M:%SZ")}
    of_version = {"info": json.dumps(info).encode(), "mod": files["go.mod"], "zip": module}
    proxy = {f"{MODULE}/@v/{version}.{suffix}": data for suffix, data in of_version.items()}
    proxy[f"{MODULE}/@v/list"] = f"{version}\n".encode()
    Path(sys.argv[1]).write_bytes(zipped(proxy))


if __name__ == "__main__":
    main()
