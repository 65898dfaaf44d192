#!/usr/bin/env python3
"""Compares the version in VERSION with each place that says it.

    scripts/checks/version.py

These are the library's call, the header, the crate for Rust, the packages for Python, Go and npm, what
both programs print for `--version`, and the top entry of CHANGELOG.md. A package for npm that isn't
there is left out. The exit status is 0 where all agree, and 1 where some don't.
"""

import re
import sys
from pathlib import Path

TOP = Path(__file__).resolve().parent.parent.parent
PARTS = ("MAJOR", "MINOR", "PATCH")
LIBRARY = [rf"pub const {part}: u32 = (\d+);" for part in PARTS]
PROGRAM = [r'const VERSION: &str = "(?:starlark_lex )?(\d+\.\d+\.\d+)']
SARIF = [r'starlark_tokens\\",\\"version\\":\\"(\d+\.\d+\.\d+)']
HEADER = [rf"#define STARLARK_LEX_VERSION_{part} (\d+)\n" for part in PARTS]

# A file, the patterns whose groups joined by dots are the version, and whether it has to be there.
PLACES = [
    ("crates/starlark_c/src/library_version.rt", LIBRARY, True),
    ("bindings/c/starlark_lex.h", HEADER, True),
    ("bindings/rust/Cargo.toml", [r'(?m)^version = "(.*)"$'], True),
    ("bindings/python/starlark_lexer/__init__.py", [r'(?m)^__version__ = "(.*)"$'], True),
    ("bindings/go/doc.go", [r'(?m)^const Version = "(.*)"$'], True),
    ("bindings/web/package.json", [r'"version": "(.*?)"'], False),
    ("crates/starlark_tokens/src/main.rt", PROGRAM, True),
    ("crates/starlark_tokens/src/output_formats/rules.rt", SARIF, False),
    ("crates/starlark_lex/src/main.rt", PROGRAM, True),
    ("CHANGELOG.md", [r"(?m)^## (.*)$"], True),
]


def said(file, patterns):
    """The version that a file says; "nothing" where some part isn't found."""
    text = file.read_text(encoding="utf-8")
    found = [re.search(pattern, text) for pattern in patterns]
    return ".".join(match[1] for match in found) if all(found) else "nothing"


def main():
    """Compares all places."""
    version = (TOP / "VERSION").read_text(encoding="utf-8").strip()
    wrong = 0
    for name, patterns, is_needed in PLACES:
        file = TOP / name
        if not file.is_file() and not is_needed:
            continue
        found = said(file, patterns) if file.is_file() else "nothing"
        if found != version:
            print(f"{name} says {found}, and not {version}")
            wrong += 1
    if not wrong:
        print(f"version {version}")
    return 1 if wrong else 0


if __name__ == "__main__":
    sys.exit(main())
