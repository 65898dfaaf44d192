#!/usr/bin/env python3
"""Makes the page of the lexer: one file, with the module, the scripts and the style in it.

    scripts/bindings/web_page.py MODULE OUTPUT

MODULE is the starlark_lex.wasm that scripts/bindings/web_module.py makes. The sources are web/ and
bindings/web/lexer.js. The page loads nothing, so it works from a folder and without a network.
"""

import base64
import re
import sys
from pathlib import Path

TOP = Path(__file__).resolve().parent.parent.parent
IMPORT = re.compile(r'^import \{ ([\w, ]+) \} from "([\w./]+)";\n', re.M)
EXPORT = re.compile(r"^export (?=(?:async )?(?:function|const|class) (\w+))", re.M)


def script_of(file, written):
    """A module as a script, after those that it imports. Each one is a function that returns its exports."""
    if file in written:
        return ""
    written.add(file)
    source = file.read_text()
    imported = [(names, (file.parent / place).resolve()) for names, place in IMPORT.findall(source)]
    before = "".join(script_of(place, written) for _, place in imported)
    exported = EXPORT.findall(source)
    names = "".join(f"const {{ {names} }} = {name_of(place)};\n" for names, place in imported)
    body = names + EXPORT.sub("", IMPORT.sub("", source))
    return f"{before}const {name_of(file)} = (() => {{\n{body}return {{ {', '.join(exported)} }};\n}})();\n"


def name_of(file):
    """The name of the exports of a module."""
    return f"module_{file.stem}"


def page(module):
    """The page."""
    parts = {
        "style": (TOP / "web/style.css").read_text().strip(),
        "module": base64.b64encode(module).decode(),
        "script": script_of(TOP / "web/page.js", set()).strip(),
    }
    if "</script" in parts["script"].lower():
        raise ValueError("a script has the end of a script in it")
    return re.sub(r"/\*\{(\w+)\}\*/", lambda place: parts[place[1]], (TOP / "web/index.html").read_text())


def main():
    """Writes the page."""
    if len(sys.argv) != 3:
        print("usage: scripts/bindings/web_page.py MODULE OUTPUT", file=sys.stderr)
        return 2
    module, output = map(Path, sys.argv[1:])
    output.parent.mkdir(parents=True, exist_ok=True)
    output.write_text(page(module.read_bytes()), encoding="utf-8")
    return 0


if __name__ == "__main__":
    sys.exit(main())
