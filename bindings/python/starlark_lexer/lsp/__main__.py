"""Runs the language server over standard input and output.

usage: starlark-lsp [--stdio | --editors | --version]

An editor starts it. With --editors it prints the folder of what editors load. The exit status is 0
where the client has asked it to shut down, and 1 where not.
"""

from __future__ import annotations

import argparse
import sys
from pathlib import Path
from typing import List, Optional

from .. import __version__
from .server import Server


def main(words: Optional[List[str]] = None) -> int:
    """Serves one client, and returns the exit status."""
    parser = argparse.ArgumentParser(
        prog="starlark-lsp", description="a language server for Starlark, which an editor starts"
    )
    parser.add_argument("--stdio", action="store_true", help="over standard input and output, as always")
    parser.add_argument("--editors", action="store_true", help="prints the folder of what editors load")
    parser.add_argument("--version", action="version", version=f"starlark-lsp {__version__}")
    if parser.parse_args(words).editors:
        print(Path(__file__).with_name("editors"))
        return 0
    return Server(sys.stdin.buffer, sys.stdout.buffer, sys.stderr).serve()


if __name__ == "__main__":
    sys.exit(main())
