#!/usr/bin/env python3
"""Lets editors edit a file with a fault by the language server.

    PYTHONPATH=out/bindings/python scripts/bindings/editors.py

Neovim, Emacs with lsp-mode and with Eglot, and Vim with ALE run without a screen, with the files of
bindings/python/starlark_lexer/lsp/editors. Each has to show the fault, and none after it has typed the
missing quote. The first two show colours and folds, too, and those of the new text. The exit status is
1 where something isn't so. Where there is no built package, or an editor isn't there, the script says
what it left out.
"""

import importlib.util
import os
import shutil
import subprocess
import sys
from pathlib import Path
from tempfile import TemporaryDirectory

sys.path.append(f"{sys.path[0]}/..")  # where shared/ lies
from shared.programs import TOP

FILES = TOP / "bindings/python/starlark_lexer/lsp/editors"
SESSIONS = Path(__file__).with_name("editors")
TEXT = "def f(a):\n    b = a\n    return b\n\ny = 'a\n"
SECONDS = 120

# The words that start each editor, and a program that succeeds where it has what it needs.
EDITORS = {
    "Neovim": (["nvim", "--headless", "--clean", "-c", f"luafile {SESSIONS}/neovim.lua"], ["nvim", "--version"]),
    "Emacs": (
        ["emacs", "--batch", "-q", "-l", f"{SESSIONS}/emacs.el"],
        ["emacs", "--batch", "-q", "--eval", "(progn (package-initialize) (require 'lsp-mode))"],
    ),
    "Emacs with Eglot": (
        ["emacs", "--batch", "-q", "-l", f"{SESSIONS}/eglot.el"],
        ["emacs", "--batch", "-q", "--eval", "(progn (package-initialize) (require 'eglot))"],
    ),
    "Vim": (
        ["vim", "-N", "-u", "NONE", "-es", "-S", f"{SESSIONS}/session.vim"],
        ["vim", "-N", "-u", "NONE", "-es", "-c", "packadd ale", "-c", "if exists(':ALELint') | quit | endif | cquit"],
    ),
}


def has_editor(words):
    """Whether an editor and its plugin are there."""
    if shutil.which(words[0]) is None:
        return False
    ran = subprocess.run(words, stdin=subprocess.DEVNULL, capture_output=True, timeout=SECONDS, check=False)
    return ran.returncode == 0


def what_is_said(words, folder):
    """What a session says: `ok`, or what is wrong."""
    file = Path(folder, "a.bzl")
    file.write_text(TEXT, encoding="utf-8")
    names = {
        "HOME": folder,
        "XDG_STATE_HOME": folder,
        "SESSION_FILE": file,
        "SESSION_PYTHON": sys.executable,
        "SESSION_LUA": FILES / "starlark.lua",
        "SESSION_LISP": FILES / "starlark.el",
        "SESSION_VIM": FILES / "starlark.vim",
    }
    environment = {**os.environ, **{name: str(value) for name, value in names.items()}}
    ran = subprocess.run(
        words, env=environment, stdin=subprocess.DEVNULL, capture_output=True, text=True, timeout=SECONDS, check=False
    )
    said = Path(folder, "said")
    if said.exists():
        return said.read_text(encoding="utf-8").strip()
    lines = (ran.stdout.strip() or ran.stderr.strip()).splitlines()
    if "nvim" in words:
        lines = ran.stderr.strip().splitlines()
    return lines[-1] if lines else f"status {ran.returncode}"


def main():
    """Runs the sessions."""
    if importlib.util.find_spec("starlark_lexer") is None:
        print("the editors were left out: the package isn't built, or not on PYTHONPATH", file=sys.stderr)
        return 0
    status = 0
    for name, (words, needed) in EDITORS.items():
        if not has_editor(needed):
            print(f"{name} was left out: it isn't there, or not its plugin", file=sys.stderr)
            continue
        with TemporaryDirectory() as folder:
            said = what_is_said(words, folder)
        status |= said != "ok"
        print(f"{name}: as it has to be" if said == "ok" else f"editors.py: {said}", flush=True)
    return status


if __name__ == "__main__":
    sys.exit(main())
