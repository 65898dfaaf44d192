#!/usr/bin/env python3
"""Lets Vim and Emacs read what `starlark_tokens --check` prints, without a screen, as docs/use/editors.md says.

    scripts/oracles/editor_lines.py [--unproved] [--program PROGRAM]

Both have to go to each fault: Vim to its byte, by columns in bytes, Emacs to its character. The exit status is 1 where one
doesn't. An editor that isn't there is left out, and said so.
"""

import argparse
import re
import shutil
import subprocess
import sys
from pathlib import Path
from tempfile import TemporaryDirectory

sys.path.append(f"{sys.path[0]}/..")  # where shared/ lies
from shared.programs import TOP, built

PAGE = TOP / "docs/use/editors.md"
TEXT = "x = '日本' + 01\ny = (\n  'é😀' 02 你好\n"
# For each fault its line, and the text before it on that line.
WANTED = [(1, "x = '日本' + "), (3, "  'é😀' "), (3, "  'é😀' 02 ")]

VIM = r"""
set encoding=utf-8 %s
edit a.bzl
cgetfile out
let seen = []
for number in range(1, len(filter(getqflist(), 'v:val.valid')))
  execute 'cc' number
  call add(seen, line('.') . ':' . (col('.') - 1))
endfor
call writefile(seen, 'seen')
qall!
"""

EMACS = """
(set-language-environment "UTF-8")
(require 'compile)
(setq compilation-error-screen-columns nil)
(find-file "out")
(compilation-mode)
(goto-char (point-min))
(condition-case nil
    (while t
      (compilation-next-error 1)
      (save-window-excursion
        (save-excursion
          (compile-goto-error)
          (with-current-buffer (get-file-buffer "a.bzl")
            (princ (format "%d:%d\\n" (line-number-at-pos) (- (point) (line-beginning-position))))))))
  (error nil))
"""


def in_vim(folder):
    """Where Vim goes: lines, and bytes before the places."""
    setting = re.search(r"`(errorformat=\S+(?:\\ \S+)*)`", PAGE.read_text(encoding="utf-8"))[1]
    Path(folder, "session.vim").write_text(VIM % setting, encoding="utf-8")
    subprocess.run(["vim", "-N", "-u", "NONE", "-es", "-S", "session.vim"], cwd=folder, stdin=subprocess.DEVNULL, timeout=60, check=False)
    return Path(folder, "seen").read_text().split()


def in_emacs(folder):
    """Where Emacs goes: lines, and characters before the places."""
    Path(folder, "session.el").write_text(EMACS, encoding="utf-8")
    ran = subprocess.run(["emacs", "--batch", "-Q", "-l", "session.el"], cwd=folder, capture_output=True, timeout=60, check=False)
    return ran.stdout.decode().split()


EDITORS = {
    "vim": (in_vim, "bytes", [f"{line}:{len(front.encode())}" for line, front in WANTED]),
    "emacs": (in_emacs, "characters", [f"{line}:{len(front)}" for line, front in WANTED]),
}


def main():
    """Tries the editors that are there."""
    parser = argparse.ArgumentParser()
    parser.add_argument("--program", type=Path)
    program = parser.parse_known_args()[0].program or built("starlark_tokens")
    wrong = 0
    for name, (seen_in, unit, wanted) in EDITORS.items():
        if shutil.which(name) is None:
            print(f"{name} was left out: it is not there")
            continue
        with TemporaryDirectory() as folder:
            Path(folder, "a.bzl").write_text(TEXT, encoding="utf-8")
            ran = subprocess.run([Path(program).resolve(), "--check", "--columns", unit, "a.bzl"], cwd=folder, capture_output=True, check=False)
            Path(folder, "out").write_bytes(b"\n" + ran.stdout)
            seen = seen_in(folder)
        print(f"{name}: {'ok' if seen == wanted else f'wanted {wanted}, seen {seen}'}")
        wrong += seen != wanted
    return 1 if wrong else 0


if __name__ == "__main__":
    sys.exit(main())
