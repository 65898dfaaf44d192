#!/usr/bin/env python3
"""Makes the man page of starlark_tokens, and its completion for bash, zsh and fish, from what the
program prints for `--help`.

    release/program_files.py HELP VERSION DATE OUTPUT

HELP is a file with that text: a line `usage: ..`, paragraphs, and a list of options, each with two
spaces before it and two or more before what it does. OUTPUT gets `starlark_tokens.1`,
`starlark_tokens` (bash), `_starlark_tokens` (zsh) and `starlark_tokens.fish`.
"""

import re
import sys
from pathlib import Path

PROGRAM = "starlark_tokens"


def options(text):
    """The options of the help: of each its spellings, whether it takes a value, what it does."""
    found = []
    for spellings, says in re.findall(r"(?m)^  (-\S.*?)  +(\S.*)$", text):
        words = re.split(r"[ ,=]+", spellings)
        flags = [word for word in words if word.strip("-") and word.startswith("-")]
        takes_value = any(not word.startswith("-") for word in words)
        if flags:
            found.append((flags, takes_value, says))
    return found


def escaped(line):
    """A line of a man page that is printed as it is."""
    line = line.replace("\\", "\\e").replace("-", "\\-")
    return "\\&" + line if line.startswith((".", "'")) else line


def man_page(text, version, date):
    """The man page: the help as it is, after its first line."""
    usage, _, body = text.partition("\n")
    synopsis = usage.removeprefix("usage: ").removeprefix(PROGRAM).strip()
    lines = [
        f'.TH {PROGRAM.upper()} 1 "{date}" "{PROGRAM} {version}" "User Commands"',
        ".SH NAME",
        f"{PROGRAM} \\- print the tokens and faults of Starlark files",
        ".SH SYNOPSIS",
        f".B {PROGRAM}",
        escaped(synopsis),
        ".SH DESCRIPTION",
        ".nf",
        *(escaped(line) for line in body.strip("\n").split("\n")),
        ".fi",
        ".SH SEE ALSO",
        ".BR starlark_lex (1)",
    ]
    return "\n".join(lines) + "\n"


def bash(found):
    """Completion for bash."""
    words = " ".join(word for spellings, _, _ in found for word in spellings)
    return f"""# Completion of {PROGRAM} for bash.
_{PROGRAM}() {{
    local word=${{COMP_WORDS[COMP_CWORD]}}
    if [[ $word == -* ]]; then
        mapfile -t COMPREPLY < <(compgen -W '{words}' -- "$word")
    else
        mapfile -t COMPREPLY < <(compgen -f -- "$word")
    fi
}}
complete -o filenames -F _{PROGRAM} {PROGRAM}
"""


def zsh(found):
    """Completion for zsh."""
    lines = []
    for spellings, takes_value, says in found:
        says = says.replace("[", "(").replace("]", ")").replace(":", " ").replace("'", "’")
        for word in spellings:
            value = ":value:_files" if takes_value else ""
            lines.append(f"    '{word}[{says}]{value}' \\")
    return "\n".join([f"#compdef {PROGRAM}", "_arguments -s \\", *lines, "    '*:file:_files'", ""])


def fish(found):
    """Completion for fish."""
    lines = [f"# Completion of {PROGRAM} for fish."]
    for spellings, takes_value, says in found:
        flags = [f"-l {word[2:]}" if word[1] == "-" else f"-s {word[1:]}" for word in spellings]
        says = says.replace("\\", "\\\\").replace("'", "\\'")
        value = " -r" if takes_value else ""
        lines.append(f"complete -c {PROGRAM} {' '.join(flags)}{value} -d '{says}'")
    return "\n".join(lines) + "\n"


def main(words):
    """Makes the four files."""
    if len(words) != 4:
        print(__doc__.split("\n\n")[1].strip(), file=sys.stderr)
        return 2
    text = Path(words[0]).read_text(encoding="utf-8")
    version, date, output = words[1], words[2], Path(words[3])
    found = options(text)
    if not found:
        print("program_files.py: the help lists no options", file=sys.stderr)
        return 1
    (output / f"{PROGRAM}.1").write_text(man_page(text, version, date), encoding="utf-8")
    (output / PROGRAM).write_text(bash(found), encoding="utf-8")
    (output / f"_{PROGRAM}").write_text(zsh(found), encoding="utf-8")
    (output / f"{PROGRAM}.fish").write_text(fish(found), encoding="utf-8")
    return 0


if __name__ == "__main__":
    sys.exit(main(sys.argv[1:]))
