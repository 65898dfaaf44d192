#!/usr/bin/env python3
"""Compares which paths the globs of starlark_tokens stand for with what git answers for a .gitignore.

    scripts/oracles/random_globs.py [--count N] [--seed N] [--unproved]

For each of N random globs (200), and some that are written out, it gives a list of paths to `--exclude`, which leaves some out, and
to `git check-ignore` in a repository with that glob. No path is there, so the program names each that it doesn't leave out. Hostile
globs over a long name and a deep path have to end in two seconds. What differs from git by choice isn't tried: an empty name or
`.` in a glob, a slash in a set or after a backslash, a class such as `[:alpha:]`, and `***` as a name. The exit status is 1
where an answer differs, and 2 where there is no git.
"""

import argparse
import os
import random
import re
import shutil
import subprocess
import sys
import tempfile

sys.path.append(f"{sys.path[0]}/..")  # where shared/ lies
from shared.programs import built, give_up

NAMES = ["a", "b", "ab", "a.b", "aab", "abc", "-a", "a-b", "*", "**", "a*", "?", "[", "]", "[ab]", "\\", "a\\", "!", "^", "c]", "é", "A", "z", "a]b"]
GLOBS = [
    "a", "a/", "/a", "a/b", "/a/b", "*", "**", "***a", "a**", "a/**", "**/a", "a/**/b", "**/a/**", "**/**/b", "a/*", "*/a", "*/", "**/", "?", "a?", "??/a",
    "[ab]", "[a-c]", "[!a]", "[^a]", "[!a-c]b", "[]]", "[!]]", "[]-a]", "[a-]", "[-a]", "[--z]", "[a-c-z]", "[z-a]", "[\\]]", "[a\\-c]", "[\\a-\\c]", "[a",
    "[", "[]", "[!]", "[!", "a[b", "\\*", "\\**", "\\a", "\\[ab]", "\\\\", "a\\", "*]*", "*\\", "[*]", "[?]*", "*a*b*", "a*/b*", "/*", "/**", "/**/a", "*.b",
    "é", "?é", "[é]", "[!é]*",
]
PIECES = ["a", "b", "c", "A", ".b", "-", "*", "*", "?", "[ab]", "[!a]", "[a-c]", "[^-]", "[]a]", "\\*", "\\[", "\\\\", "]", "!", "^"]
LONE = ["[", "[!", "a-", "\\", "[a-", "[\\", "]"]


def random_name(pieces):
    """A name of a glob."""
    return "".join(random.choice(pieces) for _ in range(random.randint(1, 4)))


def random_glob():
    """A glob of one name or several. Only one that is a single name has an open set or a lone backslash."""
    if random.random() < 0.4:
        return random_name(PIECES + LONE) + random.choice(["", "", "/"])
    names = [random.choice(["**", "*", "a", "b", random_name(PIECES), random_name(PIECES)]) for _ in range(random.randint(2, 4))]
    return random.choice(["", "", "/"]) + "/".join(names) + random.choice(["", "", "/"])


def is_tried(glob):
    """Whether a glob means the same here and there: it has nothing that differs by choice, nor what git reads at the front of a line."""
    names = glob.removesuffix("/").removeprefix("/").split("/")
    if glob[:1] in "!#" or "[:" in glob or "\\/" in glob or any(name in ("", ".") or re.fullmatch(r"\*{3,}", name) for name in names):
        return False
    return len(names) == 1 or not re.search(r"\[[^]]*/", glob)


def paths():
    """All paths that are asked for: of one name, and random ones of up to four."""
    made = dict.fromkeys(NAMES)
    while len(made) < 150:
        made["/".join(random.choice(NAMES) for _ in range(random.randint(2, 4)))] = None
    return list(made)


def ignored(repository, glob, asked):
    """Which paths git ignores by a .gitignore that has the glob alone."""
    (open(os.path.join(repository, ".gitignore"), "wb")).write(glob.encode() + b"\n")
    command = ["git", "-c", "core.ignoreCase=false", "check-ignore", "--no-index", "-z", "--stdin"]
    made = subprocess.run(command, cwd=repository, input=b"\0".join(asked), capture_output=True, check=False)
    if made.returncode > 1:
        give_up(made.stderr.decode(), 2)
    return set(made.stdout.split(b"\0")) - {b""}


def left_out(program, folder, glob, asked):
    """Which paths the program leaves out: it names the others, since no path is there."""
    command = [program, "--check", "--quiet", "--format=sarif", f"--exclude={glob}", "--files-from=-"]
    made = subprocess.run(command, cwd=folder, input=b"\0".join(asked), capture_output=True, check=False, timeout=60)
    shown = {os.fsencode(name_text(os.fsdecode(path))): path for path in asked}
    found = re.findall(rb"^starlark_tokens: (.*): No such file or directory \(os error 2\)$", made.stderr, re.MULTILINE)
    return set(asked) - {shown[name] for name in found}


def name_text(name):
    """A name as the program shows it: in quotes where it has a quote or a backslash."""
    return "'" + name.replace("\\", "\\\\") + "'" if "\\" in name else name


HOSTILE = [
    ("*a" * 200 + "b", "a" * 50_000),
    ("a/" + "**/a/" * 200 + "b", "a/" * 1_000 + "c"),
    ("*" * 2_000 + "b", "a" * 50_000),
    ("[" * 5_000, "[" * 5_000),
    ("**/" * 400 + "b", "a/" * 1_000 + "c"),
]


def main():
    parser = argparse.ArgumentParser()
    parser.add_argument("--count", type=int, default=200, metavar="N")
    parser.add_argument("--seed", type=int, default=1, metavar="N")
    asked = parser.parse_args()
    if shutil.which("git") is None:
        give_up("there is no git", 2)
    program, differing = built("starlark_tokens"), 0
    random.seed(asked.seed)
    globs = [*GLOBS, *filter(is_tried, (random_glob() for _ in range(asked.count)))]
    with tempfile.TemporaryDirectory() as repository, tempfile.TemporaryDirectory() as folder:
        subprocess.run(["git", "init", "-q", repository], check=True)
        for glob in globs:
            names = [path.encode() for path in paths()]
            differ = ignored(repository, glob, names) ^ left_out(program, folder, glob, names)
            if differ:
                differing += 1
                print(f"{glob!r} differs at {sorted(differ)[:5]}")
        for glob, path in HOSTILE:
            try:
                subprocess.run([program, "--exclude", glob, "--files-from=-"], cwd=folder, input=path.encode(), capture_output=True, check=False, timeout=2)
            except subprocess.TimeoutExpired:
                differing += 1
                print(f"{glob[:20]!r}.. over {path[:10]!r}.. takes more than two seconds")
    print(f"{len(globs)} globs, {len(HOSTILE)} hostile ones: {differing} differ")
    return 1 if differing else 0


if __name__ == "__main__":
    sys.exit(main())
