#!/usr/bin/env python3
"""Tries the edits of crates/*/must-fail-by-hand, which the gate leaves out for its time: the prover has to refuse each.

    scripts/edits_by_hand.py [WHICH..]                      tries all, or some, and notes which were refused
    scripts/edits_by_hand.py --share [--seconds N]          tries some of one crate, in turn by the number of the commit
    scripts/edits_by_hand.py --record LOG [--commit NAME]   notes which were refused by what rt printed at a commit (HEAD)

WHICH is a crate, one of its files or folders, or an edit, as starlark_base, starlark_base/codemap/spans or
starlark_base/codemap/spans/begin_is_end.edit.

It works on a clone, so on what is committed, with these edits in place of those of the gate. `rt ci` proves their crates there, and
those below them, before the first edit. scripts/edits_by_hand.txt has each edit with the commit at which it was last refused; it is
written by this script alone, and `--share` leaves it as it is. The exit status is 0 where all that were tried were refused, 1 where
one wasn't, and 2 where a share wasn't done after N seconds.
"""

import argparse
import contextlib
import os
import re
import shutil
import signal
import subprocess
import sys
import tempfile
import threading
from pathlib import Path

from shared.edits import edits_by_hand, last_refused, write_last_refused
from shared.programs import TOP, give_up

# A crate is proved once more before its first edit, by all processors that are free: 1 to 3 minutes, and 6 for the largest. Then
# an edit takes 10 to 35 seconds of one processor. So this many end within five minutes, of the largest within seven.
MOST_OF_A_SHARE = 14
MOST_OF_THE_LARGEST = {"starlark_tokens": 4}
TRIED = re.compile(r"(?m)^rt: must-fail (\S+/\S+\.edit): (.*)$")
# That a proof names what an edit takes away says nothing of a contract.
REFUSED = re.compile(r"refused, as it must be(?! \(only because a proof file names)")


def git(*words):
    """What git prints."""
    return subprocess.run(["git", "-C", TOP, *words], capture_output=True, text=True, check=True).stdout.strip()


def shares(edits):
    """The edits of each crate in parts of like size, none of which is too long."""
    for crate in sorted({edit.crate for edit in edits}):
        own = [edit for edit in edits if edit.crate == crate]
        count = -(-len(own) // MOST_OF_THE_LARGEST.get(crate, MOST_OF_A_SHARE))
        yield from (own[number * len(own) // count : (number + 1) * len(own) // count] for number in range(count))


def share_of(number, edits):
    """The part of the edits whose turn it is at the commit of a number."""
    parts = list(shares(edits))
    part = parts[number % len(parts)]
    print(f"edits by hand: commit {number} has part {number % len(parts) + 1} of {len(parts)}, {len(part)} edits of {part[0].crate}", flush=True)
    return part


def asked_of(words):
    """The edits that some words name; all, if there are none."""
    paths = {f"{edit.path.relative_to(TOP / 'crates')}/".replace("/must-fail-by-hand", ""): edit for edit in edits_by_hand()}
    for word in words:
        if not any(path.startswith(f"{word}/") for path in paths):
            give_up(f"edits_by_hand.py: there are no edits by hand of {word}")
    return [edit for path, edit in paths.items() if not words or any(path.startswith(f"{word}/") for word in words)]


def keep_crates(clone, wanted):
    """Leaves some crates and those below them in a clone, and none of their edits."""
    lines = (clone / "crates.txt").read_text(encoding="utf-8").splitlines()
    below = {line.split(":")[0].split()[0]: line.split(":")[1].split() for line in lines if ":" in line}
    kept, waiting = set(), list(wanted)
    while waiting:
        name = waiting.pop()
        if name in below and name not in kept:
            kept.add(name)
            waiting += below[name]
    (clone / "crates.txt").write_text("".join(f"{line}\n" for line in lines if line.split(":")[0].split()[0] in kept), encoding="utf-8")
    for folder in (clone / "crates").iterdir():
        if folder.name not in kept:
            shutil.rmtree(folder)
        shutil.rmtree(folder / "must-fail", ignore_errors=True)


def put_edits(clone, edits):
    """Puts edits by hand where rt tries them: in one folder for each crate."""
    for edit in edits:
        folder = clone / "crates" / edit.crate / "must-fail"
        folder.mkdir(exist_ok=True)
        shutil.copyfile(clone / edit.path.relative_to(TOP), folder / edit.path.name)


def end(run):
    """Ends rt and what it started."""
    with contextlib.suppress(ProcessLookupError):
        os.killpg(run.pid, signal.SIGKILL)


def said_of(clone, seconds):
    """What rt prints in a clone; None where it isn't done in time. Its own lines also go to standard error."""
    words = {"cwd": clone, "stdin": subprocess.DEVNULL, "stdout": subprocess.PIPE, "stderr": subprocess.STDOUT, "errors": "replace"}
    names = {**os.environ, "PYTHONUNBUFFERED": "1"}
    said, late = [], threading.Event()
    with subprocess.Popen(["rt", "ci"], env=names, start_new_session=True, **words) as run:
        timer = threading.Timer(seconds, lambda: (late.set(), end(run)))
        if seconds:
            timer.start()
        try:
            for line in run.stdout:
                said.append(line)
                if line.startswith("rt: "):
                    print(line, end="", file=sys.stderr, flush=True)
        finally:
            timer.cancel()
            end(run)
    return None if late.is_set() else "".join(said)


def tried(edits, seconds=0):
    """What rt says of edits, which it tries on a clone; None where that isn't done in time."""
    if shutil.which("rt") is None:
        give_up("edits_by_hand.py: the Rattle kit's rt is not on the path")
    with tempfile.TemporaryDirectory() as room:
        clone = Path(room) / "repository"
        subprocess.run(["git", "clone", "--quiet", TOP, clone], check=True)
        keep_crates(clone, {edit.crate for edit in edits})
        put_edits(clone, edits)
        return said_of(clone, seconds)


def refused_of(said, edits):
    """The names of the edits that rt refused, by what it said. Prints those of which it says something else, or nothing."""
    answers = dict(TRIED.findall(said))
    refused = [edit.name for edit in edits if REFUSED.match(answers.get(edit.name, ""))]
    for edit in edits:
        if edit.name not in refused:
            print(f"not refused: {edit.path.relative_to(TOP)}: {answers.get(edit.name, 'rt says nothing of it')}")
    print(f"edits by hand: {len(refused)} of {len(edits)} refused")
    return refused


def note(refused, commit):
    """Writes into the list that some edits were refused at a commit. Those that are gone leave it."""
    there = {edit.name for edit in edits_by_hand()}
    commits = {**last_refused(), **dict.fromkeys(refused, commit)}
    write_last_refused({name: commits[name] for name in commits if name in there})


def record(log, commit):
    """Notes what a log says of the edits that it names."""
    said = log.read_text(encoding="utf-8", errors="replace")
    named = dict(TRIED.findall(said))
    edits = [edit for edit in edits_by_hand() if edit.name in named]
    refused = refused_of(said, edits)
    note(refused, git("rev-parse", "--short=8", commit))
    return 0 if len(refused) == len(edits) else 1


def main():
    parser = argparse.ArgumentParser()
    parser.add_argument("words", nargs="*", metavar="WHICH")
    parser.add_argument("--share", action="store_true")
    parser.add_argument("--seconds", type=int, default=0)
    parser.add_argument("--record", type=Path, metavar="LOG")
    parser.add_argument("--commit", default="HEAD")
    asked = parser.parse_args()
    if asked.record:
        return record(asked.record, asked.commit)
    edits = asked_of(asked.words)
    if asked.share:
        edits = share_of(int(git("rev-list", "--count", "HEAD")), edits)
    said = tried(edits, asked.seconds)
    if said is None:
        print(f"edits by hand: left out, since they weren't done after {asked.seconds} seconds")
        return 2
    refused = refused_of(said, edits)
    if not asked.share:
        note(refused, git("rev-parse", "--short=8", "HEAD"))
    return 0 if len(refused) == len(edits) else 1


if __name__ == "__main__":
    sys.exit(main())
