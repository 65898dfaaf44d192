#!/usr/bin/env python3
"""Checks the edits of all crates: the wrong changes that the prover has to refuse.

    scripts/checks/edits.py                      fails where an edit doesn't say what it shows or can't be applied, a mistake is
                                                 lost, or the list names an edit that is gone
    scripts/checks/edits.py --print [CRATE..]    prints what each edit shows, and what else shows it, as a table

The gate tries those of crates/*/must-fail, and scripts/edits_by_hand.py those of crates/*/must-fail-by-hand. An edit has a
line `# shows: MISTAKE`, and where something else shows the mistake too a line `# also: WHAT`. Each line of mistakes.txt is a
mistake that some edit has to show in these words. scripts/edits_by_hand.txt has edits by hand alone; of those that it hasn't,
which nobody has tried yet, a line says how many each crate has.
"""

import sys
from collections import Counter
from pathlib import Path

sys.path.append(f"{sys.path[0]}/..")  # where shared/ lies
from shared.edits import all_edits, last_refused
from shared.programs import TOP

MISTAKES = Path(__file__).with_name("mistakes.txt")


def why_not_applied(edit):
    """Why an edit can't be applied, one change after another; nothing where it can."""
    texts, path, old = {}, None, ""
    for line in edit.path.read_text(encoding="utf-8").splitlines():
        word, _, rest = line.partition(": ")
        if word == "file":
            path = TOP / "crates" / edit.crate / rest
            if not path.is_file():
                return f"there is no {rest}"
            texts.setdefault(path, path.read_text(encoding="utf-8"))
        elif word == "old":
            old = rest
            if texts[path].count(old) != 1:
                return f"its old text is in its file {texts[path].count(old)} times"
        elif line.startswith("new:"):
            texts[path] = texts[path].replace(old, line.removeprefix("new:").removeprefix(" "))
    return "" if old else "it changes nothing"


def findings(edits):
    """What is wrong with the edits."""
    for edit in edits:
        if not edit.shows:
            yield f"{edit.path.relative_to(TOP)} has no line `# shows: ..`"
        if why := why_not_applied(edit):
            yield f"{edit.path.relative_to(TOP)}: {why}"
        if edit.path.parent != edit.folder:
            yield f"{edit.path.relative_to(TOP)} has to lie in {edit.folder.relative_to(TOP)}"
    for name, count in Counter(edit.name for edit in edits).items():
        if count > 1:
            yield f"{count} edits have the name {name}"
    for (crate, shown), count in Counter((edit.crate, edit.shows) for edit in edits).items():
        if count > 1 and shown:
            yield f"{crate}: {count} edits show the same: {shown}"
    shown = {edit.shows for edit in edits}
    for mistake in MISTAKES.read_text(encoding="utf-8").splitlines():
        if mistake not in shown:
            yield f"no edit shows: {mistake}"


def findings_of_list(edits):
    """What is wrong with the list of when the edits by hand were last refused."""
    listed, by_hand = set(last_refused()), {edit.name for edit in edits if edit.tried == "by hand"}
    yield from (f"scripts/edits_by_hand.txt names {name}, which is gone" for name in sorted(listed - by_hand))


def print_untried(edits):
    """Prints how many edits by hand of each crate the list doesn't have."""
    listed = set(last_refused())
    untried = Counter(edit.crate for edit in edits if edit.tried == "by hand" and edit.name not in listed)
    if untried:
        print("edits by hand that nobody has tried yet: " + ", ".join(f"{count} of {crate}" for crate, count in sorted(untried.items())))


def print_table(edits, crates):
    """Prints the edits of some crates, or of all."""
    print("| Mistake | Crate | Edit | Tried | Also shown by |\n|---|---|---|---|---|")
    for edit in edits:
        if not crates or edit.crate in crates:
            print(f"| {edit.shows} | `{edit.crate}` | `{edit.path.stem}` | {edit.tried} | {edit.also} |")


def main():
    edits = list(all_edits())
    if sys.argv[1:2] == ["--print"]:
        print_table(edits, sys.argv[2:])
        return 0
    print_untried(edits)
    found = [*findings(edits), *findings_of_list(edits)]
    print("\n".join(found or [f"edits: {len(edits)} say what they show, and can be applied; no mistake is lost"]))
    return 1 if found else 0


if __name__ == "__main__":
    sys.exit(main())
