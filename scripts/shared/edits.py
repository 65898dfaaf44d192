"""The edits of all crates: the wrong changes that the prover has to refuse, and the list of when it last refused those by hand."""

import re
from typing import NamedTuple

from shared.programs import TOP

FOLDERS = {"must-fail": "gate", "must-fail-by-hand": "by hand"}
LIST = TOP / "scripts/edits_by_hand.txt"
LINE = re.compile(r"(?m)^(?:# )?(shows|also|file): (.+)$")


class Edit(NamedTuple):
    """A wrong change: its path, its crate, when it is tried, its first file, the mistake that it shows, and what else shows that."""

    path: object
    crate: str
    tried: str
    file: str
    shows: str
    also: str

    @property
    def name(self):
        """The name by which rt and the list know it."""
        return f"{self.crate}/{self.path.name}"

    @property
    def folder(self):
        """The folder that it has to lie in: right in must-fail, and by its first file in must-fail-by-hand."""
        if self.tried == "gate":
            return TOP / "crates" / self.crate / "must-fail"
        return TOP / "crates" / self.crate / "must-fail-by-hand" / self.file.removeprefix("src/").rpartition(".")[0]


def read_edit(path):
    """The edit of a file."""
    said = {}
    for word, rest in LINE.findall(path.read_text(encoding="utf-8")):
        said.setdefault(word, rest)
    crate, folder = path.relative_to(TOP / "crates").parts[:2]
    return Edit(path, crate, FOLDERS[folder], said.get("file", ""), said.get("shows", ""), said.get("also", ""))


def all_edits():
    """The edits of all crates, those of the gate first."""
    for folder in FOLDERS:
        for path in sorted((TOP / "crates").glob(f"*/{folder}/**/*.edit")):
            yield read_edit(path)


def edits_by_hand():
    """The edits that the gate leaves out."""
    return [edit for edit in all_edits() if edit.tried == "by hand"]


def last_refused():
    """The commit at which each edit of the list was last refused, by the edit's name."""
    lines = LIST.read_text(encoding="utf-8").splitlines() if LIST.exists() else []
    return {name: commit for commit, name in (line.split() for line in lines)}


def write_last_refused(commits):
    """Writes the list."""
    LIST.write_text("".join(f"{commit} {name}\n" for name, commit in sorted(commits.items())), encoding="utf-8")
