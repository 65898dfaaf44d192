"""The stored input and output of crates/starlark_rows: their parts, the texts of the part `texts`, and runs of the program."""

import subprocess
from typing import NamedTuple

from shared.programs import TOP, built
from shared.random_texts import is_utf8

CRATE = TOP / "crates/starlark_rows"
FILES = ("stdin", "stdout")


def parts_of(stored):
    """The parts of a list, by name."""
    parts, offset = {}, 0
    while offset < len(stored):
        begin = stored.index(b"\n", offset) + 1
        word, name, length = stored[offset:begin].decode().split()
        end = begin + int(length)
        if word != "part" or name in parts or end > len(stored):
            raise ValueError(f"no new part begins at byte {offset}")
        parts[name] = stored[begin:end]
        offset = end
    return parts


def list_of(parts):
    """The list of parts that are given by name."""
    return b"".join(f"part {name} {len(part)}\n".encode() + part for name, part in parts.items())


def read_parts(file):
    """The parts of the crate's file `stdin` or `stdout`, by name."""
    return parts_of((CRATE / file).read_bytes())


def read_part(file, name):
    """A part of the crate's file `stdin` or `stdout`."""
    return read_parts(file)[name]


def write_part(file, name, part):
    """Stores a part of the crate's file `stdin` or `stdout`. The others stay as they are."""
    (CRATE / file).write_bytes(list_of({**read_parts(file), name: part}))


def printed_for(name, part):
    """What the built program prints for a part."""
    ran = subprocess.run([built("starlark_rows")], input=list_of({name: part}), capture_output=True, check=True)
    return parts_of(ran.stdout)[name]


# The texts of the part `texts`

TEXTS = "texts"


class Edit(NamedTuple):
    """The bytes from `start` to `end` are replaced by others."""

    start: int
    end: int
    new: bytes


def edited(text, edit):
    """The text after an edit; None where the edit doesn't fit."""
    if not edit.start <= edit.end <= len(text):
        return None
    front, back = text[: edit.start], text[edit.end :]
    return front + edit.new + back if is_utf8(front) and is_utf8(back) else None


def record(task, text):
    """A text and what is done with it, as the program reads them."""
    return " ".join([str(len(text)), *task]).encode() + b"\n" + text + b"\n"


def edited_record(edits, text):
    """A text after its edits, as the program reads them."""
    before = [record(["edit", str(edit.start), str(edit.end)], edit.new) for edit in edits]
    return b"".join([*before, record(["edited"], text)])


def records_of(stored):
    """The records of a part: what is done with each text, as words, and the text."""
    offset = 0
    while offset < len(stored):
        begin = stored.index(b"\n", offset) + 1
        length, *task = stored[offset:begin].decode().split()
        end = begin + int(length)
        if stored[end:end + 1] != b"\n":
            raise ValueError(f"no LF after the text that begins at byte {begin}")
        yield task, stored[begin:end]
        offset = end + 1
