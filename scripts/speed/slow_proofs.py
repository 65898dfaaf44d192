#!/usr/bin/env python3
"""Lists what took longest in the first check of a crate, by the times of the files that the check kept.

    rm -r crates/NAME/out/incremental; (cd crates/NAME && rt check --jobs 1)
    scripts/speed/slow_proofs.py NAME [COUNT]

A check keeps each module that it has proved as a file, so a module took about as long as its file is later than the file before
it. With more jobs than one, files of several are mixed. The last word of a module's name says which part of a function it has:
`Lts` its steps, `Tie` and `Proof` what is proved of them. The `Lts` of a function with a loop and several owned values takes
longest. `rt check --progress` has that time at a function that comes up to twenty lines earlier.
"""

import sys

sys.path.append(f"{sys.path[0]}/..")  # where shared/ lies
from shared.programs import TOP

SHOWN = 20


def kept_files(crate):
    """The files that the checks of a crate kept, each with its time, the earliest first."""
    folder = TOP / "crates" / crate / "out/incremental"
    return sorted((file.stat().st_mtime, file.name) for file in folder.rglob("*.oantt"))


def main():
    if len(sys.argv) not in (2, 3):
        print(__doc__.splitlines()[0], file=sys.stderr)
        return 2
    files = kept_files(sys.argv[1])
    steps = [(after - before, name) for (before, _), (after, name) in zip(files, files[1:])]
    for seconds, name in sorted(steps, reverse=True)[: int(sys.argv[2]) if len(sys.argv) == 3 else SHOWN]:
        print(f"{seconds:7.1f} s  {name.removesuffix('.oantt').removesuffix('.decls')}")
    if not files:
        print("nothing is kept of a check of that crate", file=sys.stderr)
    return 0 if files else 1


if __name__ == "__main__":
    sys.exit(main())
