"""The built programs of the repository: which are current, how one is proved and built, and runs of one.

A script that runs programs proves and builds those that aren't current. With the argument `--unproved`, which is read here for all
scripts, it runs one that is built without proof instead, in about half a minute.
"""

import functools
import os
import subprocess
import sys
from pathlib import Path

TOP = Path(__file__).resolve().parent.parent.parent
UNPROVED = "--unproved"
MAY_BE_UNPROVED = UNPROVED in sys.argv[1:]
if MAY_BE_UNPROVED:
    sys.argv.remove(UNPROVED)


def give_up(why, status=1):
    """Ends a script that could try nothing, and says why."""
    print(why, file=sys.stderr)
    sys.exit(status)


def sources():
    """The files that a proof reads: those of all crates, but for what was built, and crates.txt."""
    yield TOP / "crates.txt"
    for folder, folders, files in os.walk(TOP / "crates"):
        folders[:] = [name for name in folders if name != "out"]
        yield from (Path(folder) / name for name in files if name.endswith((".rt", ".antt")))


def is_current(made):
    """Whether a file or folder that was built is there and no older than each source."""
    return made.exists() and max(source.stat().st_mtime for source in sources()) <= made.stat().st_mtime


def built_unproved(name):
    """The program of a crate, which is built without proof where it isn't there or is older than a source."""
    program = TOP / "out/unproved" / name
    if not is_current(program):
        print(f"building {name} without proof", file=sys.stderr)
        ran = subprocess.run([TOP / "scripts/build_unproved.sh", name, program], stdin=subprocess.DEVNULL, check=False)
        if ran.returncode:
            give_up(f"{name} isn't built")
    return program


@functools.cache
def built(name):
    """The program of a crate, which is proved and built where it isn't there or is older than a source."""
    crate = TOP / "crates" / name
    program = crate / "out" / name
    if is_current(program):
        return program
    if MAY_BE_UNPROVED:
        return built_unproved(name)
    print(f"proving and building {name}", file=sys.stderr)
    try:
        ran = subprocess.run(["rt", "run"], cwd=crate, stdin=subprocess.DEVNULL, capture_output=True, check=False)
    except FileNotFoundError:
        give_up(f"{name} isn't built, and there is no rt on the path to build it")
    if not program.exists() or b"not-proved" in ran.stdout + ran.stderr:
        give_up(f"{name} isn't built: rt run in {crate} says why")
    return program
