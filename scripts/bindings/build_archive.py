#!/usr/bin/env python3
"""Proves and builds the archive of crates/starlark_c where it isn't current.

    scripts/bindings/build_archive.py [--jobs N]

After `rt ci` has passed, crates/*/out/rlib has the libraries that the gate proved. `rt lib` doesn't
take them: the gate marks none as built, since they fit only each other. Where all of them are newer
than each source, this script gives them to `rattle build` itself, so that the archive's own crate
alone is proved, by N jobs (2). Else, and where that fails, it calls `rt lib`, which proves the
libraries too, unless a check of the same sources has kept them. The archive is
crates/starlark_c/out/libstarlark_c.a.

The toolchain that builds it is one of links to the kit's, whose clang also keeps the LLVM module that
it is given: crates/starlark_c/out/starlark_c.bc, of which link_library.sh makes the library for each
target, and web_module.py the module for browsers. So one proof serves all. What the kit said is in
out/bindings/rt.log. The exit status is 1 where the archive isn't proved.
"""

import argparse
import importlib.machinery
import importlib.util
import os
import shutil
import subprocess
import sys
import time
from pathlib import Path
from tempfile import TemporaryDirectory

sys.path.append(f"{sys.path[0]}/..")  # where shared/ lies
from shared.programs import TOP, give_up, is_current

CRATE = "starlark_c"
FOLDER = TOP / "crates" / CRATE
LOG = TOP / "out/bindings/rt.log"
ARCHIVE = FOLDER / "out" / f"lib{CRATE}.a"
MODULE = FOLDER / "out" / f"{CRATE}.bc"
KIT_LIBRARIES = ["std"]
CLANG = """#!/bin/sh
for word do
    case $word in
    *.bc | *.ll) cp "$word" "{modules}" ;;
    esac
done
exec "{clang}" "$@"
"""


def uses():
    """What each crate of crates.txt uses."""
    lines = (TOP / "crates.txt").read_text(encoding="utf-8").splitlines()
    pairs = (line.partition(":")[::2] for line in lines if ":" in line)
    return {name.split()[0]: below.split() for name, below in pairs}


def crates_below(name):
    """The crates of the repository that a crate stands on, each after those that it stands on."""
    found = []
    for below in uses()[name]:
        if below in uses():
            found += [it for it in [*crates_below(below), below] if it not in found]
    return found


def library(name):
    """The built library of a crate."""
    return TOP / "crates" / name / "out/rlib" / f"{name}.rlib"


def kit():
    """The kit's folder."""
    try:
        ran = subprocess.run(["rt", "doc"], capture_output=True, text=True, check=True)
    except (FileNotFoundError, subprocess.CalledProcessError):
        give_up("build_archive.py: the Rattle kit's rt is not on the path")
    return Path(ran.stdout.strip()).parent


def words_of_build(kit_folder, toolchain, jobs):
    """The call of `rattle build` that makes the archive over built libraries, as `rt lib` makes it."""
    below = crates_below(CRATE)
    own = [name for name in uses()[CRATE] if name in below]
    others = [name for name in uses()[CRATE] if name not in below]
    words = [kit_folder / "bin/rattle", "build", "--crate-name", CRATE, "src/lib.rt"]
    for name in [*KIT_LIBRARIES, *others]:
        words += ["--extern", f"{name}={kit_folder}/rlibs/{name}.rlib"]
    words += ["-L", f"dependency={kit_folder}/rlibs"]
    for name in own:
        words += ["--extern", f"{name}={library(name)}"]
    for name in below:
        words += ["-L", f"dependency={library(name).parent}"]
    words += ["--antt-project", kit_folder / "rattle/logic/antt-project.json"]
    words += ["--logic-built", kit_folder / "logic_built", "--links", f"{CRATE}="]
    words += ["--crate-type", "staticlib", "--jobs", str(jobs)]
    words += ["--toolchain", toolchain, "--backend", "llvm"]
    return [*words, "-o", ARCHIVE]


def said():
    """What the kit said last."""
    return LOG.read_text(encoding="utf-8", errors="replace")


def is_made_by(words):
    """Whether a call makes the archive. What it says goes to the log."""
    for file in (ARCHIVE, LOG):
        file.parent.mkdir(parents=True, exist_ok=True)
    with LOG.open("wb") as log:
        ran = subprocess.run(
            words, cwd=FOLDER, stdin=subprocess.DEVNULL, stdout=log, stderr=log, check=False
        )
    return ran.returncode == 0 and is_current(ARCHIVE)


def keeping_toolchain(kit_folder, work):
    """Makes the toolchain of links. Returns it, and the folder in which its clang keeps modules."""
    toolchain, modules = work / "toolchain", work / "modules"
    modules.mkdir()
    (toolchain / "bin").mkdir(parents=True)
    for file in (kit_folder / "toolchain").iterdir():
        if file.name != "bin":
            (toolchain / file.name).symlink_to(file)
    for file in (kit_folder / "toolchain/bin").iterdir():
        if file.name != "clang":
            (toolchain / "bin" / file.name).symlink_to(file.resolve())
    clang = toolchain / "bin/clang"
    clang.write_text(CLANG.format(modules=modules, clang=kit_folder / "toolchain/bin/clang"))
    clang.chmod(0o755)
    return toolchain, modules


def build_by_rt(kit_folder, toolchain):
    """Does what `rt lib` does, with another toolchain. It runs in a process of its own."""
    sys.path.insert(0, str(kit_folder / "bin"))
    loader = importlib.machinery.SourceFileLoader("rt", str(kit_folder / "bin/rt"))
    rt = importlib.util.module_from_spec(importlib.util.spec_from_loader("rt", loader))
    loader.exec_module(rt)
    crate = rt.rtlib.Crate
    call = crate.call
    kits_own = str(kit_folder / "toolchain")
    crate.call = lambda self, *words: call(self, *(toolchain if word == kits_own else word for word in words))
    os.chdir(FOLDER)
    return rt.main(["lib"])


def is_built(kit_folder, toolchain, jobs):
    """Whether the archive is proved and built with a toolchain."""
    if all(is_current(library(name)) for name in crates_below(CRATE)):
        print("proving and building the archive over the gate's libraries", file=sys.stderr)
        if is_made_by(words_of_build(kit_folder, toolchain, jobs)):
            return True
    print("proving and building the archive and the libraries below it", file=sys.stderr)
    return is_made_by([sys.executable, __file__, "--rt", kit_folder, toolchain])


def is_made(kit_folder, jobs):
    """Whether the archive and its module are there and current. They are made where they aren't."""
    if is_current(ARCHIVE) and is_current(MODULE):
        return True
    begun = time.time()
    with TemporaryDirectory() as folder:
        toolchain, modules = keeping_toolchain(kit_folder, Path(folder))
        if not is_built(kit_folder, toolchain, jobs):
            return False
        kept = sorted(modules.iterdir(), key=lambda file: file.stat().st_mtime)
        if not kept:
            print("the kit gave clang no module", file=sys.stderr)
            return False
        shutil.copyfile(kept[-1], MODULE)
    # A source that is changed while this runs is newer than the module.
    os.utime(MODULE, (begun, begun))
    return True


def main():
    """Makes the archive, or builds it by rt for a process that does."""
    if len(sys.argv) == 4 and sys.argv[1] == "--rt":
        return build_by_rt(Path(sys.argv[2]), sys.argv[3])
    parser = argparse.ArgumentParser(description=__doc__.splitlines()[0])
    parser.add_argument("--jobs", type=int, default=2, metavar="N")
    asked = parser.parse_args()
    if is_made(kit(), asked.jobs):
        return 0
    print(said(), file=sys.stderr)
    print(f"build_archive.py: the archive of {CRATE} is not proved", file=sys.stderr)
    return 1


if __name__ == "__main__":
    sys.exit(main())
