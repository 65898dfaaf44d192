#!/usr/bin/env python3
"""Makes the lexer as WebAssembly, from the LLVM module of which the proved library for C is made.

    scripts/bindings/web_module.py OUTPUT

scripts/bindings/build_archive.py proves and builds the library, and keeps its module. The kit's clang compiles
that module and bindings/web/heap.c for wasm64, and its lld links them. binaryen's wasm-opt lowers what
comes of that to a memory of 32 bits, which every browser has; offsets keep their 64 bits. The exit
status is 0, or 1 where something failed, or 2 where there is no wasm-opt: then OUTPUT isn't touched,
and standard error says why.
"""

import os
import re
import shutil
import subprocess
import sys
from pathlib import Path
from tempfile import TemporaryDirectory

from build_archive import MODULE, is_made, kit
sys.path.append(f"{sys.path[0]}/..")  # where shared/ lies
from shared.programs import TOP

JOBS = 2
TARGET = ["--target=wasm64-unknown-unknown", "-msimd128", "-ffunction-sections", "-fdata-sections"]


class Failure(Exception):
    """A command failed; the text says what it printed."""


def run(words, **how):
    """Runs a command, and returns what it prints."""
    ran = subprocess.run(words, stdin=subprocess.DEVNULL, capture_output=True, text=True, check=False, **how)
    if ran.returncode:
        raise Failure(f"{ran.stdout}{ran.stderr}{' '.join(map(str, words))} ended with {ran.returncode}")
    return ran.stdout


# What the module may have beside plain WebAssembly, while its memory has 64 bits and afterwards.
FEATURES = ["simd", "bulk-memory", "sign-ext", "mutable-globals", "nontrapping-float-to-int"]
# An access of SIMD, up to its address, which binaryen 108 leaves with 64 bits.
SIMD_ACCESS = re.compile(
    r"\(v128\.(?:load\d+(?:_zero|_splat|x\d+_[su]|_lane)|store\d+_lane)[ \w=]*\s*(?=\((?!i32\.wrap_i64))"
)


# A call of the header that bindings/c/calls.c alone has.
NOT_PROVED = "starlark_status_text"


def exported():
    """The proved calls of the header, and what places buffers in the memory."""
    header = (TOP / "bindings/c/starlark_lex.h").read_text()
    names = re.findall(r"^[a-z][\w ]*\W(starlark_\w+)\(", header, re.M)
    calls = [name for name in names if name != NOT_PROVED]
    return [f"--export={name}" for name in [*calls, "heap_begin", "heap_take", "heap_give", "__heap_base"]]


def end_of_expression(text, begin):
    """The offset after the expression in parentheses that begins at an offset."""
    depth = 0
    for parenthesis in re.compile(r"[()]").finditer(text, begin):
        depth += 1 if parenthesis[0] == "(" else -1
        if depth == 0:
            return parenthesis.end()
    raise Failure("wasm-opt printed an expression without its end")


def with_short_addresses(text):
    """A module's text in which each access of SIMD has an address of 32 bits."""
    begins = [access.end() for access in SIMD_ACCESS.finditer(text)]
    added = [(begin, "(i32.wrap_i64 ") for begin in begins]
    added += [(end_of_expression(text, begin), ")") for begin in begins]
    parts = []
    at = 0
    for end, inserted in sorted(added):
        parts += [text[at:end], inserted]
        at = end
    return "".join([*parts, text[at:]])


def lowered(wide, work):
    """Lowers a module to a memory of 32 bits, and returns the file."""
    text, made = work / "lowered.wat", work / "starlark_lex.wasm"
    features = [f"--enable-{feature}" for feature in FEATURES]
    # Before its accesses of SIMD are mended the module isn't valid.
    run(["wasm-opt", wide, *features, "--enable-memory64", "--no-validation", "--memory64-lowering", "-S", "-o", text])
    text.write_text(with_short_addresses(text.read_text()))
    run(["wasm-opt", text, *features, "-o", made])
    return made


def linked(kit_folder, work):
    """Compiles and links the module, and returns the file."""
    clang = kit_folder / "toolchain/bin/clang"
    made = work / "wide.wasm"
    run([clang, *TARGET, "-O3", "-c", "-x", "ir", MODULE, "-o", work / "lex.o"])
    heap = ["-std=c11", "-O2", "-Wall", "-Wextra", "-Werror", "-ffreestanding", "-fno-builtin"]
    run([clang, *TARGET, *heap, "-c", TOP / "bindings/web/heap.c", "-o", work / "heap.o"])
    # The kit's clang is its linker, too, when it is called by a linker's name.
    (work / "wasm-ld").symlink_to(clang)
    options = ["-mwasm64", "--no-entry", "--gc-sections", "--strip-all", *exported()]
    run([work / "wasm-ld", *options, work / "lex.o", work / "heap.o", "-o", made])
    return made


def make(output):
    """Makes the module."""
    kit_folder = kit()
    with TemporaryDirectory() as folder:
        work = Path(folder)
        # A source that is changed while this runs is newer than the output.
        begun = work / "begun"
        begun.touch()
        if not is_made(kit_folder, JOBS):
            raise Failure("the library is not proved")
        made = lowered(linked(kit_folder, work), work)
        shutil.copystat(begun, made)
        output.parent.mkdir(parents=True, exist_ok=True)
        new = output.with_name(f"{output.name}.new.{os.getpid()}")
        shutil.copy2(made, new)
        new.replace(output)


def main():
    """Makes the module."""
    if len(sys.argv) != 2 or sys.argv[1].startswith("-"):
        print("usage: scripts/bindings/web_module.py OUTPUT", file=sys.stderr)
        return 1
    if not shutil.which("wasm-opt"):
        print("web_module.py: there is no wasm-opt, which binaryen has", file=sys.stderr)
        return 2
    try:
        make(Path(sys.argv[1]))
    except Failure as failure:
        print(f"{failure}\nweb_module.py: the module was not made", file=sys.stderr)
        return 1
    return 0


if __name__ == "__main__":
    sys.exit(main())
