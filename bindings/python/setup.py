"""Builds the extension module over the archive of the proved lexer.

The folder that STARLARK_LEX_DIR names has `libstarlark_lex.a` and `starlark_lex.h`, or a folder `lib`
with the one and a folder `include` with the other, as a release for C has them.
"""

import os
import sys
from pathlib import Path
from sysconfig import get_config_var

from setuptools import Extension, setup
from setuptools.command.build_ext import build_ext

FOLDER = "STARLARK_LEX_DIR"
ARCHIVE = "libstarlark_lex.a"
HEADER = "starlark_lex.h"
SOURCES = ["columns.c", "document.c", "library.c", "maker.c", "offsets.c", "pieces.c", "semantic.c", "texts.c", "tokens.c"]

# One module serves all versions from 3.9 on. A free-threaded build has no limited API.
IS_LIMITED = not get_config_var("Py_GIL_DISABLED")


def found(name, subfolder):
    """The path of a file of the library for C."""
    folder = os.environ.get(FOLDER)
    if not folder:
        sys.exit(f"starlark_lexer is built over {ARCHIVE}: let {FOLDER} name the folder that has it and {HEADER}")
    for path in (Path(folder, name), Path(folder, subfolder, name)):
        if path.is_file():
            return path.resolve()
    return sys.exit(f"there is no {name} in the folder {folder}, which {FOLDER} names")


class BuildOverArchive(build_ext):
    """Looks for the archive only where something is built: none is needed to make an sdist."""

    def build_extension(self, extension):
        archive = found(ARCHIVE, "lib")
        extension.include_dirs.append(str(found(HEADER, "include").parent))
        extension.extra_objects.append(str(archive))
        extension.depends.append(str(archive))
        super().build_extension(extension)


setup(
    cmdclass={"build_ext": BuildOverArchive},
    ext_modules=[
        Extension(
            "starlark_lexer.library",
            sources=["src/" + name for name in SOURCES],
            depends=["src/library.h"],
            define_macros=[("Py_LIMITED_API", "0x03090000")] if IS_LIMITED else [],
            extra_compile_args=["-std=c11", "-g0", "-fvisibility=hidden", "-Wall", "-Wextra"],
            extra_link_args=["-Wl,--exclude-libs,ALL", "-Wl,--gc-sections", "-Wl,-z,relro,-z,now"],
            py_limited_api=IS_LIMITED,
        )
    ],
    options={"bdist_wheel": {"py_limited_api": "cp39"}} if IS_LIMITED else {},
)
