#!/usr/bin/env python3
"""Compares the numbers that cross to C, Rust, Python, Go and JavaScript: in the definitions, the header, the
crate, the packages and the module.

    scripts/checks/binding_numbers.py [--write]

The numbers and classes of keywords and symbols are those of the grammar's table (class.rt), those of
other kinds, of faults and of classes stand in crates/starlark_c/specs, those of statuses in its src. A
number never changes.
With --write, keywords and symbols that are new in the table are added after the last ones, and the kinds
of Go written anew. The exit status is 0 where all agree, and 1 where some don't.
"""

import argparse
import re
import subprocess
import sys
from pathlib import Path

TOP = Path(__file__).resolve().parent.parent.parent
CRATE = TOP / "crates/starlark_c"
HEADER = TOP / "bindings/c/starlark_lex.h"
CALLS = TOP / "bindings/c/calls.c"
PACKAGE = TOP / "bindings/python/starlark_lexer"
RUST = TOP / "bindings/rust/src"
SCRIPT = TOP / "bindings/web/lexer.js"
TABLE = TOP / "crates/starlark_grammar/src/class.rt"
GO = TOP / "bindings/go/scripts/kinds.py"

# Where the last keyword or symbol stands, by its text, name and number, and what goes after it for a
# new one. Where that is None, the new one takes its place.
KIND_LINES = [
    (HEADER, "STARLARK_KIND_{upper} = {number}", ",\n    STARLARK_KIND_{upper} = {number}"),
    (CALLS, '    [STARLARK_KIND_{upper}] = "{name}",\n', '    [STARLARK_KIND_{upper}] = "{name}",\n'),
    (PACKAGE / "kinds.py", "    {upper} = {number}\n", "    {upper} = {number}\n"),
    (PACKAGE / "kinds.py", "    Kind.{upper}: KindClass.{of_class},\n", "    Kind.{upper}: KindClass.{of_class},\n"),
    (PACKAGE.parent / "src/library.h", "STARLARK_KIND_{upper} + 1", None),
    (
        RUST / "token.rs",
        "        {name}: {in_class} = {number},\n",
        "        /// {described}\n        {name}: {in_class} = {number},\n",
    ),
    (TOP / "bindings/web/lexer.d.ts", '    | "{name}"', '\n    | "{name}"'),
]


def plain(name):
    """A name without its form: in lower case, without underscores."""
    return name.replace("_", "").lower()


def found(file, pattern):
    """The names and numbers that a pattern finds in a file, in order."""
    return [(plain(name), int(number)) for name, number in re.findall(pattern, file.read_text())]


def table():
    """The texts, names, numbers and classes of keywords and symbols, in order of the numbers."""
    rows = re.findall(r'^ +\S.* "(\S+)" (\w+) = (\d+)(?: (\w+))?,$', TABLE.read_text(), re.M)
    filled = ((text, name, int(number), kind_class or "Keyword") for text, name, number, kind_class in rows)
    return sorted(filled, key=lambda row: row[2])


def fields(row):
    """The fields of a row, for what is written of it."""
    text, name, number, kind_class = row
    upper = re.sub(r"\B(?=[A-Z])", "_", name).upper()
    described = f"The keyword `{text}`." if kind_class == "Keyword" else f"`{text}`"
    of_class = {"in_class": kind_class, "of_class": kind_class.upper(), "described": described}
    return {"name": name, "upper": upper, "number": number, **of_class}


def write():
    """Adds the keywords and symbols that are new."""
    rows = table()
    last = enumerators("KIND_")[-1][1]
    for old, new in zip(rows, rows[1:]):
        for file, line, added in KIND_LINES if new[2] > last else []:
            before = line.format(**fields(old))
            after = before + added.format(**fields(new)) if added else line.format(**fields(new))
            file.write_text(file.read_text().replace(before, after))


def members(file, name):
    """The names and numbers of an enumeration of the package."""
    body = re.search(rf"class {name}\(IntEnum\):(.*?)(?:\nclass |\Z)", file.read_text(), re.S)
    return [(plain(member), int(number)) for member, number in re.findall(r"^    (\w+) = (\d+)$", body[1], re.M)]


def arms(file, name):
    """The names and numbers of an enumeration of the crate, in order of the numbers."""
    text = file.read_text()
    pairs = [(plain(variant), int(number)) for number, variant in re.findall(rf"^ +(\d+) => {name}::(\w+)", text, re.M)]
    if name == "TokenKind":
        pairs += found(file, r"(?m)^        (\w+)(?:\(.*\))?: \w+ = (\d+),$")
    if name == "KindClass":
        pairs += found(file, r"(?m)^    (\w+) = (\d+),$")
    return sorted(pairs, key=lambda pair: pair[1])


def enumerators(prefix):
    """The names and numbers of the header that begin with a prefix."""
    return found(HEADER, rf"STARLARK_{prefix}(\w+) = (\d+)")


def strings(prefix):
    """The strings of the header's calls, which have the name of their number, and the numbers."""
    numbers = dict(enumerators(prefix))
    named = re.findall(rf'\[STARLARK_{prefix}(\w+)\] = "(\w+)",', CALLS.read_text())
    return [(plain(text), numbers[plain(name)]) for name, text in named]


def statuses():
    """The statuses of the header."""
    body = re.search(r"enum starlark_status \{(.*?)\};", HEADER.read_text(), re.S)
    return [(plain(name), int(number)) for name, number in re.findall(r"STARLARK_STATUS_(\w+) = (\d+)", body[1])]


def defined_quotes():
    """The numbers of quotes in the definitions."""
    pattern = r"quotes_number (Single|Double) (true|false) = (\d+)"
    found_quotes = re.findall(pattern, (CRATE / "specs/Records.antt").read_text())
    return [(plain(("Triple" if is_triple == "true" else "") + quote), int(number)) for quote, is_triple, number in found_quotes]


def classed(kinds, classes):
    """The numbers of kinds, each with the names of a kind and its class."""
    return [(f"{name} is {plain(classes.get(number, ''))}", number) for name, number in kinds]


def defined_classes():
    """The classes of kinds by their numbers, in the definitions."""
    other = re.findall(r"\((\d+), class\.(\w+)\)", (CRATE / "specs/KindClasses.antt").read_text())
    return {**{int(number): name for number, name in other}, **{number: name for _, _, number, name in table()}}


def package_classes(kinds):
    """The classes of kinds by their numbers, in the package."""
    pairs = re.findall(r"^    Kind\.(\w+): KindClass\.(\w+),$", (PACKAGE / "kinds.py").read_text(), re.M)
    numbers = dict(kinds)
    return {numbers[plain(name)]: kind_class for name, kind_class in pairs}


def crate_classes():
    """The classes of kinds by their numbers, in the crate."""
    rows = re.findall(r"^        \w+(?:\(.*\))?: (\w+) = (\d+),$", (RUST / "token.rs").read_text(), re.M)
    return {int(number): kind_class for kind_class, number in rows}


def script_classes():
    """The numbers of classes in the module for JavaScript."""
    body = re.search(r"const CLASSES = \[(.*?)\];", SCRIPT.read_text(), re.S)
    names = re.findall(r'"(\w*)"', body[1])
    return [(plain(name), number) for number, name in enumerate(names) if name]


def compared():
    """What is compared: a name, the numbers that are right, and those of each place.

    The header has no classes of kinds, and the module neither these nor kinds: they call the library.
    """
    kinds, token, package = CRATE / "specs/Kinds.antt", RUST / "token.rs", PACKAGE / "kinds.py"
    records, classes = CRATE / "specs/Records.antt", CRATE / "specs/KindClasses.antt"
    right = found(kinds, r"token_number \(?grammar\.(\w+)(?: \w+\))? = (\d+)")
    right += [(plain(name), number) for _, name, number, _ in table()]
    of_package, of_crate = members(package, "Kind"), arms(token, "TokenKind")
    of_header = {"header": enumerators("KIND_"), "names": strings("KIND_")}
    yield "kinds", right, {**of_header, "package": of_package, "crate": of_crate}
    of_package, of_crate = classed(of_package, package_classes(of_package)), classed(of_crate, crate_classes())
    yield "classes of kinds", classed(right, defined_classes()), {"package": of_package, "crate": of_crate}
    right = found(classes, r"class_number class\.(\w+) = (\d+)")
    of_package, of_crate = members(package, "KindClass"), arms(token, "KindClass")
    places = {"header": enumerators("CLASS_"), "package": of_package, "crate": of_crate, "module": script_classes()}
    yield "classes", right, places
    right = found(records, r"fault_number \(?grammar\.(\w+)(?: \w+\))? = (\d+)")
    of_package, of_crate = members(package, "FaultKind"), arms(RUST / "fault.rs", "FaultKind")
    yield "faults", right, {"header": enumerators("FAULT_"), "package": of_package, "crate": of_crate}
    of_package, of_crate = members(package, "Quotes"), arms(token, "FStringQuote")
    yield "quotes", defined_quotes(), {"header": enumerators("QUOTES_"), "package": of_package, "crate": of_crate}
    status = r"pub const (\w+): u32 = (\d+);"
    right = found(CRATE / "src/outcomes.rt", status) + found(CRATE / "src/replies.rt", status)
    # calls.c gives each document a slot of its own, so that none is opened twice.
    right = [pair for pair in right if pair[0] != "opened"]
    # The package is compiled over the header, and has no statuses of its own.
    yield "statuses", right, {"header": statuses(), "crate": found(RUST / "ffi.rs", r"const (\w+): u32 = (\d+);")}


def main():
    """Compares all numbers."""
    parser = argparse.ArgumentParser(description=__doc__.splitlines()[0])
    parser.add_argument("--write", action="store_true", help="add new keywords and symbols first")
    is_written = parser.parse_args().write
    if is_written:
        write()
    # That of Go has all kinds from the header and the table.
    wrong = subprocess.run([sys.executable, GO, *["--write"] * is_written], check=False).returncode
    for name, right, places in compared():
        if not right or [number for _, number in right] != sorted({number for _, number in right}):
            print(f"{name}: the definitions have no numbers, or one twice")
            wrong += 1
        for place, numbers in places.items():
            if numbers != right:
                print(f"{name} of the {place} differ: {sorted(set(numbers) ^ set(right))}")
                wrong += 1
        print(f"{len(right)} {name}")
    return 1 if wrong else 0


if __name__ == "__main__":
    sys.exit(main())
