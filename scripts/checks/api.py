#!/usr/bin/env python3
"""Writes docs/API.md: every public item of the crates that users name, from their sources.

    scripts/checks/api.py            says whether the page differs from the sources; status 1 where it does
    scripts/checks/api.py --write    writes the page

An item has its signature and the first sentence of its doc comment; an enum has its variants in its signature. It is listed
where it is defined or re-exported one by one; a module that another crate lists is named there, and not listed twice. The
page has no line numbers, so it changes only with the items.
"""

import re
import sys
import textwrap

sys.path.append(f"{sys.path[0]}/..")  # where shared/ lies
from shared.programs import TOP

PAGE = TOP / "docs/API.md"
CRATES = ["starlark_text", "starlark_base", "starlark_errors", "starlark_recovery", "starlark_syntax", "starlark_document", "starlark_devices", "starlark_run"]
HEAD = """# Public items

Made by `scripts/checks/api.py` from the sources; `.ci/run` compares it with them. Whole comments
and contracts are in the sources. [The pages for users](use/README.md) have examples;
[PROOFS.md](PROOFS.md) says what the functions in the modules `laws` state.
"""
# An enum with more variants has them in a block of their own.
MOST_VARIANTS = 12
ITEM = re.compile(r"pub (?:const |unsafe |final )*(fn|struct|enum|trait|const|type) (\w+)")
USE = re.compile(r"pub use ([\w:]+?)(?:::)?(?:\{([^}]*)\})?;", re.DOTALL)
MODULE = re.compile(r"^(pub )?mod (\w+);$", re.MULTILINE)
CLAUSE = re.compile(r"\s*(requires|ensures|decreases|where|ghost|aborts|writes|reads)\b")
VARIANT = re.compile(r"    (\w+)(\([^)]*\))?( \{(.*?\},)?|,)")


def wrapped(text, margin):
    """A text in lines of at most 100 characters."""
    return textwrap.fill(text, 100, subsequent_indent=margin, break_long_words=False, break_on_hyphens=False)


class Item:
    """A public item: its signature, what is said of it, and what belongs to it."""

    def __init__(self, name, signature, docs, crate=""):
        self.name = name
        self.key = (crate, name, docs)
        self.signature = signature
        self.docs = docs
        self.members = []

    def rows(self, margin=""):
        """The item's lines of the page."""
        variants = [it.signature for it in self.members if not it.signature.startswith(("fn ", "const "))]
        is_long = len(variants) > MOST_VARIANTS
        shown = self.signature if is_long or not variants else f"{self.signature} {{ {', '.join(variants)} }}"
        said = f": {self.docs}" if self.docs else ""
        yield wrapped(f"{margin}- `{shown.removeprefix('fn ')}`{said}", f"{margin}  ")
        if is_long:
            yield "\n" + wrapped(f"{margin}      {', '.join(variants)}", f"{margin}      ") + "\n"
        for member in self.members:
            if member.signature not in variants:
                yield from member.rows(f"{margin}  ")


class Source:
    """A file of a crate, with its items, modules and re-exports."""

    def __init__(self, path):
        self.path = path
        self.text = path.read_text(encoding="utf-8")
        self.rows = self.text.splitlines()
        self.modules = {name: bool(public) for public, name in MODULE.findall(self.text)}
        self.uses = [(start, [it.strip() for it in names.split(",") if it.strip()] if names else None) for start, names in USE.findall(self.text)]
        self.items = {}
        self.read_items()

    def read_items(self):
        """Reads the public items, each with its methods or variants."""
        owner = None
        in_trait = False
        for number, row in enumerate(self.rows):
            if row.startswith("impl"):
                subject = re.match(r"impl\s*(?:<[^{]*?>)?\s*([\w:]+)[^{]*", row)
                owner = None if " for " in row else self.items.get(subject.group(1))
            elif row.startswith("}"):
                owner = None
                in_trait = False
            found = ITEM.match(row.strip())
            if found and not row.startswith(" "):
                item = self.item(number, found)
                self.items[item.name] = item
                if found.group(1) in ("enum", "trait"):
                    owner, in_trait = item, True
            elif owner and in_trait:
                self.read_member(number, owner)
            elif found and owner and row.startswith("    pub "):
                owner.members.append(self.item(number, found))

    def read_member(self, number, owner):
        """Reads a variant of an enum, or a function of a trait."""
        row = self.rows[number]
        variant = VARIANT.fullmatch(row)
        function = re.match(r"    fn (\w+)", row)
        if variant and owner.signature.startswith("enum"):
            owner.members.append(Item(variant.group(1), re.sub(r" \{$", " { .. }", row.strip().rstrip(",")), self.docs(number)))
        elif function and owner.signature.startswith("trait"):
            owner.members.append(Item(function.group(1), self.signature(number), self.docs(number)))

    def item(self, number, found):
        """The item that a row begins."""
        return Item(found.group(2), self.signature(number), self.docs(number), self.path.relative_to(TOP / "crates").parts[0])

    def signature(self, number):
        """What is before the clauses and the body."""
        parts = []
        for row in self.rows[number:]:
            if CLAUSE.match(row) and parts:
                break
            end = re.search(r"\s*(\{|;|= )", re.sub(r"\[[^\]]*\]", lambda it: "x" * len(it.group()), row))
            parts.append(row[: end.start()] if end else row)
            if end:
                break
        text = re.sub(r"\s+", " ", " ".join(parts)).strip().removeprefix("pub ")
        return re.sub(r"\( ", "(", re.sub(r",? \)", ")", text))

    def docs(self, number):
        """The first sentence of the doc comment over a row."""
        said = []
        for row in reversed(self.rows[:number]):
            text = row.strip()
            if text.startswith("///"):
                said.insert(0, text[3:].strip())
            elif not text.startswith(("#[", "// ")):
                break
        first = said[: said.index("")] if "" in said else said
        return re.split(r"(?<=\.)\s", " ".join(first) + " ")[0].strip()


class Crate:
    """A crate, whose modules are read as they are asked for."""

    def __init__(self, name):
        self.name = name
        self.root = TOP / "crates" / name / "src"

    def source(self, path):
        """The file of a module."""
        file = self.root.joinpath(*path).with_suffix(".rt") if path else self.root / "lib.rt"
        return Source(file)

    def public(self, path):
        """The items, public modules and modules of other crates of a module."""
        source = self.source(path)
        items = list(source.items.values())
        modules = [name for name, is_public in source.modules.items() if is_public]
        others = []
        for start, names in source.uses:
            self.follow(path, source, start.split("::"), names, items, others)
        return items, modules, others

    def follow(self, path, source, start, names, items, others):
        """What a re-export names."""
        if names is None:
            names = [start.pop()]
        at, crate = list(path), self
        if start and start[0] == "crate":
            at, start = [], start[1:]
        elif start and start[0].startswith("starlark_"):
            crate, at, start = Crate(start[0]), [], start[1:]
        for name in names:
            found = crate.find([*at, *start], name)
            if found is None:
                others.append("::".join([crate.name, *at, *start, name]))
            else:
                items.append(found)

    def find(self, path, name):
        """The item of a name that a module defines or re-exports; none where it is a module."""
        source = self.source(path)
        if name in source.items:
            return source.items[name]
        if name in source.modules:
            return None
        for start, names in source.uses:
            items, others = [], []
            self.follow(path, source, start.split("::"), names, items, others)
            for item in items:
                if item.name == name:
                    return item
            if any(other.endswith("::" + name) for other in others):
                return None
        sys.exit(f"api.py: {self.name} has no {'::'.join([*path, name])}")


def section(crate, path, listed):
    """The lines of a module and the modules in it. An item that is listed already is named as re-exported."""
    items, modules, others = crate.public(path)
    yield f"\n{'##' if not path else '###'} `{'::'.join([crate.name, *path])}`\n"
    known = [item for item in items if item.key in listed]
    others += [f"{item.key[0]}::{item.name}" for item in known]
    new = [item for item in items if item not in known]
    if path[-1:] == ["laws"]:
        yield wrapped(f"{', '.join(f'`{item.name}`' for item in new)}.", "")
        new = []
    for item in new:
        listed.add(item.key)
        yield from item.rows()
    if others:
        if new:
            yield ""
        yield wrapped(f"Re-exported: {', '.join(f'`{other}`' for other in others)}.", "")
    for name in modules:
        yield from section(crate, [*path, name], listed)


def page():
    """The whole page."""
    listed = set()
    lines = [line for name in CRATES for line in section(Crate(name), [], listed)]
    return HEAD + "\n".join(lines) + "\n"


def main():
    """Compares or writes the page."""
    wanted = page()
    if PAGE.exists() and PAGE.read_text(encoding="utf-8") == wanted:
        print("docs/API.md: it has the public items of the sources")
        return
    if "--write" in sys.argv[1:]:
        PAGE.write_text(wanted, encoding="utf-8")
        return
    sys.exit("docs/API.md differs from the sources: scripts/checks/api.py --write")


if __name__ == "__main__":
    main()
