#!/usr/bin/env python3
"""Compares the table of files to believe in docs/ARCHITECTURE.md with what the contracts cite.

    scripts/checks/believed.py           compares, and prints the lines of each row; status 1 where a row is wrong
    scripts/checks/believed.py ROW..     prints the definitions that rows reach, by their files

From the words of the contracts of a row it goes over the imports to each definition, and on to those that it names, and to the
types of the code with their models. The row has to name each file of specs/ with such a definition, and no other; what a row
that it includes has needs no name. Lines are those of definitions without comments, and of types. No row may have more lines of
definitions than MOST_LINES says.
"""

import re
import sys
from pathlib import Path
from typing import NamedTuple

sys.path.append(f"{sys.path[0]}/..")  # where shared/ lies
from shared.programs import TOP, give_up

CRATES = TOP / "crates"
PAGE = TOP / "docs/ARCHITECTURE.md"
WORD = re.compile(r"[A-Za-z_][\w-]*(?:\.[A-Za-z_][\w-]*)*")
USE = re.compile(r"(?:^|\n)[ \t]*(?:pub |unfoldable |ghost )*use (Rattle\.[\w.-]+?)(?:\.\{([^}]*)\}| as (\w+))?;?(?=\n)")
DEFINED = re.compile(r"(?:(?:abbrev|unfoldable|pub|syntax) )*(?:record |data )?([\w◌-]\S*)")
STRIPPED = re.compile(r"--[^\n]*|\"(?:[^\"\\]|\\.)*\"")


class Module(NamedTuple):
    """A file of definitions: each with its lines, and what names of other files it imports."""

    path: Path
    blocks: dict
    imports: dict


def imports_of(text):
    """The imported names of a text: for each the module and the name there, or the module alone."""
    found = {}
    for module, names, alias in USE.findall(text):
        if alias:
            found[alias] = (module, None)
        elif not names:
            found[module.rsplit(".", 1)[-1]] = (module, None)
        for name in names.split(","):
            its, _, local = name.strip().partition(" as ")
            if its:
                found[local or its] = (module, its)
    return found


def parts_of(lines):
    """The top-level parts of a file of definitions: from the comment of each up to the next one."""
    part, is_head = [], True
    for line in lines:
        begins = bool(line) and not line.startswith((" ", ")", "}"))
        if begins and not is_head and part:
            yield part
            part = []
        part.append(line)
        if begins:
            is_head = line.startswith("--")
    if part:
        yield part


def blocks_of(text):
    """The definitions of a file by their names, each as its lines; the clauses of one are one part."""
    found, last = {}, None
    for part in parts_of(text.split("\n")):
        code = [line for line in part if line and not line.startswith("--")]
        if not code or re.match(r"(?:pub |unfoldable )*(?:use|mod) |ruleset", code[0]):
            continue
        name = DEFINED.match(code[0])[1]
        lines = [line for line in part if line and not line.startswith('--')]
        is_clause = not re.match(r"abbrev |unfoldable |pub |record |data ", code[0])
        if is_clause and last:
            found[last] += lines
            continue
        last = name
        found[last] = lines
        if re.search(r"\bdata\b", code[0]):
            for line in code[1:]:
                found.setdefault(line.split(":")[0].strip(), []).append("")
    return found


def modules():
    """The files of definitions of all crates, by the names of their modules."""
    found = {}
    for path in sorted(CRATES.glob("*/specs/**/*.antt")):
        crate, _, *folders = path.relative_to(CRATES).with_suffix("").parts
        text = path.read_text(encoding="utf-8")
        found[".".join(["Rattle", crate, "specs", *folders])] = Module(path, blocks_of(text), imports_of(text))
    return found


MODULES = modules()


# What no contract of a user needs: the page says so above its table.
INNER = re.compile(r"\.specs\.(?:Inner\b|Lib$)|starlark_text\.specs\.Scanning$|starlark_base\.specs\.Starts$|starlark_grammar\.specs\.Lengths$")


def owner_of(module, name):
    """The module that has a definition, and the definition's name, over exports; None if it isn't one of specs/ of a crate."""
    while module in MODULES:
        if name in MODULES[module].blocks:
            return module, name
        if name not in MODULES[module].imports:
            return None
        module, its = MODULES[module].imports[name]
        name = its or name
    return None


def cited_by(text, imports, here=None):
    """The definitions that a text names, by its imports."""
    for word in set(WORD.findall(STRIPPED.sub("", text))):
        first, _, rest = word.partition(".")
        if here and first in MODULES[here].blocks:
            yield here, first
        elif first in imports:
            module, name = imports[first]
            yield (module, name) if name else (module, rest.split(".")[0])


TYPE = re.compile(r"^[ \t]*pub(?:\([\w ]+\))? (?:struct|enum) %s\b.*?(?:;|\n\})", re.MULTILINE | re.DOTALL)
MODEL = r"^impl\b[^\n]* Model for %s\b.*?^\}"
GHOST = re.compile(r"^[ \t]*ghost (?:Value|view|invariant)\b.*?\};", re.MULTILINE | re.DOTALL)
USED = re.compile(r"^(?:pub )?use (crate|starlark_\w+)((?:::\w+)+)(?:::\{([^}]*)\})?;", re.MULTILINE)


def source_of(crate, modules):
    """The source of a module of a crate, by the names on the way to it; None if it has none of its own."""
    for count in range(len(modules), -1, -1):
        path = CRATES.joinpath(crate, "src", *(modules[:count] or ["lib"])).with_suffix(".rt")
        if path.is_file():
            return path
    return None


def used_types(crate, text):
    """The types that a source imports, by their names: the source of each."""
    for origin, way, names in USED.findall(text):
        steps = way.removeprefix("::").split("::")
        for name in [name.strip() for name in names.split(",") if name.strip()] or [steps.pop()]:
            path = source_of(crate if origin == "crate" else origin, steps)
            if path:
                yield name, path


def types_from(path, name, found):
    """Adds a type with its lines, and those of its fields, to what is found; returns what their models cite."""
    text = path.read_text(encoding="utf-8")
    declared = re.search(TYPE.pattern % name, text, TYPE.flags)
    if not declared or (path, name) in found:
        return []
    found[path, name] = sum(bool(line.strip()) for line in declared[0].split("\n"))
    model = re.search(MODEL % name, text, TYPE.flags)
    cited = [*cited_by("\n".join(GHOST.findall(model[0])), imports_of(text))] if model else []
    crate = path.relative_to(CRATES).parts[0]
    used = dict(used_types(crate, text))
    for word in set(re.findall(r"\b[A-Z]\w+", declared[0])):
        cited += types_from(used.get(word, path), word, found)
    return cited


def type_of(module):
    """The source and the name of a type that definitions cite, by the name of its module there."""
    _, crate, _, _, *steps = module.removesuffix(".TheVariants").split(".")
    return source_of(crate, steps[:-1]), steps[-1]


def reached_from(starts):
    """The definitions that some reach, with those, and the types of the code with their lines."""
    found, types, waiting = set(), {}, list(starts)
    while waiting:
        module, name = waiting.pop()
        if ".declared." in module and not module.endswith(".TheConstants"):
            if not module.startswith("Rattle.std."):
                waiting += types_from(*type_of(module), types)
            continue
        owner = owner_of(module, name)
        if owner and owner not in found:
            found.add(owner)
            its = MODULES[owner[0]]
            waiting += cited_by("\n".join(its.blocks[owner[1]]), its.imports, owner[0])
    return found, types


FUNCTION = re.compile(r"^([ \t]*)(?:pub(?:\([\w ]+\))? )?(?:const )?(?:extern \"C\" )?fn (\w+).*?(?=^\1\{|;\n)", re.MULTILINE | re.DOTALL)
PUBLIC = re.compile(r"[ \t]*pub (?:const |extern \"C\" )?fn")
CLAUSE = re.compile(r"^[ \t]*(?:requires|ensures)\b(?: (\w+))? \{(.*?)\}[ \t]*\n(?=[ \t]*(?:requires|ensures|\{|$))", re.MULTILINE | re.DOTALL)
VALUE = re.compile(r"^[ \t]*ghost (?!use|view|invariant)\w+.*?\};", re.MULTILINE | re.DOTALL)


def cited_in(path, names, with_private=False):
    """The definitions that contracts in a file cite: those of some functions, or of all that are public, and the values of models."""
    text = (CRATES / path).read_text(encoding="utf-8")
    clauses = [clause for clause in VALUE.findall(text) if not names or "ghost Value" in clause]
    for function in FUNCTION.finditer(text):
        is_taken = function[2] in names if names else with_private or PUBLIC.match(function[0])
        if is_taken:
            left_out = names.get(function[2], ())
            clauses += [clause for name, clause in CLAUSE.findall(function[0] + "\n{") if name not in left_out]
    return cited_by("\n".join(clauses), imports_of(text))


LEXER = "starlark_lexemes/src/lexemes.rt"
# The functions of each row of the table: for each file all that are public, or these without some clauses, which another row has.
# Rows of whole crates also have functions that only other crates of the repository call, and a checker's relation to what it has
# passed, which its contracts determine: inner definitions that these cite aren't asked for.
ROWS = {
    "`Lexer::next`": {LEXER: {"new": (), "next": ("cut",), "reads": ()}},
    "a `Lexer`'s cuts (`cut`, `known`), `step`, and as an iterator": {LEXER: {}},
    "`RecoveringLexer`": {f"starlark_recovery/src/{name}.rt": {} for name in ("recovering_lexer", "restarts")},
    "`LexedText`": {"starlark_lexed_text/src/lexed_text.rt": {}},
    "`run`, `run_edits`": {f"starlark_run/src/{name}.rt": {} for name in ("plain_runs", "edited_runs", "ends", "watched")},
    "the calls from C": {"starlark_c/src/lib.rt": {}},
    "`Document`": {"starlark_document/src/document.rt": {}},
    "the laws": {"starlark_grammar/src/laws/*.rt": {}, "starlark_words/src/laws.rt": {}, "starlark_syntax/src/*.rt": {}},
}
CRATE_ROWS = {
    "reports, `starlark_tokens`": ("starlark_tokens/src/**/*.rt",),
    "checks": ("starlark_checks/src/check.rt", "starlark_checks/src/checker.rt", "starlark_checks/src/laws.rt"),
    "tokens, integers, faults": ("starlark_token/src/*.rt",),
    "code maps, lines": ("starlark_base/src/**/*.rt",),
    "errors": ("starlark_errors/src/**/*.rt", "starlark_lexemes/src/source_error.rt"),
    "strings, indices, format strings, dialects": ("starlark_text/src/**/*.rt",),
}
DEFINITIONS = {"the grammar": [("Rattle.starlark_grammar.specs.Reading", "outcome")]}
# A program's promises are contracts of private functions over any output, too; not those of lines in the making.
PRIVATE = "starlark_tokens"
IN_THE_MAKING = "starlark_tokens/src/reporting/reporter.rt"
# Lines of definitions that a row has at most: one that is added is one more to believe.
MOST_LINES = {
    "the grammar": 660,
    "`Lexer::next`": 896,
    "`RecoveringLexer`": 1046,
    "`LexedText`": 881,
    "`run`, `run_edits`": 1052,
    "the calls from C": 1612,
    "reports, `starlark_tokens`": 2434,
    "`Document`": 1063,
    "checks": 394,
}


def files_of(patterns):
    """The sources that patterns name, from the folder of the crates."""
    for pattern in patterns:
        paths = sorted(CRATES.glob(pattern))
        if not paths:
            give_up(f"believed.py: there is no {pattern}")
        yield from (path.relative_to(CRATES) for path in paths if path != CRATES / IN_THE_MAKING)


def starts_of(key):
    """The definitions that the contracts of a row cite."""
    starts = [*DEFINITIONS.get(key, [])]
    for path, names in ROWS.get(key, {}).items():
        for file in files_of([path]):
            starts += cited_in(file, names)
    for file in files_of(CRATE_ROWS.get(key, ())):
        starts += [start for start in cited_in(file, {}, file.parts[0] == PRIVATE) if not INNER.search(start[0])]
    return starts


def rows_of(page):
    """The rows of the table of a page: what is believed, and what is to be read for it."""
    _, _, section = page.partition("## Which files to believe")
    return dict(re.findall(r"(?m)^\| (?!To believe|-)(.+?) \| (.+?) \|$", section))


def included_in(rows, key, part):
    """The rows that a part of a row includes: the one before it, or those that it calls by their names."""
    if part == "that":
        return [list(rows)[list(rows).index(key) - 1]]
    names = {other: other.replace("`", "").split(" (")[0].split(",")[0] for other in rows}
    return [other for other in rows if part.startswith(("that of ", "the grammar")) and names[other] in part.replace("`", "")]


def named_in(part):
    """The files of specs/ that a part of a row names: some of a crate, or all of it."""
    crate = re.search(r" of `(starlark_\w+)`$", part)
    front = f"Rattle.{crate[1] if crate else 'starlark_grammar'}.specs."
    if "all of `specs/`" in part:
        return {module for module, its in MODULES.items() if module.startswith(front) and its.blocks and not INNER.search(module)}
    return {f"{front}{name}" for name in re.findall(r"`([A-Z]\w+)`", part)} & MODULES.keys()


def files_named(rows, key):
    """The files that a row names itself, and those of the rows that it includes."""
    own, included = set(), set()
    for part in rows[key].split("; "):
        own |= named_in(part)
        for other in included_in(rows, key, part):
            included |= set.union(*files_named(rows, other))
    return own, included


def lines_of(found):
    """The lines of definitions."""
    return sum(len(MODULES[module].blocks[name]) for module, name in found)


def findings_of(rows, key):
    """What is wrong with a row."""
    found, _ = REACHED[key]
    reached, (own, included) = {module for module, _ in found}, files_named(rows, key)
    yield from (f"{key}: {module.removeprefix('Rattle.')} is missing" for module in sorted(reached - own - included))
    yield from (f"{key}: {module.removeprefix('Rattle.')} is not cited" for module in sorted(own - reached))
    if lines_of(found) > MOST_LINES.get(key, lines_of(found)):
        yield f"{key}: more than {MOST_LINES[key]} lines are to be believed"


def findings(text, page):
    """What is wrong in a page, each without a line, as the other checks of pages say it."""
    if page == PAGE:
        rows = rows_of(text)
        yield from ((None, f"there is no row of {key}") for key in REACHED.keys() - rows.keys())
        yield from ((None, said) for key in rows.keys() & REACHED.keys() for said in findings_of(rows, key))


REACHED = {key: reached_from(starts_of(key)) for key in [*DEFINITIONS, *ROWS, *CRATE_ROWS]}


def show(key):
    """Prints what a row reaches."""
    found, types = REACHED[key]
    for module in sorted({module for module, _ in found}):
        names = {(its, name) for its, name in found if its == module}
        print(f"{lines_of(names):5} {module.removeprefix('Rattle.')}: {', '.join(sorted(name for _, name in names))}")
    for (path, name), lines in sorted(types.items()):
        print(f"{lines:5} {path.relative_to(CRATES)}: {name}")


def main():
    """Compares all rows, or shows some."""
    for key in sys.argv[1:]:
        show(key)
    for key, (found, types) in REACHED.items():
        if not sys.argv[1:]:
            print(f"{lines_of(found):5} lines of definitions, {sum(types.values()):4} of types: {key}")
    wrong = [said for _, said in findings(PAGE.read_text(encoding="utf-8"), PAGE)]
    print("\n".join(wrong or ["files to believe: each row has those that its contracts cite"]))
    return 1 if wrong else 0


if __name__ == "__main__":
    sys.exit(main())
