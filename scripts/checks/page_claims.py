#!/usr/bin/env python3
"""Finds claims in the pages that the sources belie, or that would go wrong unseen.

    scripts/checks/page_claims.py           reads README.md, docs/*.md and docs/use/*.md; status 1 where there is such a claim
    scripts/checks/page_claims.py PAGE..    reads these pages

- No page counts edits, crates, functions, laws, rows, texts or their like: a number that was right goes wrong unseen.
- `f` is inlined: some `fn f` has the attribute. `f` is not inlined, or a function of its own: some `fn f` has no
  `inline(always)`.
- `f` never fails: some `fn f` returns no `Result`.
- `X` never does something else, or alone does it; `X` calls, asks, reads or uses nothing; nothing else or only `X` calls,
  asks, reads or uses something: after that the sentence names in parentheses, or the row in a cell, what shows it.
- Something was run, tried or measured, has been so, or isn't there yet: the sentence links EXPERIMENTS.md or PLAN.md.
- The recipe for an operator: a source or page that has each operator of three bytes, by its name or its text, is printed
  by the recipe's `git grep` or named there; a file in a row of its table is such a one.

scripts/checks/page_names.py checks that what is named as showing a claim is there; that it shows the claim, a reader checks. Of
EXPERIMENTS.md only counts are checked, since it has what was so, and nothing of API.md, whose sentences are the sources'.
"""

import functools
import re
import shlex
import subprocess
import sys
from typing import NamedTuple

sys.path.append(f"{sys.path[0]}/..")  # where shared/ lies
from shared.page_text import SOURCES, SPAN, files, named_in, paths_of, pieces_of, print_findings, text_of
from shared.programs import TOP, give_up

S = r"`[^`\n]+`"
OWNERS = rf"(?: \([^()]*\)| of {S})*"
# Names in a row, each with the file or crate that it is in.
NAMES = rf"{S}{OWNERS}(?:(?:, | and |, and ){S}{OWNERS})*"

COUNTED = re.compile(
    r"\b(?:\d[\d,]*|six|seven|eight|nine|ten|eleven|twelve|fifteen|sixteen|twenty) (?:further |public |must-fail )*"
    r"(?:edits|crates|functions|laws|lemmas|definitions|contracts|modules|rows|texts|scripts|pages)\b(?! (?:of documents|twice))"
)
INLINED = re.compile(
    rf"({NAMES})(?: and what (?:it|they) calls?)?(?: \|)? (?:is |are |stays? )?"
    r"(?:(always inlined|inlined)|not inlined|(?:a )?functions? of (?:its|their) own)\b"
)
DENIED = re.compile(
    rf"`[\w:/.]+`\** (?:never|alone) \w+|`[\w:/.]+`\** (?:asks|calls|reads|uses) (?:no|nothing|none)\b"
    rf"|\b(?:nothing|none|no other \w+)(?: else)? (?:asks|calls|reads|uses)\b"
    rf"|\bonly caller|\bonly {S} (?:asks|calls|reads|uses)\b",
    re.IGNORECASE,
)
SHOWN = re.compile(rf"\([^()]*{S}[^()]*\)|\| {S}")
DONE = re.compile(
    r"\b(?:has|have|had)(?:n't)? (?:never |not |only )?(?:been|had)\b|\b(?:was|were) (?:never |not |only )?(?:run|tried|measured)\b"
    r"|\b(?:is|are|has|have)(?:n't| no| not| none| nothing)\b[^.:;|]*\byet\b"
)
RECIPE = re.compile(r"^### One more operator.*?(?=^#|\Z)", re.MULTILINE | re.DOTALL)
OPERATOR = re.compile(r'"([^"\w]{3})" (\w+) = ')
FUNCTION = re.compile(
    r"((?:^[ \t]*(?:#\[|//)[^\n]*\n)*)^[^\n/]*\bfn (\w+)(.*?)(?:^\s*(?:requires|ensures)\b|\{|;\n)",
    re.MULTILINE | re.DOTALL,
)


class Function(NamedTuple):
    """Whether a function has an attribute to inline it, and the one that forces this, and whether it returns a `Result`."""

    is_inlined: bool
    is_forced: bool
    may_fail: bool


@functools.cache
def functions():
    """The functions of all crates, by name, but for those of rows, where a function has the name of the call that it makes."""
    found = {}
    for path in files():
        if path.suffix != ".rt" or {"starlark_calls", "starlark_rows"} & {*path.parts}:
            continue
        for attributes, name, rest in FUNCTION.findall(text_of(path)):
            inline = re.search(r"#\[inline(?!\(never\))", attributes)
            function = Function(bool(inline), "inline(always)" in attributes, "Result<" in rest.rpartition("->")[2])
            found.setdefault(name, []).append(function)
    return found


def functions_in(names):
    """The functions that a text names in backquotes, by name, without those in parentheses."""
    for span in re.findall(SPAN, re.sub(r"\([^()]*\)", "", names)):
        if found := functions().get(span.split("::")[-1]):
            yield span, found


def wrongly_inlined(sentence):
    """Functions that are said to be inlined, or not to be, and aren't so."""
    for found in INLINED.finditer(sentence):
        for name, those in functions_in(found.group(1)):
            if found.group(2) and not any(it.is_inlined for it in those):
                yield f"{name} isn't inlined"
            if not found.group(2) and all(it.is_forced for it in those):
                yield f"{name} is inlined"


def wrongly_safe(sentence):
    """Functions that are said never to fail, and return a `Result`."""
    is_row = re.search(r"\| never fails\b", sentence)
    named = sentence.split("|")[1] if is_row else "".join(re.findall(rf"{S}(?=\**(?: \([^()]*\))? never fails)", sentence))
    for name, those in functions_in(named):
        if all(it.may_fail for it in those):
            yield f"{name} may fail"


def unshown(sentence):
    """Denials that name nothing that shows them."""
    for found in DENIED.finditer(sentence):
        if not found.group().endswith("never fails") and not SHOWN.search(sentence, found.end()):
            yield f"nothing is named that shows: {found.group()}"


def findings_in(sentence, page):
    """What a sentence or row claims and shouldn't."""
    bare = re.sub(SPAN, "x", sentence)
    for found in COUNTED.finditer(bare):
        yield f"a count that goes wrong unseen: {found.group()}"
    if page.name == "EXPERIMENTS.md":
        return
    yield from wrongly_inlined(sentence)
    yield from wrongly_safe(sentence)
    yield from unshown(sentence)
    if page.name != "PLAN.md" and not re.search(r"\b(?:EXPERIMENTS|PLAN)\.md\b", sentence):
        for found in DONE.finditer(bare):
            yield f"not in EXPERIMENTS or PLAN: {found.group()}"


@functools.cache
def operators():
    """The operators of three bytes: the text of each, and its name, in whatever case and with `_` or not."""
    rows = OPERATOR.findall(text_of(TOP / "crates/starlark_grammar/src/class.rt"))
    return [(text, re.compile(re.sub(r"\B(?=[A-Z])", "_?", name), re.IGNORECASE)) for text, name in rows]


@functools.cache
def has_operators(path):
    """Whether a file has each of these operators."""
    return all(text in text_of(path) or name.search(text_of(path)) for text, name in operators())


def found_by(recipe):
    """The files that the searches of a recipe print."""
    for command in re.findall(r"^ +(git grep -l.*)$", recipe, re.MULTILINE):
        ran = subprocess.run(shlex.split(command), cwd=TOP, capture_output=True, text=True, check=False)
        if ran.returncode > 1:
            give_up(f"{command} fails: {ran.stderr}")
        yield from (TOP / name for name in ran.stdout.splitlines())


def files_of_table(recipe, page):
    """The files that are named in the first cells of a recipe's table."""
    for row in re.findall(r"^\|([^|]+)\|", recipe, re.MULTILINE):
        for span, owner in named_in(row):
            crate = owner[1] if owner and owner[0] == "crate" else None
            yield from (path for path in paths_of(span, page, crate) if path.is_file())


def recipe_findings(recipe, page):
    """The files that the recipe for an operator leaves out, and those that its table names in vain."""
    named = {path for name in re.findall(rf"{SPAN}|\]\(([^)]+)\)", recipe) for path in paths_of("".join(name), page)}
    covered = {*found_by(recipe), *named}
    for path in files():
        if path.suffix in {*SOURCES, ".md"} and path not in covered and has_operators(path):
            yield f"the recipe for an operator leaves out {path.relative_to(TOP)}"
    for path in files_of_table(recipe, page):
        if not has_operators(path):
            yield f"the recipe for an operator names in vain {path.relative_to(TOP)}"


def findings(text, page):
    """What a page with this text claims and shouldn't, each with its line."""
    if page.name == "API.md":
        return
    for line, piece in pieces_of(text):
        sentences = [piece] if piece.startswith("|") else re.split(r"(?<=\.)(?:\*\*)?\s+", piece)
        for sentence in sentences:
            for said in dict.fromkeys(findings_in(sentence, page)):
                yield line, said
    if found := RECIPE.search(text):
        line = text.count("\n", 0, found.start()) + 1
        yield from ((line, said) for said in recipe_findings(found.group(), page))
    elif page.name == "CONTRIBUTING.md":
        yield 1, "there is no recipe for an operator"


if __name__ == "__main__":
    sys.exit(print_findings(findings, "claims in pages", "are wrong or unshown"))
