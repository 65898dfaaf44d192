#!/usr/bin/env python3
"""Finds names in the pages that the repository doesn't have.

    scripts/checks/page_names.py            reads README.md, docs/*.md and docs/use/*.md; status 1 where a name isn't there
    scripts/checks/page_names.py PAGE..     reads these pages

What is in backquotes is compared, but for blocks of code, and for words of a page that is about another language's names:

- a path or file name has to be there, a script and an edit too; of `x.rt` of `crate` in that crate;
- of `name` (`x.rt`) the name has to be in that file;
- of `Type::name` the file of the type or module has to have the name;
- of `function`: `clause` a file that has the function has to have the clause;
- of `a`, `b` of `crate` that crate has to have the names, as words of its sources or as its modules;
- a link to a file has to lead to one;
- any other name of a program has to be a word of the sources, of the scripts or of `bindings/`.

scripts/checks/page_claims.py checks what the pages say of these names.
"""

import functools
import re
import sys
from pathlib import Path

sys.path.append(f"{sys.path[0]}/..")  # where shared/ lies
from shared.page_text import NAME, SOURCES, SPAN, files, named_in, paths_of, pieces_of, print_findings, text_of, words_of
from shared.programs import TOP

# What is built, the reader's, or the kit's: no file of the repository.
MADE = re.compile(r"^(out|target|crates/\w+/out|\.git)\b|^/dev/|^//|^(ketchupcrag|crates/my_tool)\b|^(src/main\.rs|FROM_RUST\.md|PROVED\.txt|rattle|lib/pkgconfig)$")
PLACEHOLDER = re.compile(r"NAME|-VERSION|CRATE|WHAT|FILE|DIR|PROGRAM|FOLDER|PAGE|COPY|BUILD|\.\.\.|<|>|\*|\$|\bX\b")
# Names of other programs, languages and libraries, one line for each.
FOREIGN = set(
    """rt ci try check run lib fmt tidy plant verdict must-fail jq git cargo rustc clang gcc cc valgrind callgrind perf
    python3 printf sh cat cmp wc dpkg time node npm pip wasm64 stdin stdout args data stderr
    std core memchr thiserror anyhow serde anyhow lsp_types pygments tokenize
    checked_add UnicodeEncodeError Dupe empty_static new_anyhow ketchupcrag rattle find_package bigint
    LD_PRELOAD CARGO_TARGET_DIR RT_JOBS CC PATH diff_test
    io str char u8 u32 u64 usize i32 f64 bool Vec Box Rc String HashMap Option Result Some None Ok Err Iterator
    """.split()
)
# The scripts on pages, whose examples are no names.
CHECKS = {"page_names.py", "page_claims.py", "try_page_checks.py"}


@functools.cache
def sources():
    """The files whose words are names."""
    named = ("crates.txt", "run", "starlark_lex", "starlark_tokens")
    return [path for path in files() if path.name not in CHECKS and (path.suffix in SOURCES or path.name in named)]


@functools.cache
def all_words():
    """The words of all sources, the names of all files, and the folders."""
    words = {part for path in files() for part in path.relative_to(TOP).parts} | {path.stem for path in files()}
    return words.union(*(words_of(path) for path in sources()))


@functools.cache
def words_of_crate(crate):
    """The words of a crate's sources, and its files and folders."""
    folder = TOP / "crates" / crate
    inside = [path for path in files() if path.is_relative_to(folder)]
    words = {part for path in inside for part in path.relative_to(folder).parts} | {path.stem for path in inside}
    return words.union(*(words_of(path) for path in inside if path.suffix in (".rt", ".antt")))


def is_path(span):
    """Whether a span is a path or a file's name."""
    return bool(re.fullmatch(r"[\w./*-]+", span)) and ("/" in span or Path(span).suffix in {*SOURCES, ".md", ".txt", ".edit", ".json"})


def lacks_path(span, page, crate=None):
    """Whether a path isn't there."""
    span = span.removeprefix("./")
    if MADE.match(span) or PLACEHOLDER.search(span.replace("crates/*", "").replace("*.antt", "")) and "*" not in span:
        return False
    if "*" in span:
        return not any(TOP.glob(span)) and not any(page.parent.glob(span))
    return not paths_of(span, page, crate)


def lacks_member(span):
    """Whether no file of a type or module of `Type::name` has the name."""
    owner, name = span.split("::")[-2:]
    name = NAME.match(name)
    if owner not in all_words():
        return True
    if not name:
        return False
    return not any({owner, name.group()} <= words_of(path) for path in sources())


def unknown_names(span):
    """The names of a span that no source has."""
    if not re.fullmatch(r"[\w:<>&' ,.()\[\]=-]+", span) or PLACEHOLDER.search(span):
        return []
    path = span.split("(")[0]
    if re.fullmatch(r"\w+(::\w+)+", path):
        return [span] if not FOREIGN & {path.split("::")[0], path.split("::")[-1]} and lacks_member(path) else []
    names = [it for it in NAME.findall(span) if "_" in it or len(NAME.findall(span)) == 1 and not re.search(r"\d", it)]
    return [name for name in names if name not in FOREIGN and name not in all_words()]


@functools.cache
def files_with(function):
    """The files that define a function."""
    head = re.compile(rf"\bfn {function}\b")
    return [path for path in files() if path.suffix == ".rt" and head.search(text_of(path))]


def missing_clauses(text):
    """Clauses that a text names of a function, and that no file with the function has."""
    for found in re.finditer(rf"{SPAN}: ({SPAN}(?:, {SPAN})*)", text):
        function, named = found.group(1), found.group(2)
        name = function.split("::")[-1]
        places = files_with(name) if NAME.fullmatch(name) else []
        for clause in re.findall(SPAN, named) if places else []:
            if re.fullmatch(r"[a-z_]+", clause) and not any(clause in words_of(path) for path in places):
                yield f"{function} has no clause {clause}"


def findings_in(text, page):
    """What a paragraph or row names and isn't there."""
    for span, owner in named_in(text):
        if owner and owner[0] == "crate" and (TOP / "crates" / owner[1]).is_dir():
            if is_path(span):
                if lacks_path(span, page, owner[1]):
                    yield f"{owner[1]} has no {span}"
                continue
            missing = [it for it in NAME.findall(span.split("::")[-1]) if it not in words_of_crate(owner[1]) and it not in FOREIGN]
            if missing and re.fullmatch(r"[\w:]+", span):
                yield f"{owner[1]} has no {span}"
            continue
        if owner and owner[0] == "file" and is_path(owner[1]) and re.fullmatch(r"[\w:]+", span):
            places = [path for path in paths_of(owner[1], page) if path.is_file()]
            name = span.split("::")[-1]
            if places and not any(name in words_of(path) for path in places):
                yield f"{owner[1]} has no {span}"
                continue
        if is_path(span):
            if lacks_path(span, page):
                yield f"there is no {span}"
            continue
        for name in unknown_names(span):
            yield f"there is no {name}"
    for link in re.findall(r"\]\((?!https?:|#)([^)#\s]+)", text):
        if not (page.parent / link).exists():
            yield f"a link leads to no file: {link}"
    yield from missing_clauses(text)


def findings(text, page):
    """What a page with this text names and isn't there, each with its line."""
    for line, piece in pieces_of(text):
        for said in dict.fromkeys(findings_in(piece, page)):
            yield line, said


if __name__ == "__main__":
    sys.exit(print_findings(findings, "names in pages", "aren't there"))
