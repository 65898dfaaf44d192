#!/usr/bin/env python3
"""Plants wrong sentences in pages, one after the other, and fails where the check of such sentences finds nothing new.

    scripts/checks/try_page_checks.py
"""

import sys
from typing import NamedTuple

import believed
import page_claims
import page_names
sys.path.append(f"{sys.path[0]}/..")  # where shared/ lies
from shared.page_text import text_of
from shared.programs import TOP

ARCHITECTURE, CONTRIBUTING, DECISIONS, EXPERIMENTS = (
    TOP / "docs" / f"{name}.md" for name in ("ARCHITECTURE", "CONTRIBUTING", "DECISIONS", "EXPERIMENTS")
)
SEARCH = "git grep -lie tilde -e '<<='"


class Plant(NamedTuple):
    """A wrong sentence, the page that it is planted in, what it takes the place of there, and what is to be said of it."""

    page: object
    old: str
    new: str
    said: str


def at_the_end(page, new, said):
    """A sentence or row after all others of a page."""
    return Plant(page, "", new, said)


NAMES = [
    at_the_end(CONTRIBUTING, "| `owned_text` (`reader.rt`) | an empty text makes no call |", "reader.rt has no owned_text"),
    at_the_end(EXPERIMENTS, "| an empty text without a call | −3 % | yes | `next_owned_text` |", "there is no next_owned_text"),
    at_the_end(DECISIONS, "An edit is in `crates/starlark_words/edits.txt`.", "there is no crates/starlark_words/edits.txt"),
    at_the_end(DECISIONS, "So says `Lexer::next`: `owned_item`.", "Lexer::next has no clause owned_item"),
    at_the_end(DECISIONS, "`Lexer::owned_cut` is left.", "there is no Lexer::owned_cut"),
    at_the_end(DECISIONS, "It is `owned_cut` of `starlark_syntax`.", "starlark_syntax has no owned_cut"),
    at_the_end(DECISIONS, "`Lexer` never asks (`owned_law`).", "there is no owned_law"),
    at_the_end(DECISIONS, "See [the edits](EDITS.md).", "a link leads to no file: EDITS.md"),
]
CLAIMS = [
    at_the_end(DECISIONS, "**The gate tries some 160 must-fail edits**.", "160 must-fail edits"),
    at_the_end(DECISIONS, "The gate proves sixteen crates.", "sixteen crates"),
    at_the_end(CONTRIBUTING, "| `found_at` | a function of its own: else each escape pays for it |", "found_at is inlined"),
    at_the_end(CONTRIBUTING, "`advance` and `look_further` (`lexer_state.rt`) are inlined.", "look_further isn't inlined"),
    at_the_end(DECISIONS, "`LexedText::relex` never fails.", "LexedText::relex may fail"),
    at_the_end(DECISIONS, "| `lexemes`, `relex` | all of them | never fails |", "relex may fail"),
    at_the_end(DECISIONS, "`Lexer` never asks, and pays one flag a margin.", "`Lexer` never asks"),
    at_the_end(DECISIONS, "`Lexer` asks no reader for a cut.", "`Lexer` asks no"),
    at_the_end(DECISIONS, "`lex` alone stores cuts.", "`lex` alone stores"),
    at_the_end(DECISIONS, "They are in a program, since nothing else calls them.", "nothing else calls"),
    at_the_end(DECISIONS, "Only `relex` calls it.", "Only `relex` calls"),
    at_the_end(CONTRIBUTING, "Literals and the reader have had none yet.", "have had"),
    at_the_end(CONTRIBUTING, "A document has no plants yet.", "has no plants yet"),
    at_the_end(CONTRIBUTING, "It was run over all libraries.", "was run"),
    Plant(CONTRIBUTING, "### One more operator", "### A new operator", "there is no recipe"),
    Plant(CONTRIBUTING, SEARCH, SEARCH.replace("tilde", "owned_text"), "leaves out bindings/web/lexer.d.ts"),
    Plant(CONTRIBUTING, SEARCH, SEARCH.replace("<<=", "owned_text"), "leaves out docs/GRAMMAR.md"),
    Plant(
        CONTRIBUTING,
        f"    {SEARCH}",
        "| File | What |\n|---|---|\n| `scanner/marks.rt` of `starlark_words` | the arm of its length |\n\n" + f"    {SEARCH}",
        "names in vain crates/starlark_words/src/scanner/marks.rt",
    ),
]
BELIEVED = [
    Plant(ARCHITECTURE, "; `Searches` of `starlark_reader`", "", "`Lexer::next`: starlark_reader.specs.Searches is missing"),
    Plant(ARCHITECTURE, "; `Lexer` of", "; `Lexer`, `LexerIterator` of", "`Lexer::next`: starlark_lexemes.specs.LexerIterator is not cited"),
    Plant(ARCHITECTURE, "| `Document` |", "| documents |", "there is no row of `Document`"),
]


def is_found(check, plant):
    """Whether a check says what it should of a plant, and doesn't say it of the page without the plant."""
    text = text_of(plant.page)
    planted = text.replace(plant.old, plant.new) if plant.old else f"{text}\n\n{plant.new}\n"
    before, after = ([said for _, said in check.findings(it, plant.page)] for it in (text, planted))
    return any(plant.said in said for said in after) and not any(plant.said in said for said in before)


def main():
    plants = [*((page_names, plant) for plant in NAMES), *((page_claims, plant) for plant in CLAIMS), *((believed, plant) for plant in BELIEVED)]
    missed = [f"{check.__name__}.py doesn't find: {plant.new}" for check, plant in plants if not is_found(check, plant)]
    print("\n".join(missed or [f"checks of pages: each of {len(plants)} wrong sentences is found"]))
    return 1 if missed else 0


if __name__ == "__main__":
    sys.exit(main())
