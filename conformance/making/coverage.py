#!/usr/bin/env python3
"""Says which cases of the grammar's definitions no case of the suite reaches, and which no case pins.

    coverage.py            runs the definitions on each text: fails where they give another answer, or a case isn't reached
    coverage.py --changes  also changes each place of the definitions, and fails where no case shows that; takes minutes
    coverage.py --list     prints each case of the definitions with the name of the first case that reaches it

Definitions are those of the modules Words, Items, Numbers, Margins, Pieces and Depths. definitions.py says what a case of
them is. UNREACHABLE names those that no text reaches, and UNSEEN changes that no answer can show, each with the reason.
"""

import argparse
import concurrent.futures
import os
import re
import sys
from pathlib import Path

from answers import FAULTS, KINDS, QUOTES, is_utf8, text_of
from cases import said_on_page
from definitions import MEASURED, Definitions

HERE = Path(__file__).resolve().parent
sys.path.append(str(HERE.parent))

from runner import read_cases  # noqa: E402

# What no text reaches: a pattern on the case's words, and the reason.
UNREACHABLE = [
    (r"^Words: (is_identifier|is_comment) \[\]", "a word isn't empty"),
    (r"^Words: begins test \[\]", "a word of digits alone is decimal by an earlier row, and a point alone a symbol"),
    (r"^Numbers: is_negative \[\]", "a number has a digit"),
    (r"^Numbers: (is_small|signed) .*(minus|2 \^ 31 \) \|\| \.\.: by)", "a number of a text has no sign"),
    (r"^Numbers: (is_number|integer_in) ", "only the library's call on a number's text asks it"),
    (r"^Items: found_at literal \[\]", "a body at the end of the text is ended before"),
    (r"^(Depths: is_outside|Margins: begins_with_line_end|Pieces: is_nothing) ", "only lexing on after a fault asks it"),
    (r"^Margins: without_return \[\]", "a comment isn't empty"),
    (r"^Pieces: (starts_zero|is_bang) \[\]", "a word isn't empty"),
]
UNSEEN = [
    (r"^Words: (has_base lower upper text|sign_len \[\]):", "what is asked of the text after it fails anyhow"),
    (r"^Numbers: (is_negative|is_small|signed|integer_of) ", "an integer is compared by its value, however it is kept"),
    (r"^Depths: fronts \[\]:", "the surplus of no tokens is 0, where the greatest is looked for from 0 on"),
    (r"^Pieces: (escape_fault|chunk_by) ", "what a fault quotes isn't compared"),
]


def value_of(node):
    """The value of a token of the definitions, as the suite has it."""
    kind = node[0]
    if kind in ("Identifier", "Comment", "Float", "String", "FStringText"):
        return [bytes(node[1]).decode()]
    if kind == "Bytes":
        return [bytes(node[1]).hex()]
    if kind == "Int":
        number = node[1]
        return [str(number[1] if number[0] == "Small" else int(bytes(number[2]).decode(), number[3]))]
    if kind == "FStringStart":
        quote = node[1].quote[0].removesuffix("Quote")
        return [QUOTES["Triple" * node[1].is_triple + quote]]
    return []


def answer_by(definitions, text):
    """The answer for a text by the definitions."""
    outcome = definitions.outcome(text)
    tokens = []
    for lexeme in outcome.lexemes:
        kind = lexeme.node[1][0] if lexeme.node[0] == "Word" else lexeme.node[0]
        tokens.append([KINDS[kind], lexeme.begin, lexeme.end, *value_of(lexeme.node)])
    fault = outcome.fault[1:]
    return {"tokens": tokens, "faults": [[FAULTS[found.node[0]], found.begin, found.end] for found in fault]}


def is_measured(case):
    """Whether a case is one of the definitions: a text without edits that is UTF-8 and lexed up to its first fault."""
    return "recovering" not in case and "edits" not in case and is_utf8(text_of(case))


def reached_by(cases):
    """Each case of the definitions that is reached, with the first case's number; and the names of cases that differ."""
    definitions, first, wrong = Definitions(), {}, []
    for number, case in cases:
        definitions.reached.clear()
        if answer_by(definitions, text_of(case)) != {"tokens": case["tokens"], "faults": case["faults"]}:
            wrong.append(case["name"])
        for reached in definitions.reached:
            first.setdefault(reached, number)
    return first, wrong


def shares(cases):
    """Cases in as many shares as there are processors."""
    count = os.cpu_count() or 1
    return [cases[number::count] for number in range(count)]


def measured(cases):
    """What all cases reach together."""
    first, wrong = {}, []
    with concurrent.futures.ProcessPoolExecutor() as pool:
        for found, differing in pool.map(reached_by, shares(cases)):
            wrong += differing
            for reached, number in found.items():
                first[reached] = min(number, first.get(reached, number))
    return first, wrong


# -- Changed definitions

LONGEST_CHANGED = 24
SHARED = {}  # the cases, and the texts that reach each case of the definitions, for processes that are started later


def reaching(cases):
    """Of each case of the definitions, the numbers of the texts that reach it; all for those of Words, which are kept."""
    definitions, found = Definitions(), {}
    for number, case in cases:
        definitions.reached.clear()
        definitions.outcome(text_of(case))
        for reached in definitions.reached:
            found.setdefault(reached, []).append(number)
    numbers = [number for number, _ in cases]
    of_words = [number for number, words in enumerate(definitions.cases) if words.startswith("Words:")]
    return {**found, **dict.fromkeys(of_words, numbers)}


def shows(definitions, case):
    """Whether changed definitions give another answer for a case."""
    try:
        return answer_by(definitions, text_of(case)) != {"tokens": case["tokens"], "faults": case["faults"]}
    except (ValueError, IndexError, TypeError, AttributeError, KeyError, OverflowError, RecursionError):
        return True


def unshown(change):
    """The words of a change of the definitions, if no case shows it."""
    definitions = Definitions(change)
    reached, words = definitions.places[change]
    # A table is no clause, so any text may show a change of its rows.
    numbers = SHARED["reached"].get(reached, []) if reached >= 0 else SHARED["cases"]
    cases = [SHARED["cases"][number] for number in numbers]
    cases.sort(key=lambda case: len(text_of(case)))
    return "" if any(shows(definitions, case) for case in cases) else words


def try_changes(cases):
    """Tries all changes, and prints those that no case shows. Whether there is a reason for each of these."""
    cases = {number: case for number, case in cases if len(text_of(case)) <= LONGEST_CHANGED}
    reached = {}
    with concurrent.futures.ProcessPoolExecutor() as pool:
        for found in pool.map(reaching, shares(list(cases.items()))):
            for case, numbers in found.items():
                reached.setdefault(case, []).extend(numbers)
    SHARED.update(cases=cases, reached=reached)
    changes = range(len(Definitions().places))
    with concurrent.futures.ProcessPoolExecutor() as pool:
        words = [word for word in pool.map(unshown, changes) if word]
    missed = [word for word in words if not reason_of(word, UNREACHABLE + UNSEEN)]
    for word in missed:
        print(f"no case shows that {word}")
    print(f"{len(changes) - len(words)} of {len(changes)} changes of the definitions are shown by a case; "
          f"no answer shows {len(words) - len(missed)}")
    is_said = said_on_page(f"Of {len(changes)} such changes {len(changes) - len(words)} are shown")
    return is_said and not missed


def reason_of(words, reasons):
    """Why a case isn't reached or a change isn't shown; none where nothing says so."""
    return next((reason for pattern, reason in reasons if re.search(pattern, words)), "")


def main():
    parser = argparse.ArgumentParser()
    parser.add_argument("--changes", action="store_true")
    parser.add_argument("--list", action="store_true")
    options = parser.parse_args()
    cases = [(number, case) for number, case in enumerate(read_cases([HERE.parent / "cases"])) if is_measured(case)]
    first, wrong = measured(cases)
    names = dict(cases)
    words = Definitions().cases
    for name in wrong:
        print(f"the definitions give another answer: {name}")
    missed = [number for number in range(len(words)) if number not in first and not reason_of(words[number], UNREACHABLE)]
    for number in missed:
        print(f"not reached: {words[number]}")
    is_shown = not options.changes or try_changes(cases)
    if options.list:
        for number, name in enumerate(words):
            print(f"{name}\n    {names[first[number]]['name'] if number in first else reason_of(name, UNREACHABLE)}")
    unreachable = sum(1 for number in range(len(words)) if number not in first)
    print(f"{len(first)} of {len(words)} cases of the definitions are reached by {len(cases)} cases; no text reaches "
          f"{unreachable - len(missed)}")
    for module in MEASURED:
        of_module = [number for number, name in enumerate(words) if name.startswith(module + ":")]
        print(f"    {module}: {sum(1 for number in of_module if number in first)} of {len(of_module)}")
    is_said = said_on_page(f"Of {len(words)}, {len(first)} are reached")
    return 1 if wrong or missed or not is_shown or not is_said else 0


if __name__ == "__main__":
    sys.exit(main())
