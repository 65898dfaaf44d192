"""What starlark_rows has to print for the part `texts`, made by the plain lexer.

Of a text that is repeated many times the lexemes of few repetitions are counted, and the count goes on from there.
"""

import re

from shared.plain_lexer import expected, outcome
from shared.stored import Edit, edited, records_of

FEW = 12
STATUSES = {0: "clean", 1: "fault", 2: "input is not UTF-8"}


def counts_of(texts):
    """How many texts there are, and how many lexemes and faults they have together."""
    outcomes = [outcome(text) for text in texts]
    lexemes = sum(len(lexemes) for lexemes, _ in outcomes)
    faults = sum(fault is not None for _, fault in outcomes)
    return len(texts), lexemes, faults


def sum_of(texts):
    """The sum over all bytes that are printed for texts."""
    total = 0
    for text in texts:
        for byte in expected(text)[0]:
            total = (total * 31 + byte) % 2**64
    return total


def fronts_of(text):
    """The fronts of a text that end between characters."""
    whole = text.decode()
    return [whole[:length].encode() for length in range(len(whole) + 1)]


def printed_counts(texts, lexemes, faults):
    return f"{texts} texts, {lexemes} lexemes, {faults} faults"


def fronts_line(text):
    """What is printed for the fronts of a text."""
    fronts = fronts_of(text)
    return f"{printed_counts(*counts_of(fronts))}, sum {sum_of(fronts)}\n"


def repeated_line(text, times):
    """What is printed for a repeated text: after a few repetitions each further one adds as many lexemes as the last."""
    _, few, faults = counts_of([text * min(times, FEW)])
    _, one_more, _ = counts_of([text * min(times, FEW + 1)])
    lexemes = few + (one_more - few) * max(times - FEW, 0)
    return f"{printed_counts(1, lexemes, faults)}\n"


def lines_of(text):
    """What is printed for a text."""
    output, status = expected(text)
    return STATUSES[status].encode() + b"\n" + output


def edited_lines(text, edits):
    """What is printed for a text after its edits."""
    for number, edit in enumerate(edits):
        text = edited(text, edit)
        if text is None:
            return f"edit {number} does not fit the text\n".encode()
    return lines_of(text)


def printed(task, text, edits):
    """What is printed for a text after a record's number."""
    match task:
        case []:
            return lines_of(text)
        case ["fronts"]:
            return fronts_line(text).encode()
        case ["times", times]:
            return repeated_line(text, int(times)).encode()
        case ["edited"]:
            return edited_lines(text, edits)
    raise ValueError(f"no such task: {task}")


def runs_of(stored):
    """Each text that isn't an edit, and what is printed for it."""
    edits = []
    for number, (task, text) in enumerate(records_of(stored), 1):
        match task:
            case ["edit", start, end]:
                edits.append(Edit(int(start), int(end), text))
            case _:
                yield text, f"text {number}: ".encode() + printed(task, text, edits)
                edits = []


def stored_runs(stored):
    """The stored output, cut at the lines that begin a text."""
    return re.split(rb"(?m)^(?=text [0-9]+: )", stored)[1:]
