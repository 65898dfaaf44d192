"""All that is found in a text that is lexed on after its faults, by the plain lexer.

A fault that keeps its line is passed as a token is, and so reading goes on in what was open. So is a whole literal that has a bad
escape, and an open quote: a literal outside of f-strings that its line end stops, of which the brackets count. A lexeme stands for
each of these literals, for a reserved word, and for an integer with a leading 0. After any other fault, and after a literal
with a bad escape that isn't closed, lexing begins again at the next line, where the blocks are still open.
"""

import re

from shared.plain_lexer import (
    LINE_END, Fault, Lexeme, Situation, body_at, comment_lines, fault_line, indentation, integer_text, lexeme_line, longest_word,
    moved_lexeme, next_line, opening_at, restart, step,
)

TABS = re.compile(rb"\t*")


def passed_end(text, lexemes, fault):
    """Where reading goes on in the line of a text's fault, by the lexemes before it; None where it keeps no line."""
    kind, begin, end = fault.args[0], fault.begin, fault.end
    if kind == "InvalidTab":
        is_in_margin = begin == 0 or LINE_END.match(text, begin)
        return None if is_in_margin else TABS.match(text, begin).end()
    if kind == "InvalidInput":
        follows_comment = lexemes and lexemes[-1].kind == "Comment" and lexemes[-1].end == begin
        return None if follows_comment or text[begin:end] == b"}" else end
    return end if kind in ("ReservedKeyword", "StartsZero") else None


def literal_end(text, offset, fault):
    """Where the literal at an offset ends, which is raw from its bad escape on, and whether it is closed."""
    opening = opening_at(text, offset, longest_word(text, offset)[0])
    _, stop, end = body_at(text, fault.begin, opening._replace(is_raw=True))
    if stop == "Closing":
        return end + len(opening.quotes), True
    return max(fault.end, end if stop == "Line" else len(text)), False


def quote_end(text, fault, situation):
    """The line end that stops the literal of a fault outside of f-strings, whose brackets are counted; None where none does."""
    if fault.args[0] != "UnfinishedStringLiteral" or situation.where() != "Outside" or fault.end == len(text):
        return None
    for b in text[fault.begin:fault.end]:
        if b in b"([{":
            situation.brackets += 1
        elif b in b")]}" and situation.brackets > 0:
            situation.brackets -= 1
    return fault.end


def stand_ins(text, offset, fault, end):
    """The lexemes that stand for a fault that is passed up to an offset: a literal is at its own offset, as it is written."""
    written = text[fault.begin:fault.end]
    if fault.args[0] == "ReservedKeyword":
        return [Lexeme(fault.begin, fault.end, "Identifier", written.decode())]
    if fault.args[0] == "StartsZero":
        return [Lexeme(fault.begin, fault.end, "Int", integer_text(written, 10))]
    if fault.args[0] == "InvalidEscapeSequence":
        opening = opening_at(text, offset, longest_word(text, offset)[0])
        return [Lexeme(offset, end, opening.kind, text[opening.end:end - len(opening.quotes)].hex())]
    if fault.args[0] == "UnfinishedStringLiteral":
        opening = opening_at(text, offset, longest_word(text, offset)[0])
        return [Lexeme(offset, end, opening.kind, text[opening.end:end].hex())]
    return []


def restart_after(text, fault):
    """Where lexing begins again after a fault that ends its line."""
    return next_line(text, fault.last - 1) if fault.last else restart(text, fault)


def part_of(text, situation):
    """The lexemes and the faults up to the first fault that ends its line, each with what it is, and that fault or None."""
    items = []
    lexemes, offset = comment_lines(text, 0)
    try:
        layout, offset = indentation(text, offset, 0, situation.widths)
        lexemes += layout
        items = [("lexeme", lexeme) for lexeme in lexemes]
        while offset < len(text) or situation.where() == "Text":
            offset = pass_piece(text, offset, situation, items)
    except Fault as fault:
        return items or [("lexeme", lexeme) for lexeme in lexemes], fault
    kinds = ["Newline"] + len(situation.widths) * ["Dedent"]
    return items + [("lexeme", Lexeme(offset, offset, kind)) for kind in kinds], None


def pass_piece(text, offset, situation, items):
    """Takes the piece at an offset, or the fault there if it keeps its line. Returns where it ends."""
    is_code = situation.where() != "Text"
    try:
        piece, end = step(text, offset, situation)
    except Fault as fault:
        end = passed_end(text, [item for what, item in items[-1:] if what == "lexeme"], fault)
        if fault.args[0] == "InvalidEscapeSequence" and is_code:
            fault.last, is_closed = literal_end(text, offset, fault)
            end = fault.last if is_closed else None
        if end is None:
            end = quote_end(text, fault, situation)
        if end is None:
            raise
        items.append(("fault", fault))
        items += [("lexeme", lexeme) for lexeme in stand_ins(text, offset, fault, end)]
        return end
    for lexeme in piece:
        situation.count(lexeme.kind)
    items += [("lexeme", lexeme) for lexeme in piece]
    return end


def moved_item(what, item, base):
    """An item moved by `base` bytes."""
    if what == "lexeme":
        return what, moved_lexeme(item, base)
    item.begin, item.end = base + item.begin, base + item.end
    return what, item


def items_of(text):
    """All lexemes and all faults of a text, in order, each with what it is."""
    base, widths = 0, []
    while True:
        rest, situation = text[base:], Situation()
        situation.widths = widths
        items, last = part_of(rest, situation)
        yield from (moved_item(what, item, base) for what, item in items)
        if not last:
            return
        later = restart_after(rest, last)
        yield moved_item("fault", last, base)
        base += later


def lines_of(text):
    """The lines of all that is found in a text."""
    lines = {"lexeme": lexeme_line, "fault": fault_line}
    return "".join(lines[what](text, item) for what, item in items_of(text)).encode()
