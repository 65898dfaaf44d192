"""What the checks find in a text, plainly: over all lexemes and faults of the text, in order.

Each finding is (begin, end, code, message). One of a bracket that closes another has the place of that in its message.
"""

import re

from shared.plain_lexer import line_and_column

MESSAGES = {
    "SL101": "bracket is never closed", "SL102": "bracket closes nothing", "SL103": "bracket closes one of another kind",
    "SL104": "number right before a name, keyword or number", "SL105": "line of an unresolved merge",
    "SL106": "f-string with one quote has a line end in an expression",
}
CLOSED = {"ClosingRound": "OpeningRound", "ClosingSquare": "OpeningSquare", "ClosingCurly": "OpeningCurly"}
WORDS = set("Identifier And Break Continue Def Elif Else For If In Lambda Load Not Or Pass Return".split())
NUMBERS = {"Int", "Float"}
MARKERS = {"LessLess": b"<", "EqualEqual": b"=", "GreaterGreater": b">"}


def marker(text, begin, byte):
    """Whether a line of seven such bytes begins at an offset, which a space or the line's end follows."""
    return (begin == 0 or text[begin - 1:begin] == b"\n") and re.match(re.escape(byte) + rb"{7}(?=[ \r\n]|\Z)", text[begin:])


def of_code(code, begin, end):
    """A finding that names no other place."""
    return begin, end, code, MESSAGES[code]


class Stack:
    """What is open, as (kind, begin, end, whether it ends on its line): brackets, expressions of f-strings with the kind `{`, and f-strings.

    An expression has to end on its line where its f-string has one quote and is in no such expression.
    """

    def __init__(self, text):
        self.text = text
        self.open = []

    def closed(self, kind, item):
        """What is found at a closing bracket, or at the end of an expression."""
        wanted = CLOSED.get(kind, "OpeningCurly")
        if not self.open:
            return of_code("SL102", item.begin, item.end)
        opened, begin, _, is_one_line = self.open[-1]
        if opened == "FString":
            return None
        if opened == "{":
            if wanted != "OpeningCurly":
                return of_code("SL102", item.begin, item.end)
            self.open.pop()
            return of_code("SL106", begin, item.end) if is_one_line and b"\n" in self.text[begin:item.begin] else None
        self.open.pop()
        if opened == wanted:
            return None
        place = "%d:%d" % line_and_column(self.text, begin)
        return item.begin, item.end, "SL103", f"{MESSAGES['SL103']}; the open bracket is at {place}"

    def leave(self):
        """Drops what is open in the innermost f-string."""
        while self.open and self.open[-1][0] != "FString":
            self.open.pop()

    def passed(self, item):
        """Passes a lexeme, and returns what is found at it."""
        if item.kind in CLOSED or item.kind == "FStringExprEnd":
            return self.closed(item.kind, item)
        if item.kind in CLOSED.values():
            self.open.append((item.kind, item.begin, item.end, False))
        elif item.kind == "FStringStart":
            is_in_one = any(kind == "{" and is_one_line for kind, _, _, is_one_line in self.open)
            self.open.append(("FString", item.begin, item.end, not item.value.startswith("Triple") and not is_in_one))
        elif item.kind == "FStringExprStart":
            self.leave()
            self.open.append(("{", item.begin, item.end, bool(self.open) and self.open[-1][3]))
        elif item.kind == "FStringEnd":
            self.leave()
            del self.open[-1:]
        return None


def findings_between(text, items):
    """For each item of a text, which is a pair of `lexeme` or `fault` and what it is, the item and what is found at it; at the end
    `None` with each bracket that is never closed."""
    stack, number, follows_fault = Stack(text), None, False
    for what, item in items:
        found = None
        if what == "fault":
            stack, number, follows_fault = None, None, True
            yield (what, item), None
            continue
        if stack:
            found = stack.passed(item)
        if number and item.kind in WORDS | NUMBERS and number[1] == item.begin:
            found = of_code("SL104", number[0], item.end)
        if item.kind in MARKERS and marker(text, item.begin, MARKERS[item.kind]):
            found = of_code("SL105", item.begin, item.begin + 7)
        number = (item.begin, item.end) if item.kind in NUMBERS and not follows_fault else None
        follows_fault = False
        yield (what, item), found
    for kind, begin, end, _ in stack.open if stack else []:
        if kind != "FString":
            yield None, of_code("SL101", begin, end)
