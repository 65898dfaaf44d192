"""Cases of edits: a text, replaced bytes of it, and the tokens of the new text."""

BASE = 'load("a", "b")\nx = [\n  1,\n]\n\ndef f(x):\n  # c\n  return "x"\n\n# d\ny = \'\'\'e\n\'\'\'\nz = 2\n'
PLACES = {
    "at the start": 0,
    "in the first string": BASE.index('a"'),
    "in brackets": BASE.index("1,"),
    "at a blank line": BASE.index("\n\ndef") + 1,
    "at the start of an indented line": BASE.index("  return"),
    "in a triple string": BASE.index("e\n"),
    "at the end": len(BASE),
}
FSTRINGS = 'x = f"a{y}"\nz = 1\n'
FSTRING_PLACES = {
    "in an f-string's text": FSTRINGS.index("a{"),
    "in an f-string's expression": FSTRINGS.index("y}"),
}
TYPED = {
    "a letter": "a",
    "a digit": "1",
    "a space": " ",
    "an LF": "\n",
    "a number sign": "#",
    "an empty string": "''",
    "a comma": ",",
    "brackets": "()",
    "a line": "a = 1\n",
    "a comment line": "# e\n",
}
OPENING = {
    "three quotes": '"""',
    "a single quote": "'",
    "a round bracket": "(",
    "an opening f-string": "f'{",
    "a backslash": "\\",
}

PAIRS = {
    "two names are joined": ("a b\n", [(1, 2, "")]),
    "a name is cut in two": ("ab\n", [(1, 1, " ")]),
    "a name becomes a keyword": ("i x\n", [(1, 1, "f")]),
    "a keyword becomes a name": ("if x\n", [(1, 2, "n1")]),
    "an integer becomes a float": ("12\n", [(1, 1, ".")]),
    "a float becomes two integers": ("1.5\n", [(1, 2, " ")]),
    "an integer becomes hexadecimal": ("01f\n", [(1, 1, "x")]),
    "two operators are joined": ("a < < b\n", [(3, 4, "")]),
    "an operator grows": ("a <b\n", [(3, 3, "=")]),
    "an operator is cut in two": ("a <<= b\n", [(3, 3, " ")]),
    "a fault is mended": ("x = 01\n", [(4, 5, "")]),
    "a fault is made": ("x = 1\n", [(4, 4, "0")]),
    "a string gets a prefix": ("x = 'a\\n'\n", [(4, 4, "r")]),
    "a string gets the prefix f": ("x = '{y}'\n", [(4, 4, "f")]),
    "a prefix goes": ("x = r'\\n'\n", [(4, 5, "")]),
    "a space after a prefix goes": ("r 'a'\n", [(1, 2, "")]),
    "a name before a prefix": ("r'a'\n", [(0, 0, "x")]),
    "a string becomes a triple one": ("''\nx = '''\n", [(2, 2, "'")]),
    "a triple string ends sooner": ("'''a b''' '''\n", [(5, 5, "'''")]),
    "a triple string goes on": ("'''a''' b '''\n", [(4, 7, "")]),
    "a string over lines is closed": ("x = 'a\ny = 'b'\n", [(6, 6, "'")]),
    "a quote opens a string over the line's rest": ("x = a 'b'\n", [(4, 4, "'"), (7, 7, " ")]),
    "a bracket is opened over two lines": ("x = 1\ny = 2)\n", [(4, 4, "(")]),
    "a bracket is closed sooner": ("(a\nb)\n", [(2, 2, ")")]),
    "a bracket goes, and the line ends count": ("(a\nb\n", [(0, 1, "")]),
    "a closing bracket is typed later": ("f(a\nb\n", [(5, 5, ")")]),
    "a line is indented": ("if x:\ny\n", [(6, 6, "  ")]),
    "a line is indented further": ("if x:\n  y\n  z\n", [(10, 10, "  ")]),
    "a line is indented less": ("if x:\n  y\n  z\n", [(10, 12, "")]),
    "a line gets a width that isn't open": ("if x:\n    y\n    z\n", [(12, 14, "")]),
    "a wrong width is mended": ("if x:\n    y\n  z\n", [(12, 12, "  ")]),
    "a tab is replaced by spaces": ("if x:\n\ty\n", [(6, 7, "    ")]),
    "a comment is opened": ("x = 1 + 2\n", [(6, 6, "# ")]),
    "a comment is closed": ("# x = 1\n", [(0, 2, "")]),
    "a comment takes an indented line": ("if x:\n  y\nz\n", [(8, 8, "#")]),
    "a comment becomes a line": ("if x:\n  # y\nz\n", [(8, 10, "")]),
    "a blank line is made": ("x\ny\n", [(2, 2, "\n")]),
    "a blank line goes": ("x\n\ny\n", [(2, 3, "")]),
    "two lines are joined": ("x\ny\n", [(1, 2, "")]),
    "two lines are joined by a backslash": ("x\n  y\n", [(1, 1, " \\")]),
    "a backslash goes": ("x \\\n  y\n", [(2, 3, "")]),
    "an LF becomes CR LF": ("x\ny\n", [(1, 1, "\r")]),
    "CR LF becomes an LF": ("x\r\ny\r\n", [(1, 2, "")]),
    "CR and LF are parted": ("x\r\ny\n", [(2, 2, "y")]),
    "an f-string's expression is opened": ("f'x}'\n", [(2, 2, "{")]),
    "an f-string's expression is closed": ("f'{x'\n", [(4, 4, "}")]),
    "a brace is doubled": ("f'{x}'\n", [(2, 2, "{"), (5, 5, "}")]),
    "a bang is typed": ("f'{x}'\n", [(4, 4, "!r")]),
    "a space before a bang goes": ("f'{x !r}'\n", [(4, 5, "")]),
    "a bang becomes an operator": ("f'{x!y}'\n", [(5, 5, "=")]),
    "a bracket in an expression is opened": ("f'{x}'\n", [(3, 3, "(")]),
    "a bracket in an expression is closed": ("f'{(x}'\n", [(5, 5, ")")]),
    "all is replaced": ("x = 1\n", [(0, 6, "y\n")]),
    "all is deleted": ("x = 1\n", [(0, 6, "")]),
    "a text is put into an empty one": ("", [(0, 0, "if x:\n  y\n")]),
    "nothing is replaced by nothing": ("x = 1\n", [(2, 2, "")]),
    "a wide character goes": ("x = 'é'\n", [(5, 7, "")]),
    "a wide character becomes a wider one": ("x = 'é' # é\n", [(5, 7, "😀")]),
    "a text after a wide character moves": ("# é\nx\n", [(0, 0, "# 😀\n")]),
    "an escape is completed": ("'\\x4'\n", [(4, 4, "1")]),
    "an escape is broken": ("'\\x41'\n", [(4, 5, "")]),
    "an escaped quote is made": ("'a' + 'b'\n", [(2, 2, "\\")]),
    "an escaped quote is closed": ("'a\\'\n", [(2, 3, "")]),
    "a line end at the end goes": ("if x:\n  y\n", [(9, 10, "")]),
    "a line end at the end is typed": ("if x:\n  y", [(9, 9, "\n")]),
    "three edits that change nothing in the end": ("x = 1\n", [(0, 0, "'"), (0, 1, ""), (6, 6, "")]),
    "a block is moved": ("if x:\n  y\nz\n", [(6, 10, ""), (8, 8, "  y\n")]),
    "a reserved word grows to a name": ("x = class\n", [(9, 9, "_")]),
    "a name shrinks to a reserved word": ("x = class_\n", [(9, 10, "")]),
    "an ellipsis is typed": ("..\n", [(2, 2, ".")]),
    "a point goes from an ellipsis": ("...\n", [(0, 1, "")]),
    "a number's exponent is completed": ("1e\n", [(2, 2, "5")]),
    "a number's exponent is cut": ("1e5\n", [(2, 3, "")]),
}


def cases(add):
    for name, (text, edits) in PAIRS.items():
        add("edits", f"edit: {name}", text, edits=edits)
    for text, places in [(BASE, PLACES), (FSTRINGS, FSTRING_PLACES)]:
        for where, place in places.items():
            for what, typed in TYPED.items():
                add("edits", f"edit: {what} is typed {where}", text, edits=[(place, place, typed)])
            for what, typed in OPENING.items():
                edits = [(place, place, typed), (place, place + len(typed), "")]
                add("edits", f"edit: {what} is typed {where}, and deleted", text, edits=edits)
