"""Cases of two tokens side by side: each kind after each kind, with and without a gap."""

from answers import answer_of, plain_lexer

KINDS = {
    "a name": "x",
    "a keyword": "if",
    "a decimal integer": "12",
    "a hexadecimal integer": "0x1f",
    "a float": "1.5",
    "a float that ends with a point": "1.",
    "a float that begins with a point": ".5",
    "a string": "'a'",
    "a triple string": '"""a"""',
    "a raw string": "r'a'",
    "a bytes literal": "b'a'",
    "an f-string": "f'{a}'",
    "an operator": "+",
    "a point": ".",
    "an equals sign": "=",
    "an opening bracket": "(",
    "a closing bracket": ")",
    "a comment": "# c",
    "a line end": "\n",
    "a backslash and a line end": "\\\n",
}
FIRST = {"a comment": "# c\n"}
SYMBOLS = [word.decode() for word in plain_lexer.SYMBOLS]


def kinds(text):
    """The kinds and values of a text's tokens."""
    answer = answer_of(text.encode())
    return [(token[0], token[3:]) for token in answer["tokens"]][:-1], answer["faults"]


def is_joined(first, second):
    """Whether two words without a gap are others than with one."""
    return kinds(first + second) != kinds(first + " " + second)


def closed(text):
    """A text whose brackets are closed as often as opened, and with a line after a backslash: some lexers want that."""
    opened, shut = text.count("("), text.count(")")
    return max(0, shut - opened) * "(" + text + "y" * text.endswith("\\\n") + max(0, opened - shut) * ")"


def cases(add):
    for one, first in KINDS.items():
        for other, second in KINDS.items():
            text = FIRST.get(one, first)
            add("neighbours", f"{other} right after {one}", closed(text + second))
            if first == "\n" or is_joined(text, second):
                add("neighbours", f"{other} after {one} and a space", closed(f"{text} {second}"))
    for first in SYMBOLS:
        for second in SYMBOLS:
            if is_joined(first, second):
                add("neighbours symbols", f"`{first}` and `{second}` without a gap are read otherwise", first + second)
                add("neighbours symbols", f"`{first}` and `{second}` with a space between", f"{first} {second}")
    for symbol in SYMBOLS:
        if symbol[0] in "([{}])":
            add("neighbours symbols", f"a line end right after `{symbol}`", f"{symbol}\nx")
