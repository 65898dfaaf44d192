"""Random texts. Most are programs whose parts are rarely faults, and most of these are then changed at one offset."""

import random
import re

from shared.plain_lexer import KEYWORDS, RESERVED, SYMBOLS

TEXT_PREFIXES = ["", "r", "b", "br", "rb"]
FSTRING_PREFIXES = ["f", "fr", "rf"]
QUOTES = ["'", '"', "'''", '"""']
NAMES = "x y1 _z Ab format b f rf e1 iff".split()
NUMBERS = (
    "0 7 42 2147483647 2147483648 99999999999 0x1F 0X7fffffff 0x0080000000 0XFACE0ff0ff 0o17 0O020000000000 0b101 0B0 "
    "0b11111111111111111111111111111111 1. 0.5 .5 01.5 1e9 2.5E-3 .5e+1 1.e2"
).split()
OPERATORS = [word.decode() for word in [*SYMBOLS, *KEYWORDS] if word not in b"()[]{}"]
CHARACTERS = list("ab0 _#:;!,()[]\t\0é€😀")
ESCAPES = (
    r"\n \r \t \a \b \f \v \' \" \\ \x41 \xfF \0 \17 \377 \1234 \u20ac \ud7ff \ue000 \U0001F52C \U0010fffF \w \8 \é \😀 "
    r"\{ \}"
).split()
LINE_ESCAPES = ["\\\n", "\\\r\n"]
BAD_ESCAPES = r"\x4 \xé \x \u12 \ud800 \udfff \U00110000 \U1 \400 \777".split() + ["\\\rx", "\\\r"]
GAPS = {" ": 20, "": 10, "  ": 1, "\\\n": 0.5, "\\\r\n": 0.5}
GAPS_INSIDE = GAPS | {"\n": 1, "\r\n": 1, "\n\n   ": 1, "# c\n": 1, " # é\r\n": 1}
EMPTY_LINES = ["\n", "  \n", "\t\n", "\r\n", " \r\n", "#\n", "# c\n", "  # c\r\n", "\t#\té\n", "# a\rb\n", "#\r\r\n"]
STATEMENTS = {"@": 3, "x = @": 3, "return @": 1, "def f(x):": 1, "if @:": 1, "for x in @:": 1, "pass; @": 1, "-@": 1}
ENDINGS = {"": 50, " ": 5, " # c": 5, "  #é": 5, "\\": 1}
LINE_ENDS = {"\n": 8, "\r\n": 2}

# What a change inserts at any offset, at the start of a line, and at the end of a text.
INSERTIONS = (
    OPERATORS + NUMBERS + ESCAPES + LINE_ESCAPES + BAD_ESCAPES + QUOTES + EMPTY_LINES + CHARACTERS
    + list("()[]{}!'\"\\\r\n \t.$?`") + "{{ }} rf' fr\" br' .as 01 00 0x 1e+ 0b102 1_000 ....5".split()
    + [word.decode() for word in RESERVED]
)
MARGINS = [" ", "   ", "     ", "\t", "\r", "\r ", "\n", "#\n", "  #\r\n", "\\\n", "(", ")"]
CUTS = ["", "\\", "'\\", 'b"\\', "r'\\", "f'\\", "'a", '"', "'''", "f'", "f'{", "{'a", '{b"', "#", "!", "\r", "\n "]


def pick(dice, weights):
    """One of the keys, by their weights."""
    return dice.choices(list(weights), weights.values())[0]


def several(dice, most, make):
    """Up to `most` parts, joined."""
    return "".join(make() for _ in range(dice.randrange(most + 1)))


def literal_item(dice, prefix, quotes):
    """Text of a literal that hardly ever ends it."""
    others = ["'", '"'] if len(quotes) == 1 else ["'a", '"a', "''a", '""a', "\n", "\r\n", "\n "]
    choices = {
        dice.choice(CHARACTERS): 60,
        dice.choice(ESCAPES): 30,
        dice.choice(LINE_ESCAPES[:1] if "r" in prefix else LINE_ESCAPES): 3,
        dice.choice([other for other in others if other != quotes]): 8,
        dice.choice(["{{", "}}"] if "f" in prefix else ["{", "}"]): 5,
        "\r": 1,
        dice.choice(BAD_ESCAPES): 0.2,
    }
    return pick(dice, choices)


def text_literal(dice):
    """A literal of text or bytes."""
    prefix, quotes = dice.choice(TEXT_PREFIXES), dice.choice(QUOTES)
    return prefix + quotes + several(dice, 6, lambda: literal_item(dice, prefix, quotes)) + quotes


def fstring_literal(dice, room):
    """An f-string, with literals and f-strings in its expressions."""
    prefix, quotes = dice.choice(FSTRING_PREFIXES), dice.choice(QUOTES)

    def part():
        return literal_item(dice, prefix, quotes) if dice.random() < 0.6 else braced(dice, room)

    return prefix + quotes + several(dice, 5, part) + quotes


def braced(dice, room):
    """An expression of an f-string; rarely one of brackets in any order."""
    if dice.random() < 0.03:
        return "{" + several(dice, 5, lambda: dice.choice("()[]{}x!")) + "}"
    inner = expression(dice, room, True)
    ending = pick(dice, {"": 60, "!r": 20, "\n!r": 5, " !r": 0.5, ":>9": 10})
    return "{" + (" " if inner.startswith("{") else "") + inner + ending + "}"


def bracketed(dice, room):
    """Brackets with expressions between them."""
    opening, closing = dice.choice(["()", "[]", "{}"])
    return opening + several(dice, 3, lambda: expression(dice, room, True) + "," + pick(dice, GAPS_INSIDE)) + closing


def operand(dice, room):
    """A name, a number, a literal, or while there is room something that has parts."""
    choices = {
        lambda: dice.choice(NAMES): 4,
        lambda: dice.choice(NUMBERS): 3,
        lambda: text_literal(dice): 3,
        lambda: fstring_literal(dice, room - 1): 3 if room else 0,
        lambda: bracketed(dice, room - 1): 3 if room else 0,
        lambda: dice.choice(NAMES) + bracketed(dice, room - 1): 1 if room else 0,
    }
    return pick(dice, choices)()


def expression(dice, room, is_inside):
    """Operands with operators between them; inside of brackets and f-strings line ends may stand there too."""
    gaps = GAPS_INSIDE if is_inside else GAPS

    def more():
        return pick(dice, gaps) + dice.choice(OPERATORS) + pick(dice, gaps) + operand(dice, room)

    return operand(dice, room) + several(dice, 2, more)


def block(dice, margin, room):
    """Lines of one width, with wider ones, blank ones and comments between them."""
    def line():
        empty = several(dice, 2, lambda: dice.choice(EMPTY_LINES)) if dice.random() < 0.2 else ""
        statement = pick(dice, STATEMENTS).replace("@", expression(dice, dice.randrange(3), False))
        inner = block(dice, margin + dice.choice([" ", "  ", "    "]), room - 1) if room and dice.random() < 0.4 else ""
        carriage = pick(dice, {"": 50, "\r": 1})
        return empty + margin + carriage + statement + pick(dice, ENDINGS) + pick(dice, LINE_ENDS) + inner

    return line() + several(dice, 2, line)


def program(dice):
    """Some lines, at times with a margin at their begin or without a line end at their end."""
    text = block(dice, pick(dice, {"": 9, "  ": 1}), 3)
    return text.rstrip("\r\n") if dice.random() < 0.3 else text


def changed(dice, text):
    """The text with one place changed: cut off, a slice left out, doubled or moved, or something put there."""
    if dice.random() < 0.2:
        begin = dice.choice([0] + [found.end() for found in re.finditer("\n", text)])
        return text[:begin] + dice.choice(MARGINS) + text[begin:]
    begin = dice.randrange(len(text) + 1)
    end = begin + dice.randrange(4)
    front, middle, rest = text[:begin], text[begin:end], text[end:]
    insertion = dice.choice(INSERTIONS)
    return dice.choice([
        front + dice.choice(CUTS), front + insertion, front + rest, front + 2 * middle + rest,
        front + rest[:1] + middle + rest[1:], front + insertion + middle + rest, front + insertion + rest,
    ])


def random_text(dice):
    """A program or, more rarely, a row of any parts; hardly ever with a byte that is no UTF-8."""
    text = program(dice)
    if dice.random() < 0.15:
        text = several(dice, 15, lambda: dice.choice([dice.choice(INSERTIONS), dice.choice(NAMES), " ", "\n"]))
    if dice.random() < 0.7:
        text = changed(dice, text)
    place = dice.randrange(len(text) + 1)
    wrong = bytes([dice.randrange(0x80, 0x100)]) if dice.random() < 0.01 else b""
    return text[:place].encode() + wrong + text[place:].encode()


# Texts to lex on after their faults.

LAYOUT = ["a", "if x:\n", "\n", "\n", "\n ", "\n  ", "\n   ", "\n\t", " ", "\t", "# c\n", "\t# c", "#", "\r\n", "\r", "\r\n  ", "x \t"]
LONGEST = 4096


def is_utf8(text):
    """Whether bytes are UTF-8."""
    try:
        text.decode()
    except UnicodeDecodeError:
        return False
    return True


def random_texts(count, seed):
    """Random texts that are UTF-8: programs with a change or two, and rows of parts."""
    dice = random.Random(seed)
    while count:
        match dice.randrange(4):
            case 0:
                text = several(dice, 16, lambda: dice.choice(LAYOUT)).encode()
            case 1:
                parts = [dice.choice(INSERTIONS), dice.choice(NAMES), " ", "\n", "\n"]
                text = several(dice, 30, lambda: dice.choice(parts + [dice.choice(INSERTIONS)])).encode()
            case _:
                text = b"".join(random_text(dice) for _ in range(dice.randrange(1, 4)))
        if is_utf8(text) and len(text) <= LONGEST:
            count -= 1
            yield text
