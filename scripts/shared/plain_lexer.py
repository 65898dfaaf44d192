"""A plain lexer of Starlark, written from docs/GRAMMAR.md and not from the code, and the lines that starlark_lex prints.

Texts are bytes. The sections are in the order of the page.
"""

import re
import sys
from typing import NamedTuple

# -- Words

PREFIXES = {  # of openers: the kind of literal, and whether it is raw
    b"": ("String", False), b"r": ("String", True), b"f": ("FString", False), b"fr": ("FString", True),
    b"rf": ("FString", True),
    b"b": ("Bytes", False), b"br": ("Bytes", True), b"rb": ("Bytes", True),
}
OPENERS = [prefix + quote for prefix in PREFIXES for quote in (b"'", b'"')]
SYMBOLS = dict(zip(
    b", ; : += -= *= /= //= %= == != <= >= ** -> = < > - + * % / // . & | ^ << >> ~ &= |= ^= <<= >>= ... [ { ( ] } )"
    .split(),
    "Comma Semicolon Colon PlusEqual MinusEqual StarEqual SlashEqual SlashSlashEqual PercentEqual EqualEqual BangEqual "
    "LessEqual GreaterEqual StarStar MinusGreater Equal LessThan GreaterThan Minus Plus Star Percent Slash SlashSlash "
    "Dot Ampersand Pipe Caret LessLess GreaterGreater Tilde AmpersandEqual PipeEqual CaretEqual LessLessEqual "
    "GreaterGreaterEqual Ellipsis OpeningSquare OpeningCurly OpeningRound ClosingSquare ClosingCurly ClosingRound"
    .split(),
    strict=True,
))
KEYWORDS = b"and break continue def elif else for if in lambda load not or pass return".split()
RESERVED = (
    b"as assert async await class del except finally from global import is nonlocal raise try while with yield".split()
)
EXPONENT = rb"([eE][+-]?[0-9]+)"


def one_of(words):
    """A pattern of the given words; it finds the longest."""
    return b"|".join(re.escape(word) for word in sorted(words, key=len, reverse=True))


LANGUAGE = [(word_class, re.compile(pattern)) for word_class, pattern in [
    ("Opener", one_of(OPENERS)),
    ("LineEnd", rb"\r?\n"),
    ("Skipped", rb"\\\r?\n"),
    ("Symbol", one_of(SYMBOLS)),
    ("Keyword", one_of(KEYWORDS)),
    ("Reserved", one_of(RESERVED)),
    ("Skipped", rb" +"),
    ("Comment", rb"#[^\r\n]*"),
    ("Tabs", rb"\t+"),
    ("Identifier", rb"[A-Za-z_][A-Za-z_0-9]*"),
    ("Decimal", rb"[0-9]+"),
    ("Hexadecimal", rb"0[xX][0-9a-fA-F]+"),
    ("Octal", rb"0[oO][0-7]+"),
    ("Binary", rb"0[bB][01]+"),
    ("Float", rb"[0-9]+\.[0-9]*" + EXPONENT + rb"?"),
    ("Float", rb"[0-9]+" + EXPONENT),
    ("Float", rb"\.[0-9]+" + EXPONENT + rb"?"),
]]

# -- The longest word


def longest_word(text, offset):
    """The longest word at an offset, with the class of its earliest row; empty where there is none."""
    longest, longest_class = b"", None
    for word_class, pattern in LANGUAGE:
        found = pattern.match(text, offset)
        if found and len(found.group()) > len(longest):
            longest, longest_class = found.group(), word_class
    return longest, longest_class


# -- Numbers

BASES = {"Decimal": 10, "Hexadecimal": 16, "Octal": 8, "Binary": 2}


def integer_text(word, base):
    """An integer as it is printed: by its value where 32 bits with a sign hold it, else as it is written."""
    digits = word if base == 10 else word[2:]
    if int(digits, base) < 2**31:
        return str(int(digits, base))
    plain = digits.decode().lower().lstrip("0")
    return plain if base == 10 else f"{plain} (base {base})"


# -- Tokens, faults


class Lexeme(NamedTuple):
    """A token's kind and printed value, and its span."""
    begin: int
    end: int
    kind: str
    value: str | None = None


MESSAGES = {
    "Indentation": "incorrect indentation",
    "InvalidInput": "invalid input `%s`",
    "InvalidTab": "tabs are not allowed",
    "UnfinishedStringLiteral": "unfinished string literal",
    "InvalidEscapeSequence": "invalid string escape sequence `%s`",
    "EmptyEscapeSequence": "missing string escape sequence, only saw `\\`",
    "ReservedKeyword": "cannot use reserved keyword `%s`",
    "StartsZero": "integer cannot have leading 0, got `%s`",
    "UnfinishedFStringExpression": "f-string expression is missing closing `}`",
}


class Fault(Exception):
    """Ends a reading."""

    def __init__(self, kind, begin, end, named=b""):
        super().__init__(kind)
        self.begin, self.end = begin, end
        self.last = None  # of a bad escape, where its literal ends
        self.message = "Parse error: " + MESSAGES[kind].replace("%s", named.decode())


# -- Items of literals

PLAIN_ESCAPES = {
    b"n": b"\n", b"r": b"\r", b"t": b"\t", b"a": b"\a", b"b": b"\b", b"f": b"\f", b"v": b"\v",
    b"'": b"'", b'"': b'"', b"\\": b"\\", b"\n": b"",
}
ESCAPE_LENGTHS = {b"x": 2, b"u": 4, b"U": 8}
HEXADECIMAL_DIGITS = re.compile(rb"[0-9a-fA-F]*")
OCTAL_DIGITS = re.compile(rb"[0-7]+")


class Opening(NamedTuple):
    """What begins a literal: its kind, whether it is raw, its quotes, one or three, and its span."""
    kind: str
    is_raw: bool
    quotes: bytes
    begin: int
    end: int


def opening_at(text, begin, word):
    """The opening whose word is at an offset."""
    kind, is_raw = PREFIXES[word[:-1]]
    end, quote = begin + len(word), word[-1:]
    if text.startswith(quote + quote, end):
        return Opening(kind, is_raw, 3 * quote, begin, end + 2)
    return Opening(kind, is_raw, quote, begin, end)


def character_at(text, offset):
    """The bytes of the character at an offset; none at the end."""
    end = offset + 1
    while end < len(text) and 0x80 <= text[end] < 0xC0:
        end += 1
    return text[offset:end]


def body_at(text, offset, opening):
    """The value of the items from an offset on, and the first stop with its offset."""
    value = b""
    while True:
        stop = stop_at(text, offset, opening)
        if stop:
            return value, stop, offset
        item, offset = item_at(text, offset, opening)
        value += item


def stop_at(text, offset, opening):
    """The stop at an offset, if one is there."""
    character = character_at(text, offset)
    if text.startswith(opening.quotes, offset):
        return "Closing"
    if character == b"\n" and len(opening.quotes) == 1:
        return "Line"
    if not character or (opening.is_raw and character == b"\\" and offset + 1 == len(text)):
        return "Ended"
    if opening.kind == "FString" and character in b"{}" and not text.startswith(2 * character, offset):
        return "OpeningBrace" if character == b"{" else "ClosingBrace"
    return None


def item_at(text, offset, opening):
    """The value of the item at an offset, and where it ends."""
    character = character_at(text, offset)
    end = offset + len(character)
    if character == b"\r":
        return b"", end
    if opening.kind == "FString" and character in b"{}":
        return character, end + 1
    if character == b"\\":
        return raw_pair(text, offset, opening) if opening.is_raw else escape(text, offset, opening)
    return character, end


def raw_pair(text, begin, opening):
    """The value of a backslash and the next character in a raw literal, and where they end."""
    character = character_at(text, begin + 1)
    end = begin + 1 + len(character)
    bare = (opening.quotes[:1],) if opening.kind == "FString" else (b"'", b'"')
    return (character if character in bare else b"\\" + character), end


def escape(text, begin, opening):
    """The value of the escape at a backslash, and where it ends."""
    character = character_at(text, begin + 1)
    end = begin + 1 + len(character)
    if not character:
        raise broken(text, begin, end, opening)
    if character in PLAIN_ESCAPES:
        return PLAIN_ESCAPES[character], end
    if character == b"\r":
        if text.startswith(b"\n", end):
            return b"", end + 1
        raise broken(text, begin, end, opening)
    if character in ESCAPE_LENGTHS:
        return hexadecimal_escape(text, begin, ESCAPE_LENGTHS[character], opening)
    if character in b"01234567":
        return octal_escape(text, begin, opening)
    return b"\\" + character, end


def hexadecimal_escape(text, begin, length, opening):
    """The value of an escape of `length` hexadecimal digits, and where it ends."""
    digits = HEXADECIMAL_DIGITS.match(text, begin + 2, begin + 2 + length).group()
    end = begin + 2 + len(digits)
    if len(digits) < length:
        raise broken(text, begin, end, opening)
    is_byte = opening.kind == "Bytes" and length == 2
    return coded(text, begin, end, int(digits, 16), is_byte, opening), end


def octal_escape(text, begin, opening):
    """The value of an escape of up to three octal digits, and where it ends."""
    digits = OCTAL_DIGITS.match(text, begin + 1, begin + 4).group()
    end = begin + 1 + len(digits)
    return coded(text, begin, end, int(digits, 8), opening.kind == "Bytes", opening), end


def coded(text, begin, end, value, is_byte, opening):
    """The byte of this value, or else the character; a bad escape where there is none."""
    if is_byte and value < 0x100:
        return bytes([value])
    if is_byte or 0xD800 <= value < 0xE000 or value > sys.maxunicode:
        raise bad_escape(text, begin, end, opening)
    return chr(value).encode()


def broken(text, begin, offset, opening):
    """The fault of an escape that goes on at an offset with what doesn't fit, or with the text's end."""
    return bad_escape(text, begin, offset + len(character_at(text, offset)), opening)


def bad_escape(text, begin, end, opening):
    """The fault of a bad escape that was read up to an offset; in an f-string over the last character."""
    if opening.kind == "FString":
        last = text[begin:end].decode()[-1].encode()
        return Fault("InvalidEscapeSequence", end - len(last), end, b"\\")
    if end == begin + 1:
        return Fault("EmptyEscapeSequence", begin, end)
    return Fault("InvalidEscapeSequence", begin, end, text[begin + 1:end])


# -- Depths

OPENING_BRACKETS = ["OpeningSquare", "OpeningCurly", "OpeningRound"]
CLOSING_BRACKETS = ["ClosingSquare", "ClosingCurly", "ClosingRound"]


class FString:
    """An f-string whose end is still to come: its opening, its braces, and its rounds and its squares."""

    def __init__(self, opening):
        self.opening, self.braces, self.depths = opening, 0, {"Round": 0, "Square": 0}

    def count(self, kind):
        """Takes in one token of its own."""
        if kind == "FStringExprStart":
            self.braces = 1
        elif kind == "FStringExprEnd":
            self.braces = 0
        elif kind == "OpeningCurly":
            self.braces += 1
        elif kind == "ClosingCurly":
            self.braces -= 1
        elif kind in OPENING_BRACKETS:
            self.depths[kind.removeprefix("Opening")] += 1
        elif kind in CLOSING_BRACKETS:
            shape = kind.removeprefix("Closing")
            self.depths[shape] = max(0, self.depths[shape] - 1)


class Situation:
    """What the pieces before an offset decide."""

    def __init__(self):
        self.brackets = 0  # opened less closed
        self.fstrings = []  # open ones
        self.widths = []  # open ones, each greater than the one before
        self.follows_gap = False

    def where(self):
        """Where an offset is, seen from f-strings."""
        if not self.fstrings:
            return "Outside"
        if not self.fstrings[-1].braces:
            return "Text"
        is_top = self.fstrings[-1].braces == 1 and not any(self.fstrings[-1].depths.values())
        return "Top" if is_top else "Deeper"

    def count(self, kind):
        """Takes in one token."""
        if kind == "FStringEnd":
            self.fstrings.pop()
        elif self.fstrings:
            self.fstrings[-1].count(kind)
        self.brackets += (kind in OPENING_BRACKETS) - (kind in CLOSING_BRACKETS)


# -- Margins

COMMENT_LINE = re.compile(rb"[ \t\r]*(#[^\n]*)\n?")
MARGIN = re.compile(rb"[ \t\r]*")


def comment(begin, written):
    """The comment at an offset, as it is written."""
    return Lexeme(begin, begin + len(written), "Comment", written[1:].decode())


def comment_lines(text, offset):
    """The comments of the comment-only lines at an offset, and where these lines end."""
    comments = []
    while line := COMMENT_LINE.match(text, offset):
        comments.append(comment(line.start(1), line.group(1).removesuffix(b"\r")))
        offset = line.end()
    return comments, offset


def indentation(text, begin, fault_begin, widths):
    """The lexemes of the last line of a margin, from its start on, and where it ends; its faults begin elsewhere."""
    margin = MARGIN.match(text, begin).group()
    content = begin + len(margin)
    if content == len(text) or text[content] == ord("\n"):
        return [], content
    if b"\t" in margin:
        raise Fault("InvalidTab", fault_begin, fault_begin)
    width, greatest = margin.count(b" "), max(widths, default=0)
    if width > greatest:
        widths.append(width)
        return [Lexeme(begin, content, "Indent")], content
    if width and width not in widths:
        raise Fault("Indentation", fault_begin, content)
    lexemes = []
    while widths and widths[-1] > width:
        widths.pop()
        lexemes.append(Lexeme(begin, begin, "Dedent"))
    return lexemes, content


# -- Pieces. Each gives its lexemes and where it ends.

BANG = re.compile(rb"!(?!=)")


def step(text, begin, situation):
    """The piece at an offset after the first margin."""
    where, follows_gap = situation.where(), situation.follows_gap
    situation.follows_gap = False
    if where == "Text":
        return chunk(text, begin, situation.fstrings[-1].opening)
    if where == "Top" and not follows_gap and BANG.match(text, begin):
        return [Lexeme(begin, begin + 1, "FStringBang")], begin + 1
    return word_step(text, begin, situation)


def chunk(text, begin, opening):
    """Text of an f-string, and what ends it."""
    value, stop, offset = body_at(text, begin, opening)
    if stop == "Line":
        raise Fault("UnfinishedStringLiteral", begin, offset + 1)
    if stop == "Ended":
        raise Fault("UnfinishedStringLiteral", begin, len(text))
    if stop == "ClosingBrace":
        raise Fault("InvalidInput", offset, offset + 1, b"}")
    lexemes = [Lexeme(begin, offset, "FStringText", value.hex())] if value else []
    if stop == "OpeningBrace":
        return lexemes + [Lexeme(offset, offset + 1, "FStringExprStart")], offset + 1
    end = offset + len(opening.quotes)
    return lexemes + [Lexeme(offset, end, "FStringEnd")], end


def word_step(text, begin, situation):
    """The piece of a word."""
    word, word_class = longest_word(text, begin)
    end = begin + len(word)
    refuse(text, begin, word, word_class)
    if word_class == "Skipped":
        situation.follows_gap = True
        return [], end
    if word_class == "LineEnd":
        return line_end(text, begin, end, situation)
    if word_class == "Opener":
        return literal(text, opening_at(text, begin, word), situation)
    if word_class == "Comment":
        return [comment(begin, word)], end
    return [Lexeme(begin, end, *token(word, word_class, situation))], end


def refuse(text, begin, word, word_class):
    """Raises the fault of a word that may not stand anywhere, and of none."""
    end = begin + len(word)
    if not word:
        character = character_at(text, begin)
        raise Fault("InvalidInput", begin, begin + len(character), character)
    if word_class == "Tabs":
        raise Fault("InvalidTab", begin, begin)
    if word_class == "Reserved":
        raise Fault("ReservedKeyword", begin, end, word)
    if word_class == "Decimal" and word.startswith(b"0") and len(word) > 1:
        raise Fault("StartsZero", begin, end, word)


def line_end(text, begin, end, situation):
    """A line end, with the margin after it where it counts."""
    if situation.fstrings or situation.brackets:
        return [], end
    comments, offset = comment_lines(text, end)
    layout, offset = indentation(text, offset, begin, situation.widths)
    return [Lexeme(begin, end, "Newline"), *comments, *layout], offset


def literal(text, opening, situation):
    """A whole literal, or an f-string's start."""
    if opening.kind == "FString":
        situation.fstrings.append(FString(opening))
        quote = "Single" if opening.quotes[:1] == b"'" else "Double"
        start = quote if len(opening.quotes) == 1 else "Triple" + quote
        return [Lexeme(opening.begin, opening.end, "FStringStart", start)], opening.end
    value, stop, offset = body_at(text, opening.end, opening)
    if stop == "Closing":
        end = offset + len(opening.quotes)
        return [Lexeme(opening.begin, end, opening.kind, value.hex())], end
    if situation.fstrings and lacks_brace(text, opening):
        raise Fault("UnfinishedFStringExpression", opening.begin, len(text))
    raise Fault("UnfinishedStringLiteral", opening.begin, offset if stop == "Line" else len(text))


def lacks_brace(text, opening):
    """Whether an unfinished literal in an expression is taken for an unfinished expression."""
    rest = text[opening.end:]
    has_line = b"\n" in rest and len(opening.quotes) == 1
    return opening.kind == "String" and b"\\" not in rest and b"\r" not in rest and not has_line


def token(word, word_class, situation):
    """The kind and the value of a word that is one token."""
    if word_class in BASES:
        return "Int", integer_text(word, BASES[word_class])
    if word_class == "Keyword":
        return word.decode().capitalize(), None
    if word_class == "Symbol":
        ends_expression = word == b"}" and situation.where() == "Top"
        return ("FStringExprEnd" if ends_expression else SYMBOLS[word]), None
    return word_class, word.decode()


# -- Readings and the outcome


def outcome(text):
    """The lexemes of a text or those before its first fault, and that fault or None."""
    situation = Situation()
    lexemes, offset = comment_lines(text, 0)
    try:
        layout, offset = indentation(text, offset, 0, situation.widths)
        lexemes += layout
        while offset < len(text) or situation.where() == "Text":
            piece, offset = step(text, offset, situation)
            for lexeme in piece:
                situation.count(lexeme.kind)
            lexemes += piece
    except Fault as fault:
        return lexemes, fault
    kinds = ["Newline"] + len(situation.widths) * ["Dedent"]
    return lexemes + [Lexeme(offset, offset, kind) for kind in kinds], None


# -- Where lexing begins again after a fault

LINE_END = re.compile(rb"\r?\n")
COMMENT_LINES = re.compile(rb"([ \t\r]*#[^\n]*(\n|\Z))*")


def next_line(text, offset):
    """The start of the line after the one that holds an offset, or the end of the text."""
    return text.find(b"\n", offset) + 1 or len(text)


def restart(text, fault):
    """Where lexing begins again after a fault."""
    line_end = LINE_END.match(text, fault.begin)
    if fault.message.endswith("tabs are not allowed") and (line_end or fault.begin == 0):
        margin = line_end.end() if line_end else fault.begin
        return next_line(text, COMMENT_LINES.match(text, margin).end())
    return next_line(text, max(fault.begin, fault.end - 1))


# -- Lexemes of a part of a text


def moved_lexeme(lexeme, base):
    """A lexeme moved by `base` bytes."""
    return lexeme._replace(begin=base + lexeme.begin, end=base + lexeme.end)


# -- What starlark_lex prints


def line_and_column(text, offset):
    """Both counted from 1, columns in characters."""
    line_begin = text.rfind(b"\n", 0, offset) + 1
    return text.count(b"\n", 0, offset) + 1, len(text[line_begin:offset].decode()) + 1


def span_text(text, begin, end):
    """The position of a span as it is printed."""
    (line, column), (end_line, end_column) = line_and_column(text, begin), line_and_column(text, end)
    if line != end_line:
        return f"{line}:{column}-{end_line}:{end_column}"
    if column != end_column:
        return f"{line}:{column}-{end_column}"
    return f"{line}:{column}"


def lexeme_line(text, lexeme):
    """The line of a lexeme."""
    value = "" if lexeme.value is None else " " + lexeme.value
    begin, end = lexeme.begin, lexeme.end
    return f"{begin}-{end} {span_text(text, begin, end)} {lexeme.kind}{value}\n"


def fault_line(text, fault):
    """The line of a fault."""
    begin, end = fault.begin, fault.end
    return f"fault {begin}-{end} <stdin>:{span_text(text, begin, end)} {fault.message}\n"


def expected(text):
    """What the program has to print, and its exit status."""
    try:
        text.decode()
    except UnicodeDecodeError:
        return b"", 2
    lexemes, fault = outcome(text)
    lines = [lexeme_line(text, lexeme) for lexeme in lexemes]
    if fault:
        lines.append(fault_line(text, fault))
    return "".join(lines).encode(), 1 if fault else 0
