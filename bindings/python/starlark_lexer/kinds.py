"""The numbers of kinds and of their classes, as in bindings/c/starlark_lex.h. They never change."""

from enum import IntEnum


class KindClass(IntEnum):
    """What a kind is to a highlighter, an editor or a parser."""

    COMMENT = 1
    # `INDENT`, `DEDENT` and `NEWLINE`.
    LAYOUT = 2
    NAME = 3
    # An integer or a float.
    NUMBER = 4
    # A string, bytes, or the quotes or the text of an f-string.
    STRING = 5
    KEYWORD = 6
    # A symbol that computes, compares or assigns, or is `->`.
    OPERATOR = 7
    # `,`, `;`, `:`, `.`, `...`, or the `!` of an f-string's expression.
    PUNCTUATION = 8
    # Also the `{` and `}` of an f-string's expression.
    BRACKET = 9


class Kind(IntEnum):
    """The kind of a token."""

    @property
    def kind_class(self) -> KindClass:
        """What the kind is to a highlighter, an editor or a parser."""
        return _CLASSES[self]

    COMMENT = 1
    INDENT = 2
    DEDENT = 3
    NEWLINE = 4
    IDENTIFIER = 5
    INT = 6
    FLOAT = 7
    STRING = 8
    BYTES = 9
    FSTRING_START = 10
    FSTRING_TEXT = 11
    FSTRING_EXPR_START = 12
    FSTRING_EXPR_END = 13
    FSTRING_BANG = 14
    FSTRING_END = 15
    AND = 16
    BREAK = 17
    CONTINUE = 18
    DEF = 19
    ELIF = 20
    ELSE = 21
    FOR = 22
    IF = 23
    IN = 24
    LAMBDA = 25
    LOAD = 26
    NOT = 27
    OR = 28
    PASS = 29
    RETURN = 30
    COMMA = 31
    SEMICOLON = 32
    COLON = 33
    PLUS_EQUAL = 34
    MINUS_EQUAL = 35
    STAR_EQUAL = 36
    SLASH_EQUAL = 37
    SLASH_SLASH_EQUAL = 38
    PERCENT_EQUAL = 39
    EQUAL_EQUAL = 40
    BANG_EQUAL = 41
    LESS_EQUAL = 42
    GREATER_EQUAL = 43
    STAR_STAR = 44
    MINUS_GREATER = 45
    EQUAL = 46
    LESS_THAN = 47
    GREATER_THAN = 48
    MINUS = 49
    PLUS = 50
    STAR = 51
    PERCENT = 52
    SLASH = 53
    SLASH_SLASH = 54
    DOT = 55
    AMPERSAND = 56
    PIPE = 57
    CARET = 58
    LESS_LESS = 59
    GREATER_GREATER = 60
    TILDE = 61
    AMPERSAND_EQUAL = 62
    PIPE_EQUAL = 63
    CARET_EQUAL = 64
    LESS_LESS_EQUAL = 65
    GREATER_GREATER_EQUAL = 66
    ELLIPSIS = 67
    OPENING_SQUARE = 68
    OPENING_CURLY = 69
    OPENING_ROUND = 70
    CLOSING_SQUARE = 71
    CLOSING_CURLY = 72
    CLOSING_ROUND = 73


_CLASSES = {
    Kind.COMMENT: KindClass.COMMENT,
    Kind.INDENT: KindClass.LAYOUT,
    Kind.DEDENT: KindClass.LAYOUT,
    Kind.NEWLINE: KindClass.LAYOUT,
    Kind.IDENTIFIER: KindClass.NAME,
    Kind.INT: KindClass.NUMBER,
    Kind.FLOAT: KindClass.NUMBER,
    Kind.STRING: KindClass.STRING,
    Kind.BYTES: KindClass.STRING,
    Kind.FSTRING_START: KindClass.STRING,
    Kind.FSTRING_TEXT: KindClass.STRING,
    Kind.FSTRING_EXPR_START: KindClass.BRACKET,
    Kind.FSTRING_EXPR_END: KindClass.BRACKET,
    Kind.FSTRING_BANG: KindClass.PUNCTUATION,
    Kind.FSTRING_END: KindClass.STRING,
    Kind.AND: KindClass.KEYWORD,
    Kind.BREAK: KindClass.KEYWORD,
    Kind.CONTINUE: KindClass.KEYWORD,
    Kind.DEF: KindClass.KEYWORD,
    Kind.ELIF: KindClass.KEYWORD,
    Kind.ELSE: KindClass.KEYWORD,
    Kind.FOR: KindClass.KEYWORD,
    Kind.IF: KindClass.KEYWORD,
    Kind.IN: KindClass.KEYWORD,
    Kind.LAMBDA: KindClass.KEYWORD,
    Kind.LOAD: KindClass.KEYWORD,
    Kind.NOT: KindClass.KEYWORD,
    Kind.OR: KindClass.KEYWORD,
    Kind.PASS: KindClass.KEYWORD,
    Kind.RETURN: KindClass.KEYWORD,
    Kind.COMMA: KindClass.PUNCTUATION,
    Kind.SEMICOLON: KindClass.PUNCTUATION,
    Kind.COLON: KindClass.PUNCTUATION,
    Kind.PLUS_EQUAL: KindClass.OPERATOR,
    Kind.MINUS_EQUAL: KindClass.OPERATOR,
    Kind.STAR_EQUAL: KindClass.OPERATOR,
    Kind.SLASH_EQUAL: KindClass.OPERATOR,
    Kind.SLASH_SLASH_EQUAL: KindClass.OPERATOR,
    Kind.PERCENT_EQUAL: KindClass.OPERATOR,
    Kind.EQUAL_EQUAL: KindClass.OPERATOR,
    Kind.BANG_EQUAL: KindClass.OPERATOR,
    Kind.LESS_EQUAL: KindClass.OPERATOR,
    Kind.GREATER_EQUAL: KindClass.OPERATOR,
    Kind.STAR_STAR: KindClass.OPERATOR,
    Kind.MINUS_GREATER: KindClass.OPERATOR,
    Kind.EQUAL: KindClass.OPERATOR,
    Kind.LESS_THAN: KindClass.OPERATOR,
    Kind.GREATER_THAN: KindClass.OPERATOR,
    Kind.MINUS: KindClass.OPERATOR,
    Kind.PLUS: KindClass.OPERATOR,
    Kind.STAR: KindClass.OPERATOR,
    Kind.PERCENT: KindClass.OPERATOR,
    Kind.SLASH: KindClass.OPERATOR,
    Kind.SLASH_SLASH: KindClass.OPERATOR,
    Kind.DOT: KindClass.PUNCTUATION,
    Kind.AMPERSAND: KindClass.OPERATOR,
    Kind.PIPE: KindClass.OPERATOR,
    Kind.CARET: KindClass.OPERATOR,
    Kind.LESS_LESS: KindClass.OPERATOR,
    Kind.GREATER_GREATER: KindClass.OPERATOR,
    Kind.TILDE: KindClass.OPERATOR,
    Kind.AMPERSAND_EQUAL: KindClass.OPERATOR,
    Kind.PIPE_EQUAL: KindClass.OPERATOR,
    Kind.CARET_EQUAL: KindClass.OPERATOR,
    Kind.LESS_LESS_EQUAL: KindClass.OPERATOR,
    Kind.GREATER_GREATER_EQUAL: KindClass.OPERATOR,
    Kind.ELLIPSIS: KindClass.PUNCTUATION,
    Kind.OPENING_SQUARE: KindClass.BRACKET,
    Kind.OPENING_CURLY: KindClass.BRACKET,
    Kind.OPENING_ROUND: KindClass.BRACKET,
    Kind.CLOSING_SQUARE: KindClass.BRACKET,
    Kind.CLOSING_CURLY: KindClass.BRACKET,
    Kind.CLOSING_ROUND: KindClass.BRACKET,
}


class Quotes(IntEnum):
    """The quotes of an f-string: the value of a `Kind.FSTRING_START`."""

    SINGLE = 1
    DOUBLE = 2
    TRIPLE_SINGLE = 3
    TRIPLE_DOUBLE = 4


class FaultKind(IntEnum):
    """The kind of a fault."""

    INDENTATION = 1
    INVALID_INPUT = 2
    INVALID_TAB = 3
    UNFINISHED_STRING_LITERAL = 4
    INVALID_ESCAPE_SEQUENCE = 5
    EMPTY_ESCAPE_SEQUENCE = 6
    RESERVED_KEYWORD = 7
    STARTS_ZERO = 8
    UNFINISHED_FSTRING_EXPRESSION = 9
