"""Cases of strings and bytes literals."""

QUOTES = {
    "'": "single quotes",
    '"': "double quotes",
    "'''": "three single quotes",
    '"""': "three double quotes",
}
PREFIXES = {
    "": "a string",
    "r": "a raw string",
    "b": "a bytes literal",
    "br": "a raw bytes literal",
    "rb": "a raw bytes literal by `rb`",
}
KINDS = {"": "strings", "r": "strings raw", "b": "bytes", "br": "bytes raw", "rb": "bytes raw"}
SHORT = {"": "a string", "r": "a raw string", "b": "a bytes literal", "br": "a raw bytes literal"}

ESCAPES = {
    r"\n": "an LF",
    r"\r": "a CR",
    r"\t": "a tab",
    r"\a": "a bell",
    r"\b": "a backspace",
    r"\f": "a form feed",
    r"\v": "a vertical tab",
    r"\'": "a single quote",
    r"\"": "a double quote",
    r"\\": "a backslash",
}

NUMBERED = {
    r"\x41": "two hexadecimal digits after x",
    r"\x00": "x and two zeros",
    r"\x7f": "the greatest ASCII character by x",
    r"\x80": "x and a number above ASCII",
    r"\xff": "the greatest number by x",
    r"\xFF": "capital hexadecimal digits after x",
    r"\xaB": "small and capital hexadecimal digits after x",
    r"\x414": "a third digit after x stands for itself",
    r"\u0041": "four hexadecimal digits after u",
    r"\u0000": "u and zeros",
    r"\u00e9": "u and a character of two bytes",
    r"\u20ac": "u and a character of three bytes",
    r"\u20AC": "capital digits after u",
    r"\u07ff": "the greatest character of two bytes",
    r"\u0800": "the least character of three bytes",
    r"\ud7ff": "the character before the surrogates",
    r"\ue000": "the character after the surrogates",
    r"\uffff": "the greatest character by u",
    r"\u00411": "a fifth digit after u stands for itself",
    r"\U00000041": "eight hexadecimal digits after U",
    r"\U00000000": "U and zeros",
    r"\U0001F52C": "U and a character of four bytes",
    r"\U00010000": "the least character of four bytes",
    r"\U0000d7ff": "U and the character before the surrogates",
    r"\U0000e000": "U and the character after the surrogates",
    r"\U0010ffff": "the greatest character",
    r"\U0010FFFF": "the greatest character, in capital digits",
    r"\U000000411": "a ninth digit after U stands for itself",
    r"\0": "one octal digit",
    r"\7": "the greatest octal digit",
    r"\12": "two octal digits",
    r"\101": "three octal digits",
    r"\000": "three zeros",
    r"\177": "the greatest ASCII character in octal digits",
    r"\200": "an octal number above ASCII",
    r"\377": "the greatest octal number of a byte",
    r"\1234": "a fourth octal digit stands for itself",
    r"\08": "8 after an octal digit stands for itself",
    r"\18": "8 after another octal digit",
    r"\779": "9 after two octal digits",
    r"\0a": "a letter after an octal digit",
}
TOO_GREAT = {
    r"\400": "an octal number of nine bits", r"\777": "the greatest octal number",
}
BAD = {
    r"\x": "x without digits",
    r"\x4": "x and one digit",
    r"\xg": "x and no digit",
    r"\x4g": "x, a digit and no digit",
    r"\xé": "x and a character of two bytes",
    r"\x4é": "x, a digit and a character of two bytes",
    r"\x😀": "x and a character of four bytes",
    r"\x 41": "x and a space",
    r"\x-1": "x and a sign",
    r"\u": "u without digits",
    r"\u1": "u and one digit",
    r"\u12": "u and two digits",
    r"\u123": "u and three digits",
    r"\u123g": "u and three digits and a letter",
    r"\u{41}": "u and a brace",
    r"\ud800": "the first surrogate",
    r"\udbff": "the last high surrogate",
    r"\udc00": "the first low surrogate",
    r"\udfff": "the last surrogate",
    r"\ud83d\ude00": "two surrogates, that would be a pair",
    r"\U": "U without digits",
    r"\U1": "U and one digit",
    r"\U0001f52": "U and seven digits",
    r"\U0001f52g": "U, seven digits and a letter",
    r"\U0000d800": "U and a surrogate",
    r"\U00110000": "U and a number after the greatest character",
    r"\Uffffffff": "U and the greatest number",
    r"\U80000041": "U and a number of 32 bits",
}
PLAIN = {
    "an empty body": "",
    "a letter": "a",
    "a space": " ",
    "a tab": "\t",
    "a zero byte": "\0",
    "a control character": "\x01",
    "a delete character": "\x7f",
    "a character of two bytes": "é",
    "a character of three bytes": "€",
    "a character of four bytes": "😀",
    "a combining mark": "e\u0301",
    "a byte order mark": "\ufeff",
    "a line separator": "\u2028",
    "a number sign": "# no comment",
    "braces": "{x}",
    "brackets": "([{",
    "a keyword": "if",
    "a reserved word": "class",
    "a dollar sign": "$x",
    "two words": "a b",
    "a number with a leading zero": "01",
}
BODIES = {  # of literals with double quotes: what it may hold, and how that is written
    "a single quote in double quotes": '"\'"',
    "a double quote in single quotes": "'\"'",
    "three single quotes in double quotes": "\"'''\"",
    "three double quotes in single quotes": "'\"\"\"'",
    "a single quote in three single quotes": "'''a'b'''",
    "a double quote in three double quotes": '"""a"b"""',
    "two single quotes in three single quotes": "'''a''b'''",
    "two double quotes in three double quotes": '"""a""b"""',
    "three double quotes in three single quotes": "'''a\"\"\"b'''",
    "three single quotes in three double quotes": "\"\"\"a'''b\"\"\"",
    "a triple string may begin with its quote": '""" "a"""',
    "a quote right after three opening quotes": "''''a'''",
    "two quotes right after three opening quotes": "'''''a'''",
    "six quotes are an empty triple string": "''''''",
    "six double quotes are an empty triple string": '""""""',
    "two quotes are an empty string": "''",
    "four quotes open a triple string that doesn't end": "''''",
    "five quotes open a triple string that doesn't end": "'''''",
    "seven quotes: an empty triple string, and an open string": "'''''''",
    "eight quotes: two empty strings": "''''''''",
    "nine quotes: an empty triple string, and an open triple string": 9 * "'",
    "twelve quotes: two empty triple strings": 12 * "'",
    "a triple string ends at the first three quotes: a fourth opens a string": "'''a''''",
    "a fourth double quote at the end opens a string": '"""a""""',
    "two more quotes at the end are an empty string": "'''a'''''",
    "an escaped quote before three closing quotes": "'''a\\''''",
    "an escaped double quote before three closing quotes": '"""a\\""""',
    "two escaped quotes before the end": "'''\\'\\''''",
    "an escaped quote among three": "'''a'\\''b'''",
    "two quotes, an escaped quote, and the end": "'''a''\\''''",
    "a CR between closing quotes keeps them apart": "'''a''\r''''",
    "a CR after two quotes": "'''a''\rb'''",
    "two strings side by side": "'a''b'",
    "two strings of other quotes side by side": "'a'\"b\"",
    "two strings with a space between": "'a' 'b'",
    "two triple strings side by side": "'''a''''''b'''",
    "an empty string, then a string": "'' 'a'",
    "a string right after a name that is no prefix": "x'a'",
    "no string has the prefix if": "if'a'",
    "a string right before a keyword": "'a'if",
    "a name ends with a prefix": "xr'a'",
    "a name ends with the prefix b": "xb'a'",
    "an underscore before a prefix": "_b'a'",
    "a digit before a prefix": "x1r'a'",
    "a prefix and a space": "r 'a'",
    "the prefix b and a space": "b \"a\"",
    "a prefix and a backslash and a line end": "b\\\n'a'",
    "a capital R is no prefix": "R'a'",
    "a capital B is no prefix": "B'a'",
    "a capital BR is no prefix": "BR'a'",
    "Rb is no prefix": "Rb'a'",
    "rB is no prefix": "rB'a'",
    "u is no prefix": "u'a'",
    "ur is no prefix": "ur'a'",
    "U is no prefix": "U'a'",
    "rr is no prefix": "rr'a'",
    "bb is no prefix": "bb'a'",
    "brb is no prefix": "brb'a'",
    "bf is no prefix": "bf'a'",
    "fb is no prefix": "fb'a'",
    "t is no prefix": "t'a'",
    "c is no prefix": "c'a'",
}
LINES = {
    "an LF in a triple string": "'''a\nb'''",
    "an LF in a triple string of double quotes": '"""a\nb"""',
    "two LF in a triple string": "'''\n\n'''",
    "CR LF in a triple string is an LF": "'''a\r\nb'''",
    "a CR in a triple string is dropped": "'''a\rb'''",
    "two CR and an LF in a triple string": "'''a\r\r\nb'''",
    "a CR in a string is dropped": "'a\rb'",
    "a CR alone in a string": "'\r'",
    "a CR before the closing quote": "'a\r'",
    "a CR in a bytes literal is dropped": "b'a\rb'",
    "a CR in a raw string is dropped": "r'a\rb'",
    "a CR in a raw bytes literal is dropped": "br'a\rb'",
    "CR LF in a triple bytes literal": "b'''a\r\nb'''",
    "CR LF in a raw triple string": "r'''a\r\nb'''",
    "an escaped LF in a string is nothing": "'a\\\nb'",
    "an escaped CR LF in a string is nothing": "'a\\\r\nb'",
    "an escaped LF in a bytes literal is nothing": "b'a\\\nb'",
    "an escaped CR LF in a bytes literal is nothing": "b'a\\\r\nb'",
    "an escaped LF in a triple string is nothing": "'''a\\\nb'''",
    "an escaped CR LF in a triple string is nothing": "'''a\\\r\nb'''",
    "spaces after an escaped LF are kept": "'a\\\n  b'",
    "a tab after an escaped LF is kept": "'a\\\n\tb'",
    "an escaped LF at the start of a string": "'\\\n'",
    "two escaped LF": "'a\\\n\\\nb'",
    "an escaped CR and a letter is bad": "'a\\\rb'",
    "an escaped CR and a quote is bad": "'a\\\r'",
    "an escaped CR twice is bad": "'a\\\r\r\n'",
    "an escaped CR and a wide character is bad": "'\\\ré'",
    "an escaped CR in a triple string is bad": "'''a\\\rb'''",
    "an escaped CR at the end of the text is bad": "'a\\\r",
    "an escaped CR in a bytes literal is bad": "b'a\\\rb'",
    "a raw backslash before an LF keeps both": "r'a\\\nb'",
    "a raw backslash before an LF, of three quotes": "r'''a\\\nb'''",
    "a raw backslash before CR LF: the LF ends the line": "r'a\\\r\nb'",
    "a raw backslash before CR LF in a triple string": "r'''a\\\r\nb'''",
    "a raw backslash before a CR keeps both": "r'a\\\rb'",
    "a raw bytes literal with a backslash before an LF": "br'a\\\nb'",
    "the lines in a triple string have no indentation": "x = '''\n    a\n  b\n'''\ny",
    "a triple string in an indented block": "if x:\n  '''a\nb'''\n  y\n",
    "a triple string begins a line": "'''\n'''\n",
    "a number sign at the start of a line of a triple string": "'''\n# c\n'''",
    "a tab at the start of a line of a triple string": "'''\n\ta'''",
}
UNFINISHED = {
    "a single quote alone": "'",
    "a double quote alone": '"',
    "an open string": "'a",
    "an open string with double quotes": '"a',
    "an open string ends before the LF": "'a\nb'",
    "an open string with double quotes ends before the LF": '"a\nb',
    "an open string and CR LF": "'a\r\nb",
    "an open string before an LF alone": "'\n",
    "a string with the other quote doesn't end": "'a\"",
    "a string whose closing quote is escaped": "'a\\'",
    "a string whose closing quote is escaped, and an LF": "'a\\'\n'",
    "a raw string whose closing quote is escaped": "r'a\\'",
    "a raw string whose closing quote is escaped, and an LF": "r'a\\'\n'",
    "three quotes alone": "'''",
    "three double quotes alone": '"""',
    "an open triple string": "'''a",
    "an open triple string over lines": "'''a\nb\n",
    "a triple string with one quote at its end": "'''a'",
    "a triple string with two quotes at its end": "'''a''",
    "a triple string with other quotes at its end": "'''a\"\"\"",
    "a triple string of double quotes with two at its end": '"""a""',
    "a triple string whose closing quotes are escaped": "'''a\\'''",
    "an open bytes literal": "b'a",
    "an open bytes literal before an LF": "b'a\n",
    "an open raw string": "r'a",
    "an open raw string before an LF": "r'a\n",
    "an open raw bytes literal": "br'a",
    "an open `rb` literal": "rb\"a",
    "an open triple bytes literal": "b'''a",
    "an open raw triple string": "r'''a\n",
    "an open string after other tokens": "x = 'a",
    "an open string in brackets": "('a\n)",
    "an open string in a block": "if x:\n  'a\n",
    "an open string with a comment's sign": "'a # c\n",
    "an open string of a wide character": "'é",
    "an open string with an escape": "'\\n",
    "an open string with an escape before an LF": "'\\n\n",
    "a raw backslash at the end of the text": "r'\\",
    "a raw backslash at the end of the text, after a letter": "r'a\\",
    "a raw backslash at the end of the text, in a triple string": "r'''a\\",
    "a raw backslash at the end of a bytes literal": "br'\\",
    "a backslash in a string at the end of the text": "'\\",
    "a backslash at the end of the text, after a letter": "'a\\",
    "a backslash at the end of the text, in double quotes": '"\\',
    "a backslash at the end of the text, in a bytes literal": "b'a\\",
    "a backslash at the end of the text, in a triple string": "'''a\\",
    "a backslash at the end of the text, in a triple bytes literal": 'b"""\\',
    "two backslashes at the end of the text": "'\\\\",
    "x and the end of the text": "'\\x",
    "x, a digit and the end of the text": "'\\x4",
    "u and the end of the text": "'\\u",
    "u, a digit and the end of the text": "'\\u1",
    "U and the end of the text": "'\\U",
    "an octal digit and the end of the text": "'\\1",
    "x and an LF": "'\\x\n",
    "x, a digit and an LF": "'\\x4\n'",
}
RAW_PAIRS = {
    "a raw backslash before its own quote is dropped": "r'\\''",
    "a raw backslash before its own double quote is dropped": 'r"\\""',
    "a raw backslash before the other quote is dropped": "r'\\\"'",
    "a raw backslash before the other quote, in double quotes": "r\"\\'\"",
    "two raw backslashes are kept": "r'\\\\'",
    "two raw backslashes before the closing quote": "r'a\\\\'",
    "three raw backslashes before a quote": "r'\\\\\\''",
    "four raw backslashes": "r'\\\\\\\\'",
    "a raw backslash before n is kept": "r'\\n'",
    "a raw backslash before x is kept": "r'\\x'",
    "a raw backslash before a wide character": "r'\\é'",
    "a raw backslash before a character of four bytes": "r'\\😀'",
    "a raw backslash before a space": "r'\\ '",
    "a raw backslash before a brace": "r'\\{'",
    "a raw backslash before a digit": "r'\\1'",
    "a raw backslash before u": "r'\\u12'",
    "a raw backslash and quote in three quotes": "r'''\\''''",
    "a raw backslash and the other quote in three quotes": "r'''\\\"'''",
    "raw backslashes and quotes of both kinds": "r'\\'\\\"'",
}


def add_openings(add):
    for prefix, kind in PREFIXES.items():
        for quotes, words in QUOTES.items():
            add(KINDS[prefix] + " openings", f"{kind} in {words}", f"{prefix}{quotes}a{quotes}")
            add(KINDS[prefix] + " openings", f"{kind} in {words}, empty", prefix + 2 * quotes)


def add_raw_openers(add):
    """A backslash in a literal of each raw opener."""
    for prefix in ("r", "br", "rb"):
        for quote in "'\"":
            add(KINDS[prefix], f"`{prefix}{quote}` opens a raw literal: `\\a` stays", f"{prefix}{quote}\\a{quote}")


def add_escapes(add):
    for written, value in ESCAPES.items():
        for prefix, kind in SHORT.items():
            if prefix not in ("", "b"):
                add(KINDS[prefix] + " escapes", f"`{written}` in {kind}", f"{prefix}'a{written}c'")
                continue
            add(KINDS[prefix] + " escapes", f"`{written}` is {value} in {kind}", f"{prefix}'{written}'")
        add("strings escapes", f"`{written}` is {value} in a triple string", f'"""a{written}"""')
    for group in (NUMBERED, TOO_GREAT, BAD):
        for written, words in group.items():
            for prefix in ("", "b"):
                add(KINDS[prefix] + " escapes", f"{words}, in {SHORT[prefix]}", f"{prefix}'{written}'")
    for written, words in {**BAD, **TOO_GREAT}.items():
        add("strings escapes", f"{words}, with text around it", f'"ab{written}cd"')
    for written, words in [*BAD.items()][:12]:
        add("strings escapes", f"{words}, in a triple string", f'"""{written}"""')
        add("strings raw escapes", f"{words}: in a raw string it is no escape", f"r'{written}'")


def add_others(add):
    """A backslash before a character that begins no escape."""
    taken = set("nrtabfv'\"\\xuU01234567")
    for number in range(32, 127):
        if chr(number) not in taken:
            add("strings escapes others", f"a backslash before `{chr(number)}` stays", f'"\\{chr(number)}"')
    for written, words in {
        "\\é": "a character of two bytes", "\\€": "a character of three bytes", "\\😀": "a character of four bytes",
        "\\\t": "a tab", "\\\0": "a zero byte", "\\N{DOT}": "N and a name in braces",
    }.items():
        add("strings escapes others", f"a backslash before {words} stays", f"'{written}'")
        add("bytes escapes others", f"a backslash before {words} stays in a bytes literal", f"b'{written}'")


def cases(add):
    add_openings(add)
    add_raw_openers(add)
    for words, body in PLAIN.items():
        for prefix in ("", "b", "r"):
            if body or not prefix:
                add(KINDS[prefix], f"{words} in {SHORT[prefix]}", f"{prefix}'{body}'" if body else '""')
    for name, text in BODIES.items():
        add("strings quotes", name, text)
    for name, text in LINES.items():
        add("strings lines", name, text)
    for name, text in UNFINISHED.items():
        add("strings unfinished", name, text)
    for name, text in RAW_PAIRS.items():
        add("strings raw", name, text)
        add("bytes raw", f"{name}; in a bytes literal", "b" + text)
    add_escapes(add)
    add_others(add)
