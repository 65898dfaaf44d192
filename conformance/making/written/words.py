"""Cases of words: names, keywords, reserved words, symbols, comments, and what is no word."""

from answers import plain_lexer

SYMBOLS = [word.decode() for word in plain_lexer.SYMBOLS]
KEYWORDS = [word.decode() for word in plain_lexer.KEYWORDS]
RESERVED = [word.decode() for word in plain_lexer.RESERVED]

NAMES = {
    "a name of one letter": "x",
    "a name of a small and a capital letter": "xY",
    "a name is an underscore": "_",
    "a name is two underscores": "__",
    "a name begins with an underscore": "_x",
    "a name ends with an underscore": "x_",
    "a name with a digit at its end": "x1",
    "a name with a digit after an underscore": "_1",
    "a name with digits between its letters": "a12b",
    "a name of the first letters": "aA",
    "a name of the last letters": "zZ",
    "a name with the first and the last digit": "x09",
    "a name of all small letters": "abcdefghijklmnopqrstuvwxyz",
    "a name of all capital letters": "ABCDEFGHIJKLMNOPQRSTUVWXYZ",
    "a name of forty letters": 40 * "n",
    "a name that begins as a keyword does": "format",
    "a name that begins with two keywords": "notin",
    "a name that ends with a keyword": "xif",
    "True is a name": "True",
    "False is a name": "False",
    "None is a name": "None",
    "print is a name": "print",
    "match is a name": "match",
    "type is a name": "type",
    "exec is a name": "exec",
    "a prefix of strings alone is a name: r": "r",
    "a prefix of strings alone is a name: b": "b",
    "a prefix of strings alone is a name: f": "f",
    "a prefix of strings alone is a name: rb": "rb",
    "a prefix of strings alone is a name: fr": "fr",
    "two names with a space between": "a b",
    "two names with three spaces between": "a   b",
    "spaces at the end of the text": "a  ",
    "a minus ends a name": "a-b",
    "a point ends a name": "a.b",
}

LONGEST = {
    "three points are one word": "...",
    "two points are two words": "..",
    "four points are three and one": "....",
    "five points are three, one and one": ".....",
    "six points are twice three": "......",
    "three points and a digit are two words: the longest word goes first": "...5",
    "four points and a digit: three, and a float": "....5",
    "two points and a digit: a point, and a float": "..5",
    "two points and a name": "..x",
    "three equals signs: two, and one": "===",
    "four equals signs: two, and two": "====",
    "a less-than sign three times: two, and one": "<<<",
    "three less-than signs and an equals sign: two, then `<=`": "<<<=",
    "two less-than signs and two equals signs": "<<==",
    "three greater-than signs and an equals sign": ">>>=",
    "less and greater: two words": "<>",
    "a greater-than sign after an equals sign": "=>",
    "an equals sign after a less-than sign": "<=",
    "a minus after a less-than sign": "<-",
    "a less-than sign after a minus": "-<",
    "two minus signs and a greater-than sign: a minus, then an arrow": "-->",
    "an arrow and a minus": "->-",
    "an arrow and a greater-than sign": "->>",
    "an arrow and an equals sign": "->=",
    "three stars: two, and one": "***",
    "two stars and an equals sign: there is no such word": "**=",
    "a star and two equals signs": "*==",
    "three slashes: two, and one": "///",
    "two slashes and two equals signs": "//==",
    "a slash and two equals signs": "/==",
    "two ampersands are two words": "&&",
    "two bars are two words": "||",
    "two carets are two words": "^^",
    "two tildes are two words": "~~",
    "a tilde and an equals sign are two words": "~=",
    "a colon and an equals sign are two words": ":=",
    "two colons are two words": "::",
    "two plus signs are two words": "++",
    "two minus signs are two words": "--",
    "two percent signs are two words": "%%",
    "a percent sign and two equals signs": "%==",
    "an exclamation mark and two equals signs: `!=`, then `=`": "!==",
    "an exclamation mark before a name is no word": "!x",
    "an exclamation mark between names is no word": "a!b",
    "an exclamation mark, a space and an equals sign: no word": "! =",
    "two exclamation marks and an equals sign": "!!=",
    "not in is two keywords": "a not in b",
    "not in with two spaces": "a not  in b",
    "is not: a reserved word comes first": "a is not b",
    "a point, then a keyword": "x.if",
    "a point, then a reserved word is still a fault": "x.as",
    "a point with spaces around it": "x . y",
    "a number, then a point and a name: the point belongs to the number": "1.x",
    "brackets of each shape": "([{}])",
    "all one-byte operators": "+ - * / % & | ^ ~ < > = . , ; :",
}

NO_WORDS = {
    "a dollar sign begins no word": "$",
    "a question mark begins no word": "?",
    "an at sign begins no word": "@",
    "a grave accent begins no word": "`",
    "an exclamation mark alone is no word": "!",
    "the character before `A` begins no name": "@a",
    "the character after `Z`, a bracket, begins no name": "[a",
    "the character before `a` begins no name": "`a",
    "the character after `z`, a brace, begins no name": "{a",
    "the character before `0`, a slash, begins no number": "/0",
    "the character after `9`, a colon, begins no number": ":0",
    "a fault comes after the tokens before it": "x = $",
    "nothing comes after the first fault": "$ x 01",
    "a wrong character right after a name": "x$",
    "a wrong character right after a number": "1$",
    "a wrong character right after a string": "'a'$",
    "a wrong character in brackets": "(a $ b)",
    "a wrong character in an indented block": "if x:\n  y $\n",
    "a letter of two bytes is no letter of names": "é",
    "a letter of two bytes after a name": "xé",
    "a letter of two bytes between names": "x é y",
    "a digit of another script is no digit": "٣",
    "a letter of three bytes is no letter of names": "世",
    "a character of four bytes is one wrong character": "😀",
    "a combining mark is a character by itself": "e\u0301",
    "a space of two bytes is no space": "a\u00a0b",
    "a space of three bytes is no space": "a\u2003b",
    "a line separator is no line end": "a\u2028b",
    "a next-line character is no line end": "a\u0085b",
    "a byte order mark at the start of the text": "\ufeffx",
    "a byte order mark between words": "x \ufeffy",
    "the greatest character": "\U0010ffff",
    "a zero byte at the start": "\0",
    "a zero byte after a name": "x\0",
    "a form feed between words": "x\fy",
    "a form feed at the start of a line": "x\n\fy",
    "a vertical tab between words": "x\vy",
    "an escape character": "x\x1by",
    "a delete character": "x\x7fy",
    "quotes that aren't ASCII": "“x”",
    "a minus sign that isn't ASCII": "a − b",
    "a CR between words": "a\rb",
    "a CR after a space": "a \r b",
    "a CR at the end of the text": "a\r",
    "a CR before an LF is part of the line end": "a\r\n",
    "two CR before an LF: the first is no word": "a\r\r\n",
    "a CR after a line end that is dropped, in brackets": "(\n\r)",
    "a CR in brackets": "(\r)",
    "a backslash before a space": "a \\ b",
    "a backslash before a name": "a \\b",
    "a backslash at the end of the text": "a \\",
    "a backslash alone": "\\",
    "a backslash before a CR without LF": "a \\\rb",
    "two backslashes and a line end": "a \\\\\nb",
    "a backslash before a comment": "a \\# c\nb",
    "a backslash, a space and a line end": "a \\ \nb",
}

COMMENTS = {
    "a comment alone": "#",
    "a comment with text": "# c",
    "a comment without a space": "#c",
    "a comment of two number signs": "##",
    "a comment with a number sign in it": "# a # b",
    "a comment ends before the line end": "# c\n",
    "a comment ends before CR LF": "# c\r\n",
    "a comment after a name": "x # c",
    "a comment without a space, right after a name": "x# c",
    "a comment after a name, and its newline": "x # c\ny",
    "a comment after a name, and CR LF": "x # c\r\ny",
    "a CR in a comment on a line of its own belongs to it": "# a\rb\n",
    "two CR at the end of a comment line: one belongs to it": "# a\r\r\n",
    "a CR in a comment after code ends it, and is a fault": "x # a\rb\n",
    "two CR after a comment after code": "x # a\r\r\n",
    "a CR at the end of the text, after a comment on a line of its own": "# a\r",
    "a CR at the end of the text, after a comment after code": "x # a\r",
    "a comment keeps its spaces": "#  c  \n",
    "a comment keeps its tabs": "#\tc\t\n",
    "a comment may have any characters": "# é€😀 $?!\n",
    "a comment may have quotes": "# 'a \"\"\" b\n",
    "a comment may have a zero byte": "# \0\n",
    "a backslash at a comment's end doesn't join lines": "# a\\\nb",
    "a backslash at the end of a comment after code doesn't join lines": "x # a\\\nb",
    "a comment may have brackets": "x # (\ny",
    "a comment in brackets": "(# c\n)",
    "a comment in brackets, after a token": "(a, # c\nb)",
    "a comment on a line of its own in brackets": "(\n# c\n)",
    "a comment may hold a reserved word": "# class\n",
    "a comment may hold a number with a leading zero": "x # 01\n",
    "two comment lines": "# a\n# b\n",
    "a shebang line is a comment": "#!/bin/sh\nx\n",
    "a number sign in a string is no comment": "'# a'",
    "a comment without a space, right after a string": "'a'#b",
    "a comment after a backslash and a line end": "x \\\n# c\n",
}

CONTINUED = {
    "a backslash and a line end are skipped": "a \\\nb",
    "a backslash and CR LF are skipped": "a \\\r\nb",
    "a backslash right after a name, before a line end": "a\\\nb",
    "a backslash and a line end don't join a name": "a\\\nb c",
    "a backslash and a line end between a number's digits make two numbers": "1\\\n2",
    "a backslash and a line end at the start of the text": "\\\nx",
    "a backslash and a line end at the end of the text": "x\\\n",
    "a backslash and a line end twice": "x \\\n\\\n y",
    "spaces after a backslash and a line end are no indentation": "x + \\\n    y",
    "a backslash and a line end, then a blank line": "x \\\n\ny",
    "a backslash and a line end in brackets": "(a \\\n b)",
    "a backslash and a line end at the start of a line are content": "x\n\\\ny",
    "a backslash after spaces at the start of a line has an indentation": "if x:\n  \\\ny",
    "a tab after a backslash and a line end is a fault": "x \\\n\ty",
    "a backslash and a line end between keywords": "not \\\n in",
    "a backslash and a line end split an operator": "a +\\\n= b",
}


def spelled(character):
    """The name of a control character."""
    return f"the control character {ord(character):#04x}"


def add_symbols(add):
    for word in SYMBOLS:
        add("words symbols", f"`{word}` alone", word)
        add("words symbols", f"`{word}` between names, without a gap", f"a{word}b")
        add("words symbols", f"`{word}` between names, with spaces", f"a {word} b")


def add_keywords(add):
    for word in KEYWORDS:
        add("words keywords", f"`{word}` is a keyword", word)
        add("words keywords", f"`{word}` with a letter after it is a name", word + "x")
        add("words keywords", f"`{word}` with a digit after it is a name", word + "1")
        add("words keywords", f"`{word}` with an underscore before it is a name", "_" + word)
        add("words keywords", f"`{word.capitalize()}` with a capital letter is a name", word.capitalize())


def add_reserved(add):
    for word in RESERVED:
        add("words reserved", f"`{word}` is reserved", word)
        add("words reserved", f"`{word}` in a line is reserved", f"x = {word} y")
        add("words", f"`{word}` with an underscore after it is a name", word + "_")
        add("words", f"`{word}` in a longer name is no reserved word", "x" + word)


def cases(add):
    for name, text in NAMES.items():
        add("words names", name, text)
    add_symbols(add)
    add_keywords(add)
    add_reserved(add)
    for name, text in LONGEST.items():
        add("words longest", name, text)
    for name, text in NO_WORDS.items():
        add("words characters", name, text)
    for number in [*range(1, 9), *range(14, 32)]:
        if number not in (10, 13, 9, 12, 11, 27):
            add("words characters", f"{spelled(chr(number))} begins no word", chr(number))
    for name, text in COMMENTS.items():
        add("words comments", name, text)
    for name, text in CONTINUED.items():
        add("words continued", name, text)
