"""Prints the tokens of standard input by the package for Python."""

import sys

from starlark_lexer import tokenize

for token in tokenize(sys.stdin.buffer.read()):
    print(f"{token.span[0]}-{token.span[1]} {token.type.name}")
