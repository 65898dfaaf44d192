"""The proved lexer of Starlark, the language of Bazel's and Buck's files.

    >>> from starlark_lexer import tokenize
    >>> [(token.type.name, token.string) for token in tokenize("x = 1\\n")]
    [('IDENTIFIER', 'x'), ('EQUAL', '='), ('INT', '1'), ('NEWLINE', '\\n'), ('NEWLINE', '')]

A text is a `str`, or `bytes` and the like in UTF-8. `tokenize` yields its tokens, and raises its first fault as a
`StarlarkFault`, or goes on after each fault:

    >>> [token.string for token in tokenize("x = 'a\\ny\\n", recover=True)]
    ['x', '=', "'a", '\\n', 'y', '\\n', '']

`faults` returns all faults, and `lex_all` both. `lex_columns` makes no object for each token. Nothing
is shared between two calls, so they may run in any number of threads.

A `Document` is a text that stays lexed while it is edited. Offsets count characters of a `str`, else
bytes:

    >>> from starlark_lexer import Document
    >>> with Document("x = 'a\\n") as document:
    ...     change = document.edit(6, 6, "'")
    ...     len(document.faults()), [token.string for token in document.tokens(change.begin, change.new_end)]
    (0, ['x', '=', "'a'", '\\n', ''])
"""

from .kinds import FaultKind, Kind, KindClass, Quotes
from .tokens import Change, Fault, StarlarkFault, Token, Value

try:
    from .library import Columns, Document, faults, lex, lex_all, lex_columns, tokenize
except ModuleNotFoundError as error:
    if error.name != "starlark_lexer.library":
        raise
    raise ImportError(
        "starlark_lexer lacks its extension module for this system: install the package's wheel, or "
        "build it with STARLARK_LEX_DIR naming the folder of libstarlark_lex.a"
    ) from error

__version__ = "0.2.0"

__all__ = [
    "Change",
    "Columns",
    "Document",
    "Fault",
    "FaultKind",
    "Kind",
    "KindClass",
    "Quotes",
    "StarlarkFault",
    "Token",
    "Value",
    "faults",
    "lex",
    "lex_all",
    "lex_columns",
    "tokenize",
]
