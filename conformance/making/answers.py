"""The right answers of cases, by the plain lexer, in the form of the suite."""

import base64
import json
import sys
from pathlib import Path

TOP = Path(__file__).resolve().parent.parent.parent
sys.path.append(str(TOP / "scripts"))

from shared import plain_lexer  # noqa: E402
from shared.random_texts import is_utf8  # noqa: E402
from shared.recovering import items_of  # noqa: E402

KINDS = {
    "Identifier": "name", "Int": "int", "Float": "float", "String": "string", "Bytes": "bytes", "Comment": "comment",
    "Newline": "newline", "Indent": "indent", "Dedent": "dedent", "FStringStart": "fstring_start",
    "FStringText": "fstring_text", "FStringExprStart": "fstring_expression_start", "FStringBang": "fstring_bang",
    "FStringExprEnd": "fstring_expression_end", "FStringEnd": "fstring_end",
    **{kind: word.decode() for word, kind in plain_lexer.SYMBOLS.items()},
    **{word.decode().capitalize(): word.decode() for word in plain_lexer.KEYWORDS},
}
FAULTS = {
    "Indentation": "indentation", "InvalidInput": "invalid_input", "InvalidTab": "invalid_tab",
    "UnfinishedStringLiteral": "unfinished_string", "InvalidEscapeSequence": "invalid_escape",
    "EmptyEscapeSequence": "empty_escape", "ReservedKeyword": "reserved_word", "StartsZero": "leading_zero",
    "UnfinishedFStringExpression": "unfinished_fstring_expression",
}
QUOTES = {"Single": "'", "Double": '"', "TripleSingle": "'''", "TripleDouble": '"""'}


def decimal(printed):
    """The number of an integer that is printed in its base."""
    digits, _, base = printed.rstrip(")").partition(" (base ")
    return str(int(digits, int(base or 10)))


def token_of(lexeme):
    """A lexeme as a token of the suite: its kind, begin and end, and its value where its kind has one."""
    token = [KINDS[lexeme.kind], lexeme.begin, lexeme.end]
    if lexeme.value is None:
        return token
    if lexeme.kind == "Int":
        return token + [decimal(lexeme.value)]
    if lexeme.kind in ("String", "FStringText"):
        return token + [bytes.fromhex(lexeme.value).decode()]
    return token + [QUOTES[lexeme.value] if lexeme.kind == "FStringStart" else lexeme.value]


def fault_of(fault):
    """A fault as the suite has it: its kind, begin and end."""
    return [FAULTS[fault.args[0]], fault.begin, fault.end]


def answer_of(text, is_recovering=False, lexed=plain_lexer.outcome):
    """What has to be answered for a text."""
    if not is_utf8(text):
        return {"tokens": None, "faults": [["not_utf8", None, None]]}
    if is_recovering:
        items = list(items_of(text))
        return {
            "tokens": [token_of(item) for what, item in items if what == "lexeme"],
            "faults": [fault_of(item) for what, item in items if what == "fault"],
        }
    lexemes, fault = lexed(text)
    return {"tokens": [token_of(lexeme) for lexeme in lexemes], "faults": [fault_of(fault)] if fault else []}


def text_of(case):
    """The bytes of a case's text, after its edits."""
    text = case["text"].encode() if "text" in case else base64.b64decode(case["base64"])
    for begin, end, new in case.get("edits", []):
        text = text[:begin] + new.encode() + text[end:]
    return text


def answered(request, lexed=plain_lexer.outcome):
    """The answer to a request."""
    return answer_of(text_of(request), request.get("recovering", False), lexed)


def text_fields(text):
    """A text as a case has it."""
    return {"text": text.decode()} if is_utf8(text) else {"base64": base64.b64encode(text).decode()}


def case_line(case):
    """The line of a case."""
    fields = ("name", "tags", "text", "base64", "edits", "recovering", "tokens", "faults", "differs")
    return json.dumps({field: case[field] for field in fields if field in case}, ensure_ascii=False) + "\n"
