#!/usr/bin/env python3
"""Sends random messages to the language server, and compares what it keeps with a plain text.

    PYTHONPATH=out/bindings/python scripts/bindings/protocol_fuzz.py [--changes N] [--seed N]

The server gets N changes (20,000) of random files, with positions in UTF-8, 16 and 32: past the ends of
lines and texts, out of order, inside of characters; the texts have characters of all lengths, lone
halves of UTF-16, LF, CR LF and CR. Wrong messages are between. After each file the server's text has
to be that of a plain client; its diagnostics, and the tokens that its changes make of those it sent
first, have to be those of a new server which opens that text. The bytes come cut off at any
place, where the server ends with 1, and some in parts of any length, with the same outcome. The exit status
is 1 where something isn't so; the first such file is printed.
"""

import argparse
import io
import json
import random
import sys

from starlark_lexer.lsp import semantic
from starlark_lexer.lsp.server import Server

URI = "file:///a.bzl"

# A text of so many characters has several segments. Its changes are near each other.
LONG = 1500
PIECES = [
    "x = 1\n",
    "y = 'a'\r\n",
    "z = [2,\r",
    "\r",
    "\n",
    "\r\n",
    "def f(a):\n    return a\n",
    "(",
    ")",
    "'''",
    '"a"',
    "# é🔬\n",
    "f'{a} b'",
    "汉",
    "🔬",
    "'🔬🔬' + ",
    "\ud83d",
    "\ude00",
    "if x:\n  y = '''b\nc'''\r  z\n",
    "$ 01",
    "\t",
]
WRONG = [
    (b"{bad}", -32700),
    (b"\xff", -32700),
    (b"[]", -32600),
    (b"5", -32600),
    (b'{"id":{}}', -32600),
    (b'{"id":-1,"method":"no/such"}', -32601),
    (b'{"id":-1,"method":"textDocument/foldingRange"}', -32602),
    (b'{"id":-1,"method":"textDocument/foldingRange","params":{"textDocument":{"uri":"file:///none"}}}', -32602),
    (b'{"id":-1,"method":"textDocument/diagnostic","params":{"textDocument":{"uri":7}}}', -32602),
    (b'{"id":-1,"method":"textDocument/documentHighlight","params":{"textDocument":{"uri":"file:///a.bzl"}}}', -32602),
    (b'{"id":-1,"method":"initialize","params":{}}', -32600),
]


class Plain:
    """A client's text, as a list of characters, with positions counted one by one."""

    def __init__(self, text, unit):
        self.characters = list(self.whole(text))
        self.unit = unit
        self.is_long = len(self.characters) > LONG

    @staticmethod
    def whole(text):
        """A text without halves of characters. Two of them that meet are one character."""
        joined = text.encode("utf-16-le", "surrogatepass").decode("utf-16-le", "surrogatepass")
        return "".join("\ufffd" if "\ud800" <= it <= "\udfff" else it for it in joined)

    def width(self, character):
        """How many columns a character has."""
        if self.unit == "utf-32":
            return 1
        return len(character.encode()) if self.unit == "utf-8" else 1 + (character > "\uffff")

    def lines(self):
        """The number of each line's first character, and that of its end."""
        found, begin = [], 0
        text = self.characters
        for at, it in enumerate(text):
            if it == "\n" or (it == "\r" and text[at + 1 : at + 2] != ["\n"]):
                end = at - 1 if it == "\n" and at > begin and text[at - 1] == "\r" else at
                found.append((begin, end))
                begin = at + 1
        return [*found, (begin, len(text))]

    def index(self, position):
        """The number of the character at a position. One with a position inside is taken apart."""
        lines = self.lines()
        if position["line"] >= len(lines):
            return len(self.characters)
        at, end = lines[position["line"]]
        left = position["character"]
        while at < end and left >= self.width(self.characters[at]):
            left -= self.width(self.characters[at])
            at += 1
        if at < end and left > 0 and self.unit == "utf-16":
            self.characters[at : at + 1] = ["\ufffd", "\ufffd"]
            at += 1
        return at

    def change(self, event):
        """Makes a change."""
        if "range" not in event:
            self.characters = list(self.whole(event["text"]))
            return
        ends = sorted(event["range"].values(), key=lambda it: (it["line"], it["character"]))
        for end in ends:
            self.index(end)
        begin, end = map(self.index, ends)
        self.characters[begin:end] = self.whole(event["text"])

    def text(self):
        """The whole text."""
        return "".join(self.characters)


class ShortReads(io.RawIOBase):
    """Bytes that come in parts of any length."""

    def __init__(self, sent, numbers):
        self.sent, self.numbers, self.at = sent, numbers, 0

    def readable(self):
        return True

    def readinto(self, buffer):
        part = self.sent[self.at : self.at + min(len(buffer), self.numbers.choice([1, 2, 7, 100, 5000]))]
        buffer[: len(part)] = part
        self.at += len(part)
        return len(part)


def framed(body):
    """A body as it is sent."""
    body = body if isinstance(body, bytes) else json.dumps({"jsonrpc": "2.0", **body}).encode()
    return b"Content-Length: %d\r\n\r\n" % len(body) + body


def served(sent, reader=None):
    """What a server answers, its exit status, the server, and what it logs."""
    writer, log = io.BytesIO(), io.StringIO()
    server = Server(reader or io.BytesIO(sent), writer, log)
    status = server.serve()
    answers, rest = [], writer.getvalue()
    while rest:
        head, _, rest = rest.partition(b"\r\n\r\n")
        length = int(head.split(b":")[1])
        answers.append(json.loads(rest[:length]))
        rest = rest[length:]
    return answers, status, server, log.getvalue()


def initialize(unit):
    """The first request."""
    return {"id": 0, "method": "initialize", "params": {"capabilities": {"general": {"positionEncodings": [unit]}}}}


def opened(text):
    """The file is opened."""
    return {"method": "textDocument/didOpen", "params": {"textDocument": {"uri": URI, "version": 0, "text": text}}}


def asked(number, method, **more):
    """A request about the file."""
    return {"id": number, "method": f"textDocument/{method}", "params": {"textDocument": {"uri": URI}, **more}}


def some_text(numbers, most):
    """Some pieces."""
    return "".join(numbers.choice(PIECES) for _ in range(numbers.randrange(most)))


def some_position(numbers, plain):
    """A position, most often in the text."""
    lines = plain.lines()
    line = numbers.randrange(len(lines) + (numbers.random() < 0.1))
    if plain.is_long and numbers.random() < 0.95:
        line = max(len(lines) // 2 + numbers.randrange(-9, 10), 0)
    begin, end = lines[min(line, len(lines) - 1)]
    length = sum(map(plain.width, plain.characters[begin:end]))
    return {"line": line, "character": numbers.choice([numbers.randint(0, length + 1), length, 0, 2**31 - 1])}


def some_event(numbers, plain):
    """A change."""
    text = some_text(numbers, 3)
    if numbers.random() < 0.02:
        return {"text": text}
    begin = some_position(numbers, plain)
    end = begin if numbers.random() < 0.4 else some_position(numbers, plain)
    if end is not begin and numbers.random() < 0.7:
        end = {"line": begin["line"], "character": begin["character"] + numbers.randrange(6)}
        if numbers.random() < 0.2:
            begin, end = end, begin
    return {"range": {"start": begin, "end": end}, "text": text}


def some_request(numbers, plain, number):
    """A request whose answer isn't compared."""
    at = some_position(numbers, plain)
    return numbers.choice(
        [
            asked(number, "foldingRange"),
            asked(number, "selectionRange", positions=[at]),
            asked(number, "documentHighlight", position=at),
            asked(number, "semanticTokens/range", range={"start": at, "end": some_position(numbers, plain)}),
            asked(number, "diagnostic"),
        ]
    )


def session(numbers, unit, changes):
    """The messages of a session; the plain text; the codes of errors."""
    first = some_text(numbers, 30)
    if numbers.random() < 0.06:
        first = "x = 1\n" * LONG + first + "y = 2\n" * LONG
    plain = Plain(first, unit)
    sent, codes, result = [initialize(unit), opened(first), asked(1, "semanticTokens/full")], [], 1
    for number in range(changes):
        events = []
        for _ in range(numbers.choice([1, 1, 1, 2, 3])):
            events.append(some_event(numbers, plain))
            plain.change(events[-1])
        text = {"uri": URI, "version": number}
        sent.append({"method": "textDocument/didChange", "params": {"textDocument": text, "contentChanges": events}})
        if numbers.random() < 0.3 or number == changes - 1:
            sent.append(asked(1, "semanticTokens/full/delta", previousResultId=str(result)))
            result += 1
        if numbers.random() < 0.1:
            sent.append(some_request(numbers, plain, number + 2))
        if numbers.random() < 0.1:
            body, code = numbers.choice(WRONG)
            sent.append(body)
            codes.append(code)
    return sent, plain, codes


def applied(answers):
    """The numbers of the tokens that a client has, after those that were sent first and what differs."""
    numbers = []
    for answer in answers:
        result = answer.get("result")
        if not isinstance(result, dict) or "resultId" not in result:
            continue
        numbers = result.get("data", numbers)
        for edit in result.get("edits", []):
            numbers = numbers[: edit["start"]] + edit["data"] + numbers[edit["start"] + edit["deleteCount"] :]
    return numbers


def last_diagnostics(answers):
    """What the client was told last of the file."""
    return [it["params"]["diagnostics"] for it in answers if it.get("method") == "textDocument/publishDiagnostics"][-1]


def what_is_wrong(numbers, changes):
    """Serves a session. Returns what is wrong, or None."""
    unit = numbers.choice(["utf-8", "utf-16", "utf-16", "utf-32"])
    sent, plain, codes = session(numbers, unit, changes)
    sent = b"".join(map(framed, sent))
    semantic.NEAR = numbers.choice([0, 5, 30])
    answers, status, server, log = served(sent)
    text = server.text_of(URI).document.text()
    if text != plain.text() or log or status != 1:
        return f"{unit}: text {text!r}, wanted {plain.text()!r}\n{log}"
    errors = [it["error"]["code"] for it in answers if "error" in it]
    if errors != codes:
        return f"errors {errors}, wanted {codes}"
    fresh, *_ = served(b"".join(map(framed, [initialize(unit), opened(plain.text()), asked(1, "semanticTokens/full")])))
    if last_diagnostics(answers) != last_diagnostics(fresh):
        return f"{unit} {plain.text()!r}: {last_diagnostics(answers)}, wanted {last_diagnostics(fresh)}"
    if applied(answers) != applied(fresh):
        return f"{unit} {plain.text()!r}: tokens {applied(answers)}, wanted {applied(fresh)}"
    if numbers.random() < 0.2 and served(sent, io.BufferedReader(ShortReads(sent, numbers)))[0] != answers:
        return "other answers where the bytes come in parts"
    cut, status, _, log = served(sent[: numbers.randrange(len(sent))])
    if cut != answers[: len(cut)] or status != 1 or log:
        return f"cut off: status {status}\n{log}"
    return None


def main():
    parser = argparse.ArgumentParser()
    parser.add_argument("--changes", type=int, default=20_000)
    parser.add_argument("--seed", type=int, default=1)
    wanted = parser.parse_args()
    numbers = random.Random(wanted.seed)
    for _ in range(wanted.changes // 50):
        wrong = what_is_wrong(numbers, 50)
        if wrong:
            print(f"protocol_fuzz.py: {wrong}", file=sys.stderr)
            return 1
    print(f"{wanted.changes} random changes of the language server's files, no difference")
    return 0


if __name__ == "__main__":
    sys.exit(main())
