"""Tests of the language server, by messages as a client sends them."""

from __future__ import annotations

import io
import json
import subprocess
import sys
import unittest
from typing import Any, Dict, List, Optional, Tuple
from unittest import mock

from starlark_lexer.lsp.server import Server
from starlark_lexer.lsp.texts import OpenText

URI = "file:///a.bzl"


def framed(message: Dict[str, Any]) -> bytes:
    """A message as it is sent."""
    body = json.dumps({"jsonrpc": "2.0", **message}).encode()
    return b"Content-Length: %d\r\n\r\n" % len(body) + body


def unframed(sent: bytes) -> List[Dict[str, Any]]:
    """The messages of what was sent."""
    found = []
    while sent:
        head, _, sent = sent.partition(b"\r\n\r\n")
        length = int(head.split(b":")[1])
        found.append(json.loads(sent[:length]))
        sent = sent[length:]
    return found


def served(sent: bytes) -> Tuple[List[Dict[str, Any]], int, str]:
    """What a server answers, its exit status, and what it logs."""
    writer, log = io.BytesIO(), io.StringIO()
    status = Server(io.BytesIO(sent), writer, log).serve()
    return unframed(writer.getvalue()), status, log.getvalue()


def place(line: int, character: int) -> Dict[str, int]:
    """A position."""
    return {"line": line, "character": character}


def span(*numbers: int) -> Dict[str, Any]:
    """A range."""
    return {"start": place(*numbers[:2]), "end": place(*numbers[2:])}


def ends(shown: Dict[str, Any]) -> Tuple[int, ...]:
    """The numbers of a range."""
    return tuple(shown[end][name] for end in ("start", "end") for name in ("line", "character"))


class Session:
    """The messages of a session, which are sent at once."""

    def __init__(self, text: Optional[str] = None, **capabilities: Any) -> None:
        self.sent = framed({"id": 0, "method": "initialize", "params": {"capabilities": capabilities}})
        if text is not None:
            self.open(text)

    def tell(self, method: str, **params: Any) -> None:
        """Sends a notification."""
        self.sent += framed({"method": method, "params": params})

    def open(self, text: str) -> None:
        """Opens the file."""
        self.tell("textDocument/didOpen", textDocument={"uri": URI, "version": 1, "languageId": "x", "text": text})

    def change(self, *events: Dict[str, Any]) -> None:
        """Changes the file."""
        self.tell("textDocument/didChange", textDocument={"uri": URI, "version": 2}, contentChanges=list(events))

    def ask(self, method: str, **params: Any) -> None:
        """Sends a request about the file."""
        message = {"id": 1, "method": f"textDocument/{method}", "params": {"textDocument": {"uri": URI}, **params}}
        self.sent += framed(message)

    def answers(self) -> List[Dict[str, Any]]:
        """All that the server sends but the answer to the first request."""
        return served(self.sent)[0][1:]

    def last(self) -> Any:
        """The result of the last request."""
        return self.answers()[-1]["result"]


def asked(text: str, method: str, **params: Any) -> Any:
    """The result of one request about a text."""
    session = Session(text)
    session.ask(method, **params)
    return session.last()


class Lifecycle(unittest.TestCase):
    """How a server begins and ends, and what it does with wrong messages."""

    def test_statuses(self) -> None:
        shutdown, leave = framed({"id": 1, "method": "shutdown"}), framed({"method": "exit"})
        first = Session().sent
        cut = first + shutdown[:20]
        for sent, status in ((first + shutdown + leave, 0), (first + leave, 1), (first, 1), (cut, 1), (leave, 1)):
            self.assertEqual(served(sent)[1:], (status, ""), sent)

    def test_errors(self) -> None:
        request = {"id": 7, "method": "textDocument/selectionRange"}
        for sent, code in (
            (framed(request), -32002),
            (Session().sent * 2, -32600),
            (Session().sent + framed({"id": 1, "method": "shutdown"}) + framed(request), -32600),
            (Session().sent + framed({"id": 7, "method": "no/such"}), -32601),
            (Session().sent + framed(request), -32602),
            (Session("x").sent + framed({**request, "params": {"textDocument": {"uri": URI}, "positions": 7}}), -32602),
            (b"Content-Length: 5\r\n\r\n{bad}", -32700),
            (b"Content-Length: 2\r\n\r\n[]", -32600),
            (b"Content-Length: 99999999999\r\nContent-Length: 2\r\n\r\n[]", -32600),
            (b"No-Length: 1\r\n\r\ncontent-LENGTH:2\r\n\r\n[]", -32600),
        ):
            answers, _, log = served(sent)
            self.assertEqual((answers[-1]["error"]["code"], log), (code, ""), sent)

    def test_notifications_that_can_not_be_right(self) -> None:
        session = Session()
        session.change({"text": "x"})
        session.open("x = 1\n")
        session.change({"text": "y"}, {"range": span(0, 0, 0, 1)})
        session.tell("$/unknown")
        session.ask("semanticTokens/full")
        answers = session.answers()
        self.assertEqual(
            [it.get("method") for it in answers],
            ["window/logMessage", "textDocument/publishDiagnostics", "window/logMessage", None],
        )
        self.assertEqual(len(answers[-1]["result"]["data"]), 15)

    def test_without_memory(self) -> None:
        session = Session("x = 1\n")
        session.change({"text": "y"})
        session.ask("semanticTokens/full")
        with mock.patch.object(OpenText, "change", side_effect=MemoryError):
            answers, _, log = served(session.sent)
        self.assertEqual((answers[-2]["params"]["message"], log), ("textDocument/didChange: out of memory", ""))
        self.assertEqual(answers[-1]["error"]["code"], -32602)

    def test_the_program(self) -> None:
        sent = Session("x = 01\n").sent + framed({"id": 1, "method": "shutdown"}) + framed({"method": "exit"})
        words = [sys.executable, "-m", "starlark_lexer.lsp", "--stdio"]
        ran = subprocess.run(words, input=sent, capture_output=True, check=False)
        self.assertEqual((ran.returncode, ran.stderr), (0, b""))
        self.assertEqual(unframed(ran.stdout)[1]["params"]["diagnostics"][0]["code"], "SL008")


class Diagnostics(unittest.TestCase):
    """Faults, pushed or pulled."""

    def test_pushed(self) -> None:
        session = Session("x = 'a\n", textDocument={"publishDiagnostics": {"relatedInformation": True}})
        session.change({"range": span(0, 6, 0, 6), "text": "'"})
        session.tell("textDocument/didClose", textDocument={"uri": URI})
        opened, changed, closed = (it["params"] for it in session.answers())
        (fault,) = opened["diagnostics"]
        self.assertEqual((opened["version"], changed["version"], "version" in closed), (1, 2, False))
        self.assertEqual((changed["diagnostics"], closed["diagnostics"]), ([], []))
        self.assertEqual((fault["code"], fault["source"], fault["severity"]), ("SL004", "starlark-lsp", 1))
        self.assertEqual(ends(fault["range"]), (0, 4, 0, 6))
        (related,) = fault["relatedInformation"]
        self.assertEqual(ends(related["location"]["range"]), (0, 4, 0, 5))

    def test_an_open_bracket(self) -> None:
        related = {"relatedInformation": True}
        for text, wanted in (("f'{a!r'", [2]), ("f'{(a'", [3]), ("x = f'{a'\n", [8, 6]), ("f([1], 'a\n", [7, 1])):
            session = Session(text, textDocument={"publishDiagnostics": related})
            (fault,) = session.answers()[0]["params"]["diagnostics"]
            places = [ends(it["location"]["range"])[1] for it in fault["relatedInformation"]]
            self.assertEqual(places, wanted, text)

    def test_pulled(self) -> None:
        session = Session("x = $\n", textDocument={"diagnostic": {}})
        session.ask("diagnostic")
        session.ask("diagnostic", previousResultId="0")
        session.change({"range": span(0, 4, 0, 5), "text": "1"})
        session.ask("diagnostic", previousResultId="0")
        first, same, changed = (it["result"] for it in session.answers())
        self.assertEqual((first["kind"], first["items"][0]["code"]), ("full", "SL002"))
        self.assertEqual(same, {"kind": "unchanged", "resultId": first["resultId"]})
        self.assertEqual((changed["kind"], changed["items"]), ("full", []))

    def test_opened_again(self) -> None:
        """No result of the first text is one of the second."""
        session = Session("x = $\n", textDocument={"diagnostic": {}})
        session.ask("diagnostic")
        session.ask("semanticTokens/full")
        session.open("x = 1\n")
        session.ask("diagnostic", previousResultId="0")
        session.ask("semanticTokens/full/delta", previousResultId="1")
        session.ask("semanticTokens/full/delta", previousResultId="0")
        *_, pulled, changed, unknown = (it["result"] for it in session.answers())
        self.assertEqual((pulled["kind"], pulled["items"]), ("full", []))
        self.assertEqual((len(changed["data"]), len(unknown["data"])), (15, 15))

    def test_positions_in_each_encoding(self) -> None:
        for encoding, column in (("utf-8", 15), ("utf-16", 12), ("utf-32", 11)):
            session = Session("x = 'é🔬' + $\n", general={"positionEncodings": ["utf-7", encoding]})
            (fault,) = session.answers()[0]["params"]["diagnostics"]
            self.assertEqual(fault["range"]["start"], place(0, column))


class Tokens(unittest.TestCase):
    """Semantic tokens, and positions of changes."""

    def test_all(self) -> None:
        found = asked("x = '''a\rb\n'''\r\n# é🔬\n", "semanticTokens/full")
        first = [0, 0, 1, 2, 0, 0, 2, 1, 5, 0, 0, 2, 4, 4, 0]
        self.assertEqual(found["data"], [*first, 1, 0, 1, 4, 0, 1, 0, 3, 4, 0, 1, 0, 5, 0, 0])

    def test_what_differs(self) -> None:
        """Only tokens near a change are sent again."""
        session = Session("x = 1\n" * 9000 + "y = 'a\n" + "z = x\n" * 9000)
        session.ask("semanticTokens/full")
        session.change({"range": span(9000, 6, 9000, 6), "text": "'"})
        session.ask("semanticTokens/full/delta", previousResultId="1")
        session.ask("semanticTokens/full/delta", previousResultId="2")
        session.ask("semanticTokens/full/delta", previousResultId="1")
        first, changed, none, unknown = (it["result"] for it in session.answers() if "result" in it)
        (edit,) = changed["edits"]
        old = first["data"]
        new = old[: edit["start"]] + edit["data"] + old[edit["start"] + edit["deleteCount"] :]
        self.assertEqual(new, unknown["data"])
        self.assertLess(len(edit["data"]), 20000)
        self.assertEqual(none["edits"], [])

    def test_a_range(self) -> None:
        text = "a = 1\nb = '''\nc\n'''\nd\n"
        found = asked(text, "semanticTokens/range", range=span(2, 0, 2, 1))
        self.assertEqual(found["data"], [1, 0, 1, 2, 0, 0, 2, 1, 5, 0, 0, 2, 3, 4, 0, 1, 0, 1, 4, 0, 1, 0, 3, 4, 0])
        self.assertEqual(asked(text, "semanticTokens/range", range=span(9, 0, 4, 0))["data"], [4, 0, 1, 2, 0])

    def text_after(self, text: str, *events: Dict[str, Any]) -> str:
        """The server's text after changes."""
        session = Session(text)
        session.change(*events)
        server = Server(io.BytesIO(session.sent), io.BytesIO())
        server.serve()
        return server.text_of(URI).document.text()

    def test_changes(self) -> None:
        for text, numbers, inserted, after in (
            ("a\n", (0, 9, 0, 9), "b", "ab\n"),
            ("a\r\nc\n", (0, 9, 0, 9), "b", "ab\r\nc\n"),
            ("a\rc\n", (1, 0, 1, 1), "b", "a\rb\n"),
            ("a\n", (9, 0, 9, 0), "b", "a\nb"),
            ("abc", (0, 2, 0, 1), "", "ac"),
            ("a🔬b", (0, 2, 0, 2), "z", "a\ufffdz\ufffdb"),
            ("a🔬b", (0, 2, 0, 3), "", "a\ufffdb"),
            ("a\ud83db", (0, 2, 0, 2), "z", "a\ufffdzb"),
            ("a\r\nb", (0, 1, 1, 0), "\r", "a\rb"),
        ):
            self.assertEqual(self.text_after(text, {"range": span(*numbers), "text": inserted}), after)
        split = {"range": span(1, 0, 1, 0), "text": "x"}
        self.assertEqual(self.text_after("a\r\n", {"range": span(0, 1, 0, 1), "text": "\r"}, split), "a\rx\r\n")


class Structures(unittest.TestCase):
    """Folds, selections and brackets."""

    def folds(self, text: str) -> List[Tuple[Any, ...]]:
        """The folds of a text."""
        found = asked(text, "foldingRange")
        return [(it["startLine"], it["endLine"], it.get("kind")) for it in found]

    def test_folds(self) -> None:
        self.assertEqual(self.folds("def f(a):\n    if a:\n        b\n\n    c\n# d\ne\n"), [(0, 4, None), (1, 2, None)])
        self.assertEqual(self.folds("f(\n  [\n    1,\n  ],\n)\n"), [(0, 3, None), (1, 2, None)])
        self.assertEqual(self.folds("# a\n# b\n\n# c\nx  # d\n# e\n# f\n"), [(0, 1, "comment"), (5, 6, "comment")])
        self.assertEqual(self.folds("'''a\nb'''\nx = '''c\nd'''\n"), [(0, 1, "comment")])
        self.assertEqual(self.folds("f(\n  'a\n)\n[\r1,\r]"), [(0, 1, None), (3, 4, None)])
        self.assertEqual(self.folds("x = 1\n"), [])

    def test_selections(self) -> None:
        (found,) = asked("def f():\n  g(a, [bc])\n", "selectionRange", positions=[place(1, 9)])
        spans = []
        while found:
            spans.append(ends(found["range"]))
            found = found.get("parent")
        self.assertEqual(spans[0], (1, 8, 1, 10))
        self.assertEqual(spans[1:4], [(1, 7, 1, 11), (1, 4, 1, 11), (1, 3, 1, 12)])
        self.assertEqual(spans[4], (1, 2, 1, 12))
        self.assertEqual(spans[-2:], [(0, 0, 1, 12), (0, 0, 2, 0)])

    def test_brackets(self) -> None:
        text = "f([1], {'a': f'{b}'})\n"
        for column, *wanted in ((1, 1, 20), (2, 2, 4), (21, 1, 20), (15, 15, 17)):
            found = asked(text, "documentHighlight", position=place(0, column))
            self.assertEqual([ends(it["range"])[1] for it in found], wanted)
        self.assertEqual(asked(text, "documentHighlight", position=place(0, 10)), [])
        self.assertEqual(asked("(]\n", "documentHighlight", position=place(0, 0)), [])


if __name__ == "__main__":
    unittest.main()
