"""Tests of documents: random edits against lexing the whole text, and what a document refuses."""

from __future__ import annotations

import doctest
import random
import sys
import unittest
from typing import List, Union

import starlark_lexer
from starlark_lexer import Change, Document, Token, lex_all
from starlark_lexer.library import place_of

EDITS = 10_000
PIECES = [
    "x = 1\n",
    "def f(a, b):\n    return a\n",
    "    y\n",
    "\n",
    "(",
    ")",
    "[1, 2.5, 0xFFFFFFFFFF]\n",
    "'a'",
    '"""',
    "'''\n",
    "f'{a!r} b{'",
    "}'",
    "# é🔬\n",
    "b'\\x00\\n'",
    "\t",
    "$",
    "'\\q'\n",
    "汉",
    "if x:\n  if y:\n    z\n",
    'a_name = other_name + "text"  # comment\n',
]


def boundary(numbers: random.Random, text: Union[str, bytes], begin: int, most: int) -> int:
    """An offset of a text that is a character boundary."""
    at = numbers.randint(begin, min(len(text), most))
    while isinstance(text, bytes) and at < len(text) and text[at] & 0xC0 == 0x80:
        at += 1
    return at


def made_text(numbers: random.Random, pieces: int) -> str:
    """Some pieces of a text."""
    return "".join(numbers.choice(PIECES) for _ in range(pieces))


def spans(tokens: List[Token]) -> List[tuple[object, ...]]:
    """What of tokens no line before them changes."""
    return [(token.type, token.value, token.span) for token in tokens]


def replaced(old: List[Token], document: Document, change: Change) -> List[tuple[object, ...]]:
    """The tokens after a change, of which only those that touch it are asked for."""
    front = [token for token in old if token.span[1] < change.begin]
    rest = old[len(front) :]
    moved = change.new_end - change.old_end
    later = [
        token._replace(span=(token.span[0] + moved, token.span[1] + moved))
        for token in rest
        if token.span[0] > change.old_end
    ]
    return spans(front + document.tokens(change.begin, change.new_end) + later)


class RandomEdits(unittest.TestCase):
    """Documents that are edited at random, by offsets in bytes or in characters."""

    def compare(self, numbers: random.Random, text: Union[str, bytes], document: Document) -> List[Token]:
        """Compares a document with lexing its text."""
        tokens, faults = lex_all(text)
        self.assertEqual(document.tokens(), tokens)
        self.assertEqual(document.faults(), faults)
        begin = boundary(numbers, text, 0, len(text))
        end = boundary(numbers, text, begin, begin + 40)
        touching = [token for token in tokens if begin <= token.span[1] and token.span[0] <= end]
        self.assertEqual(document.tokens(begin, end), touching)
        part, front = text[begin:end], text[:begin]
        self.assertEqual(document.text(begin, end), part if isinstance(part, str) else part.decode())
        utf8 = front.encode() if isinstance(front, str) else front
        place = place_of(utf8, len(utf8))
        assert place is not None
        self.assertEqual(document.place(begin), place)
        self.assertEqual(document.offset_at_utf16(place[0], place[2]), begin)
        return tokens

    def edit(self, numbers: random.Random, first: Union[str, bytes]) -> None:
        """Makes a hundred edits of a text. Those tokens alone are replaced that touch a change."""
        text: Union[str, bytes] = first
        with Document(text) as document:
            old = document.tokens()
            for _ in range(100):
                begin = boundary(numbers, text, 0, len(text))
                end = boundary(numbers, text, begin, begin + 12)
                inserted = made_text(numbers, numbers.randrange(3))
                change = document.edit(begin, end, numbers.choice([inserted, inserted.encode()]))
                if isinstance(text, str):
                    text = text[:begin] + inserted + text[end:]
                else:
                    text = text[:begin] + inserted.encode() + text[end:]
                after = replaced(old, document, change)
                old = self.compare(numbers, text, document)
                self.assertEqual(after, spans(old))
            self.assertEqual(len(document), len(text))

    def test_edits_are_as_lexing_the_whole_text(self) -> None:
        numbers = random.Random(72)
        for number in range(EDITS // 100):
            text = made_text(numbers, numbers.randrange(30))
            self.edit(numbers, text if number % 2 else text.encode())


class Characters(unittest.TestCase):
    """Offsets in characters of a long text, which a table has."""

    def test_edits_of_a_long_text(self) -> None:
        """Parts are inserted and removed that are longer than what is between two marks."""
        numbers = random.Random(5)
        text = "x = 'é汉🔬'\n" * 4000
        with Document(text) as document:
            for _ in range(300):
                begin = numbers.randint(0, len(text))
                end = min(len(text), begin + numbers.choice([0, 1, 7, 3000, 9000, 30000]))
                inserted = numbers.choice(["", "y\n", "é", "🔬 = 1\n" * 2000, "z = 1\n" * 3000])
                change = document.edit(begin, end, inserted)
                text = text[:begin] + inserted + text[end:]
                self.assertEqual(len(document), len(text))
                self.assertLessEqual(change.begin, begin)
                self.assertGreaterEqual(change.new_end, begin + len(inserted))
                at = numbers.randint(0, len(text))
                self.assertEqual(document.text(at, min(at + 30, len(text))), text[at : at + 30])
                for token in document.tokens(at, at):
                    self.assertEqual(text[slice(*token.span)], token.string)

    def test_a_text_that_gets_its_first_wide_character(self) -> None:
        document = Document("x = 1\n" * 3000)
        document.edit(9004, 9005, "'é🔬'")
        document.edit(15003, 15003, "y")
        (name,) = (token for token in document.tokens() if token.string == "yx")
        self.assertEqual(name.span, (15003, 15005))
        self.assertEqual(document.text(9004, 9008), "'é🔬'")


class Habits(unittest.TestCase):
    """What a document refuses, and when it is freed."""

    def test_a_refused_edit_changes_nothing(self) -> None:
        """A range backwards, past the end, below 0, or inside of a character."""
        document = Document("x = 'é'\n".encode())
        for begin, end in [(2, 1), (0, 10), (10, 10), (-1, 2), (0, -1), (6, 6)]:
            with self.assertRaises(IndexError):
                document.edit(begin, end, "y")
        with self.assertRaises(UnicodeDecodeError):
            document.edit(0, 0, b"\xff")
        with self.assertRaises(TypeError):
            document.edit(0, 0, 7)  # type: ignore[arg-type]
        with self.assertRaises(IndexError):
            document.text(0, 100)
        self.assertEqual(document.text(), "x = 'é'\n")
        self.assertIsNone(document.place(6))
        self.assertIsNone(document.place(-1))
        self.assertIsNone(document.offset_at_utf16(7, 0))

    def test_texts_that_no_document_has(self) -> None:
        """No text, or bytes that are not UTF-8."""
        with self.assertRaises(TypeError):
            Document(7)  # type: ignore[arg-type]
        with self.assertRaises(UnicodeDecodeError):
            Document(b"\xff")

    def test_a_closed_document(self) -> None:
        """Each call of one raises ValueError."""
        with Document("x\n") as document:
            self.assertEqual(len(document.tokens()), 3)
        document.close()
        for call in (document.tokens, document.faults, document.text, lambda: len(document)):
            with self.assertRaises(ValueError):
                call()
        with self.assertRaises(ValueError):
            document.edit(0, 0, "y")
        with self.assertRaises(ValueError):
            document.__enter__()

    def test_references(self) -> None:
        """No document and no change keeps a reference."""
        before = sys.getrefcount(Change)
        for _ in range(100):
            with Document("x = 'a\n") as document:
                document.edit(0, 1, "y")
                document.faults()
        self.assertLess(sys.getrefcount(Change), before + 10)

    def test_examples(self) -> None:
        """Those of the package."""
        self.assertEqual(doctest.testmod(starlark_lexer).failed, 0)


if __name__ == "__main__":
    unittest.main()
