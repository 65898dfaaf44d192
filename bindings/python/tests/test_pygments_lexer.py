"""Tests of the lexer for Pygments, with a stand-in for it where it isn't installed."""

from __future__ import annotations

import re
import subprocess
import sys
import unittest
from importlib.metadata import EntryPoint
from importlib.util import find_spec
from pathlib import Path
from types import ModuleType
from typing import Any, Dict, Iterator, List, Tuple
from unittest import mock

from starlark_lexer import faults, lex_all
from test_lexer import in_repository, stored_texts


class _StandInType(tuple):
    """A type of `pygments.token`: a tuple of names, with its subtypes as attributes."""

    def __getattr__(self, name: str) -> _StandInType:
        if not name[0].isupper():
            raise AttributeError(name)
        return _StandInType((*self, name))


class _StandInLexer:
    """What the class needs of `pygments.lexer.Lexer`."""


def _put_stand_in() -> None:
    """Puts modules with what the class needs in place of Pygments."""
    tokens = _StandInType()
    parts = {
        "pygments.lexer": {"Lexer": _StandInLexer},
        "pygments.token": {
            "Comment": tokens.Comment,
            "Error": tokens.Error,
            "Keyword": tokens.Keyword,
            "Name": tokens.Name,
            "Number": tokens.Literal.Number,
            "Operator": tokens.Operator,
            "Punctuation": tokens.Punctuation,
            "String": tokens.Literal.String,
            "Text": tokens.Text,
            "Whitespace": tokens.Text.Whitespace,
        },
    }
    sys.modules["pygments"] = ModuleType("pygments")
    for name, members in parts.items():
        module = ModuleType(name)
        vars(module).update(members)
        sys.modules[name] = module


HAS_PYGMENTS = find_spec("pygments") is not None
if not HAS_PYGMENTS:
    _put_stand_in()

from starlark_lexer import pygments_lexer  # noqa: E402
from starlark_lexer.pygments_lexer import StarlarkLexer  # noqa: E402

DATA = "crates/starlark_tokens/data"
PROJECT = Path(__file__).resolve().parents[1] / "pyproject.toml"

BUILD = '''\
load(":a.bzl", "b")  # é

def f(x, *y):
    return not x.len or len(y) == 0x1F + 1.5

f(b"c", len = None, d = f"{x!r}\\n", e = [0o7, 0b1, 20])
'''


def parts_of(text: str) -> List[Tuple[int, Any, str]]:
    """The parts of a text with their offsets."""
    return list(StarlarkLexer().get_tokens_unprocessed(text))


def named_parts(text: str) -> List[Tuple[str, str]]:
    """The parts of a text that aren't blanks, each with the name of its type."""
    return [(".".join(type_), value) for _, type_, value in parts_of(text) if not value.isspace()]


def errors(text: str) -> List[Tuple[int, str]]:
    """The offset and the characters of each `Error` of a text."""
    return [(at, value) for at, type_, value in parts_of(text) if type_ == pygments_lexer.Error]


def texts_of(part: str) -> Iterator[str]:
    """The stored texts of a part that are UTF-8."""
    for _, task, source in stored_texts(part):
        try:
            text = source.decode()
        except UnicodeDecodeError:
            continue
        if not task:
            yield text


class Parts(unittest.TestCase):
    """The parts of a text are the text, without gaps."""

    TEXTS = (
        "",
        "\n",
        " ",
        "x = 1",
        "if x:\n\ty\n",
        "a = [\t1,\r\n  2]\r\n\r\nb\r",
        "'é' + \"🔬\"  # 汉\nx\u00a0= é\n",
        "f(\n  'é\nb\n\tc\nd = 01\n",
        "x = 1 + \\\n    2\n",
        "f'{x}",
        "x = '\ud800' \udfff \ud83d\ude00\n",
        "\ufeffx\x00\f\n",
    )

    def check(self, text: str) -> None:
        """Compares the parts of a text with it."""
        at = 0
        for begin, _, value in parts_of(text):
            self.assertEqual((begin, value), (at, text[at : at + len(value)]), text)
            at += len(value)
        self.assertEqual(at, len(text), text)

    def test_texts(self) -> None:
        for text in self.TEXTS:
            self.check(text)

    def test_files(self) -> None:
        data = in_repository(DATA)
        files = [*data.glob("*.bzl"), *data.glob("*.star"), data / "BUILD"]
        self.assertGreater(len(files), 4)
        for file in files:
            self.check(file.read_bytes().decode())

    def test_stored_texts(self) -> None:
        for part in ("texts", "recovered"):
            for text in texts_of(part):
                self.check(text)

    def test_only_faults_without_characters_are_empty(self) -> None:
        self.assertEqual(parts_of(""), [])
        self.assertEqual(parts_of("f'{x}")[-1], (5, pygments_lexer.Error, ""))
        for text in texts_of("recovered"):
            for at, type_, value in parts_of(text):
                self.assertTrue(value or (type_, at) == (pygments_lexer.Error, len(text)), text)


class Types(unittest.TestCase):
    """Each kind of token has its type."""

    def test_build(self) -> None:
        wanted = """\
            Keyword.Namespace load|Punctuation (|Literal.String ":a.bzl"|Punctuation ,
            Literal.String "b"|Punctuation )|Comment.Single # é
            Keyword def|Name.Function f|Punctuation (|Name x|Punctuation ,|Operator *|Name y
            Punctuation )|Punctuation :
            Keyword return|Operator.Word not|Name x|Punctuation .|Name len|Operator.Word or
            Name.Builtin len|Punctuation (|Name y|Punctuation )|Operator ==
            Literal.Number.Hex 0x1F|Operator +|Literal.Number.Float 1.5
            Name f|Punctuation (|Literal.String b"c"|Punctuation ,|Name len|Operator =
            Keyword.Constant None|Punctuation ,|Name d|Operator =|Literal.String f"
            Literal.String.Interpol {|Name x|Literal.String.Interpol !|Literal.String.Interpol r
            Literal.String.Interpol }|Literal.String \\n|Literal.String "|Punctuation ,|Name e
            Operator =|Punctuation [|Literal.Number.Oct 0o7|Punctuation ,|Literal.Number.Bin 0b1
            Punctuation ,|Literal.Number.Integer 20|Punctuation ]|Punctuation )"""
        rows = [row.strip() for line in wanted.splitlines() for row in line.split("|")]
        self.assertEqual([" ".join(part) for part in named_parts(BUILD)], rows)

    def test_blanks(self) -> None:
        found = [type_ for _, type_, value in parts_of(BUILD) if value.isspace()]
        self.assertEqual(set(found), {pygments_lexer.Whitespace})

    def test_continued_line(self) -> None:
        self.assertIn((3, pygments_lexer.Text, " \\\n "), parts_of("x =" + " \\\n " + "1\n"))


class Errors(unittest.TestCase):
    """Each fault is an `Error`."""

    def test_characters(self) -> None:
        found = errors("x = '汉 a\ny = 01 !\nz ?")
        self.assertEqual(found, [(4, "'汉 a"), (13, "01"), (16, "!"), (20, "?")])

    def test_rest_of_the_line(self) -> None:
        begin, end = ("Name", "x"), ("Name", "y")
        kept = [begin, ("Error", "!"), ("Literal.Number.Integer", "1"), ("Literal.String", "'é'"), end]
        self.assertEqual(named_parts("x ! 1 'é'\ny"), kept)
        quote = ("Literal.String", "'")
        split = [begin, quote, ("Error", "\\xg"), quote, *kept[2:]]
        self.assertEqual(named_parts("x '\\xg' 1 'é'\ny"), split)
        lost = [begin, ("Literal.String", "f'"), ("Text", "\\x"), ("Error", "g"), ("Text", "' 1 'é'\n"), end]
        self.assertEqual(named_parts("x f'\\xg' 1 'é'\ny"), lost)

    def test_tabs(self) -> None:
        tabs = {"a\tb": 1, "x\n\ty": 2, "x\r\n \ty": 4, "x\n# a\tb\n \ty": 9, "  \t# c\n\tx\ny": 7}
        for text, at in tabs.items():
            self.assertEqual(errors(text), [(at, "\t")], text)

    def test_stored_texts(self) -> None:
        for text in texts_of("recovered"):
            self.assertEqual(len(errors(text)), len(faults(text)), text)

    def test_characters_of_stored_texts(self) -> None:
        for text in texts_of("recovered"):
            found = {(at, at + len(value)) for at, value in errors(text)}
            source = text.encode()
            for fault in lex_all(source)[1]:
                begin, end = (len(source[:at].decode()) for at in fault.span)
                if begin < end:
                    self.assertIn((begin, end), found, text)


class Import(unittest.TestCase):
    """Where Pygments comes in."""

    def test_the_package_needs_no_pygments(self) -> None:
        code = "import starlark_lexer.__main__, sys; sys.exit('pygments' in sys.modules)"
        self.assertEqual(subprocess.run([sys.executable, "-c", code], check=False).returncode, 0)

    def test_outside_of_the_package(self) -> None:
        namespace: Dict[str, Any] = {}
        exec(Path(pygments_lexer.__file__).read_bytes(), namespace)
        parts = list(namespace["StarlarkLexer"]().get_tokens_unprocessed("x"))
        self.assertEqual(parts, [(0, pygments_lexer.Name, "x")])


@unittest.skipUnless(HAS_PYGMENTS, "Pygments isn't installed")
class Chosen(unittest.TestCase):
    """Which files Pygments gives to the class, where its own classes take them as well."""

    def setUp(self) -> None:
        import pygments.lexers

        written = re.search(r'\[project.entry-points."(.*)"]\n(.*) = "(.*)"', PROJECT.read_text())
        assert written
        group, name, value = written.groups()
        points = {group: [EntryPoint(name, value, group)]}
        found = mock.patch("pygments.plugin.iter_entry_points", lambda group: points.get(group, []))
        found.start()
        self.addCleanup(found.stop)
        self.lexers = pygments.lexers

    def test_by_file_name(self) -> None:
        texts = (None, "", "x = 1\n", "# The import of all.\n", "#!/usr/bin/env python3\n")
        names = ("BUILD", "a/BUILD.bazel", "WORKSPACE", "MODULE.bazel", "BUCK", "b.bzl", "c.star")
        for name in names:
            for text in texts:
                chosen = self.lexers.find_lexer_class_for_filename(name, text)
                self.assertIs(chosen, StarlarkLexer, (name, text))

    def test_other_files(self) -> None:
        for name in ("a.py", "SConstruct"):
            self.assertEqual(self.lexers.find_lexer_class_for_filename(name, "x").name, "Python")
        self.assertEqual(self.lexers.guess_lexer("import os\n").name, "Python")
        self.assertNotIsInstance(self.lexers.guess_lexer("x = 1\n"), StarlarkLexer)

    def test_by_alias(self) -> None:
        for alias in StarlarkLexer.aliases:
            self.assertIsInstance(self.lexers.get_lexer_by_name(alias), StarlarkLexer)
        self.assertIsInstance(self.lexers.get_lexer_for_mimetype("text/x-starlark"), StarlarkLexer)

    def test_from_a_file(self) -> None:
        lexer = self.lexers.load_lexer_from_file(pygments_lexer.__file__, "StarlarkLexer")
        found = list(lexer.get_tokens(b"\n\xc3\xa9 x\r\nload"))
        self.assertEqual("".join(value for _, value in found), "é x\nload\n")
        self.assertIn((pygments_lexer.Keyword.Namespace, "load"), found)


if __name__ == "__main__":
    unittest.main()
