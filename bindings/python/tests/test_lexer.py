"""Tests of the package, against what the programs print."""

from __future__ import annotations

import io
import json
import re
import subprocess
import unittest
from contextlib import redirect_stderr, redirect_stdout
from pathlib import Path
from tempfile import TemporaryDirectory
from time import process_time
from typing import Iterator, List, Optional, Tuple

from starlark_lexer import Fault, FaultKind, Kind, KindClass, Quotes, StarlarkFault, Token, faults, lex, lex_all, tokenize
from starlark_lexer.__main__ import main
from starlark_lexer.library import kind_class, kind_name, place_of

TOP = Path(__file__).resolve().parents[3]
QUOTES = {
    Quotes.SINGLE: "Single",
    Quotes.DOUBLE: "Double",
    Quotes.TRIPLE_SINGLE: "TripleSingle",
    Quotes.TRIPLE_DOUBLE: "TripleDouble",
}


def place_text(start: Tuple[int, int], end: Tuple[int, int]) -> str:
    """A place as the program prints it."""
    begin = f"{start[0]}:{start[1] + 1}"
    if start == end:
        return begin
    return begin + (f"-{end[1] + 1}" if start[0] == end[0] else f"-{end[0]}:{end[1] + 1}")


def integer_text(value: int, string: str) -> str:
    """An integer as the program prints it."""
    if -(2**31) <= value < 2**31:
        return str(value)
    bases = {"x": (16, "x"), "o": (8, "o"), "b": (2, "b")}
    base, form = bases.get(string[1:2].lower(), (10, "d"))
    return format(value, form) + ("" if base == 10 else f" (base {base})")


def value_text(token: Token) -> str:
    """The value of a token as the program prints it, after a space."""
    value = token.value
    if value is None:
        return ""
    if isinstance(value, Quotes):
        return " " + QUOTES[value]
    if isinstance(value, int):
        return " " + integer_text(value, token.string)
    if isinstance(value, bytes):
        return " " + value.hex()
    if token.type in (Kind.STRING, Kind.FSTRING_TEXT):
        return " " + value.encode().hex()
    return " " + value


def token_line(token: Token) -> str:
    """The line that the program prints for a token."""
    place = f"{token.span[0]}-{token.span[1]} {place_text(token.start, token.end)}"
    return f"{place} {kind_name(token.type)}{value_text(token)}\n"


def fault_line(fault: Fault) -> str:
    """The line that the program prints for a fault."""
    place = f"{fault.span[0]}-{fault.span[1]} <stdin>:{place_text(fault.start, fault.end)}"
    return f"fault {place} {fault.message}\n"


def lines_of(source: bytes) -> str:
    """The lines that the program prints for a text."""
    tokens, fault = lex(source)
    lines = [token_line(token) for token in tokens]
    return "".join([*lines, fault_line(fault)] if fault else lines)


def in_repository(path: str) -> Path:
    """A file of the repository. In an unpacked sdist there is none, and the test is skipped."""
    if not (TOP / path).exists():
        raise unittest.SkipTest(f"the repository's {path} isn't here")
    return TOP / path


def read_part(file: str, name: str) -> bytes:
    """A part of a stored file, which is a list of parts: a line `part NAME LEN`, and LEN bytes."""
    stored = in_repository(f"crates/starlark_rows/{file}").read_bytes()
    at = 0
    while True:
        begin = stored.index(b"\n", at) + 1
        _, found, length = stored[at : begin - 1].decode().split(" ")
        at = begin + int(length)
        if found == name:
            return stored[begin:at]


def stored_texts(part: str) -> Iterator[Tuple[int, str, bytes]]:
    """The stored texts of a part, each with its number and its task."""
    stored = read_part("stdin", part)
    at = 0
    number = 0
    while at < len(stored):
        begin = stored.index(b"\n", at) + 1
        length, _, task = stored[at : begin - 1].decode().partition(" ")
        number += 1
        yield number, task, stored[begin : begin + int(length)]
        at = begin + int(length) + 1


class StoredTexts(unittest.TestCase):
    """Each stored text is lexed as the program lexes it."""

    def test_stored_texts(self) -> None:
        printed = read_part("stdout", "texts").decode()
        at = 0
        for number, task, source in stored_texts("texts"):
            if task:
                continue
            begin = printed.index(f"text {number}: ", at)
            at = printed.index("\n", begin) + 1
            try:
                lines = lines_of(source)
            except UnicodeDecodeError:
                self.assertEqual(printed[begin:at], f"text {number}: input is not UTF-8\n")
                continue
            self.assertEqual(printed[at : at + len(lines)], lines, f"text {number}: {source!r}")
            end = at + len(lines)
            self.assertTrue(end == len(printed) or printed.startswith("text ", end), f"text {number} has more lines")


class RecoveredTexts(unittest.TestCase):
    """Each stored text is lexed on after its faults as RecoveringLexer does."""

    def test_stored_texts(self) -> None:
        printed = read_part("stdout", "recovered").decode()
        texts = [source for _, _, source in stored_texts("recovered")]
        parts = [part.partition("\n")[2] for part in ("\n" + printed).split("\ntext ")[1:]]
        self.assertEqual(len(parts), len(texts))
        self.assertGreaterEqual(len(texts), 158)
        for source, part in zip(texts, parts):
            lines = [line + "\n" for line in re.split(r"\n(?=(?:fault )?\d+-\d+ )", part.rstrip("\n"))]
            tokens, all_faults = lex_all(source)
            self.assertEqual(
                [token_line(token) for token in tokens],
                [line for line in lines if not line.startswith("fault ")],
                source,
            )
            self.assertEqual(
                [fault_line(fault) for fault in all_faults],
                [line for line in lines if line.startswith("fault ")],
                source,
            )
            self.assertEqual(faults(source), all_faults)
            self.assertEqual(list(tokenize(source, recover=True)), tokens)


class Program(unittest.TestCase):
    """Files are lexed as the program lexes them now."""

    TEXTS = (
        b"",
        b"if x:\n    y = 01\n",
        'def f(a):\n    return f"{a!r} \u00e9\\n" + b"\\xff"  # \u6c49\n'.encode(),
        b"x = 0xFFFFFFFFFF + 2147483648\ny = 0o7777777777777 + 0b" + b"1" * 40 + b"\n",
        b"cc_library(\n    name = \"x\",\n    srcs = glob([\"*.cc\"]),\n)\n" * 200,
        b"a\r\n\tb\n",
        b"'" + b"z" * 300 + b"\n",
    )

    def test_lines(self) -> None:
        for source in self.TEXTS:
            run = subprocess.run([in_repository("starlark_lex")], input=source, capture_output=True, check=False)
            self.assertIn(run.returncode, (0, 1))
            self.assertEqual(lines_of(source), run.stdout.decode())


class Tokens(unittest.TestCase):
    """What the package adds to the lines."""

    def test_fields(self) -> None:
        token = next(tokenize("x = 'a\\n'\n"))
        self.assertEqual(token[:5], (Kind.IDENTIFIER, "x", (1, 0), (1, 1), "x = 'a\\n'\n"))
        self.assertEqual((token.value, token.span), ("x", (0, 1)))

    def test_spans(self) -> None:
        """They count characters of a str, as `re` does, and bytes of bytes."""
        source = "y = 'é🔬' + x\n"
        for text, span in ((source, (11, 12)), (source.encode(), (15, 16))):
            (name,) = (token for token in tokenize(text) if token.string == "x")
            self.assertEqual(name.span, span)
            self.assertEqual(text[slice(*span)], "x" if text is source else b"x")

    def test_values(self) -> None:
        source = "a 1 2147483648 1.5 'b\\n' b'\\xff' # c"
        values = [token.value for token in tokenize(source) if token.value is not None]
        self.assertEqual(values, ["a", 1, 2147483648, "1.5", "b\n", b"\xff", " c"])

    def test_quotes(self) -> None:
        starts = [token.value for token in tokenize('f"" f\'\' f"""""" f\'\'\'\'\'\'') if token.type == Kind.FSTRING_START]
        self.assertEqual(starts, [Quotes.DOUBLE, Quotes.SINGLE, Quotes.TRIPLE_DOUBLE, Quotes.TRIPLE_SINGLE])

    def test_columns_count_characters(self) -> None:
        tokens = list(tokenize("'é' + '🔬'; x\n"))
        self.assertEqual([token.start for token in tokens[:5]], [(1, 0), (1, 4), (1, 6), (1, 9), (1, 11)])

    def test_tokens_of_one_line_share_it(self) -> None:
        tokens = list(tokenize("a = 1  # é\nb\n"))
        self.assertEqual([token.line for token in tokens[:4]], ["a = 1  # é\n"] * 4)
        self.assertTrue(all(token.line is tokens[0].line for token in tokens[:4]))
        self.assertEqual([token.line for token in tokens if token.string == "b"], ["b\n"])

    def test_every_number_is_named(self) -> None:
        for kind in Kind:
            self.assertEqual(kind_name(kind).upper(), kind.name.replace("_", ""))
        self.assertEqual([kind_name(0), kind_name(max(Kind) + 1), kind_name(2**32 - 1)], ["", "", ""])

    def test_every_kind_has_the_class_of_the_library(self) -> None:
        for kind in Kind:
            self.assertEqual(kind_class(kind), kind.kind_class)
        self.assertEqual([kind_class(number) for number in (0, max(Kind) + 1, 2**32 - 1, 2**64 - 1)], [0] * 4)

    def test_classes_of_kinds(self) -> None:
        classes = {
            Kind.COMMENT: KindClass.COMMENT,
            Kind.DEDENT: KindClass.LAYOUT,
            Kind.IDENTIFIER: KindClass.NAME,
            Kind.INT: KindClass.NUMBER,
            Kind.FSTRING_TEXT: KindClass.STRING,
            Kind.LAMBDA: KindClass.KEYWORD,
            Kind.MINUS_GREATER: KindClass.OPERATOR,
            Kind.FSTRING_BANG: KindClass.PUNCTUATION,
            Kind.FSTRING_EXPR_END: KindClass.BRACKET,
        }
        self.assertEqual({kind: kind.kind_class for kind in classes}, classes)
        self.assertEqual(set(classes.values()), set(KindClass))


class Places(unittest.TestCase):
    """Lines and columns of offsets, against Python's own."""

    def test_each_offset(self) -> None:
        for text in ("", "a\nb\n\nc", "é\n汉🔬x\r\n🔬", "\U0010ffff\ud7ff\uffff\n"):
            source = text.encode()
            for at in range(len(source) + 2):
                self.assertEqual(place_of(source, at), self.place(source, at), (text, at))

    @staticmethod
    def place(source: bytes, at: int) -> Optional[Tuple[int, int, int]]:
        """The place of an offset, by Python's strings."""
        try:
            front = source[:at].decode()
        except UnicodeDecodeError:
            return None
        line = front.rpartition("\n")[2]
        place = front.count("\n"), len(line), len(line.encode("utf-16-le")) // 2
        return place if at <= len(source) else None


class Faults(unittest.TestCase):
    """Texts that aren't Starlark's tokens."""

    KINDS = {
        "if x:\n  y\n z": FaultKind.INDENTATION,
        "?": FaultKind.INVALID_INPUT,
        "x\n\ty": FaultKind.INVALID_TAB,
        "'": FaultKind.UNFINISHED_STRING_LITERAL,
        "'\\x'": FaultKind.INVALID_ESCAPE_SEQUENCE,
        "'\\": FaultKind.EMPTY_ESCAPE_SEQUENCE,
        "class": FaultKind.RESERVED_KEYWORD,
        "01": FaultKind.STARTS_ZERO,
        "f'{\"a": FaultKind.UNFINISHED_FSTRING_EXPRESSION,
    }

    def test_kinds(self) -> None:
        for source, kind in self.KINDS.items():
            self.assertEqual([fault.type for fault in faults(source)], [kind], source)

    def test_none(self) -> None:
        self.assertEqual(faults("x = 1\n"), [])
        self.assertEqual(list(tokenize("x = 1\n", recover=True)), list(tokenize("x = 1\n")))

    def test_all(self) -> None:
        source = "f(\n  'é)\nb\n\tc\nd = 01\n"
        tokens, all_faults = lex_all(source)
        strings = ["f", "(", "'é)", "\n", "b", "d", "=", "01", "\n", ""]
        self.assertEqual([token.string for token in tokens], strings)
        self.assertEqual([fault.type for fault in all_faults], [4, 3, 8])
        self.assertEqual([fault.start for fault in all_faults], [(2, 2), (3, 1), (5, 4)])
        self.assertEqual([fault.span for fault in all_faults], [(5, 8), (10, 10), (18, 20)])
        self.assertEqual([fault.line for fault in all_faults], ["  'é)\n", "b\n", "d = 01\n"])
        self.assertEqual(tokens[5].span, (14, 15))

    def test_a_reserved_word_as_a_name(self) -> None:
        source = "def f():\n  assert.eq(x,\ny)\n"
        tokens, (fault,) = lex_all(source)
        names, none = lex_all(source.replace("assert", "asserx"))
        (name,) = (token for token in names if token.string == "asserx")
        found, wanted = ([(token.type, token.span) for token in some] for some in (tokens, names))
        self.assertEqual(found, wanted)
        self.assertEqual((fault.type, fault.span, none), (FaultKind.RESERVED_KEYWORD, name.span, []))
        self.assertEqual(fault.line[fault.start[1] : fault.end[1]], "assert")

    def test_a_fault_on_each_line(self) -> None:
        tokens, all_faults = lex_all("a = !\n" * 1000)
        self.assertEqual(len(tokens), 3001)
        self.assertEqual([fault.start for fault in all_faults], [(line, 4) for line in range(1, 1001)])

    def test_many_faults_take_no_longer(self) -> None:
        lines = (
            ("name = 'é汉🔬' !\n", "!", FaultKind.INVALID_INPUT, "invalid input `!`"),
            ("name = 'é汉🔬' 01\n", "01", FaultKind.STARTS_ZERO, "integer cannot have leading 0, got `01`"),
        )
        wanted_tokens: List[Token] = []
        wanted_faults: List[Fault] = []
        at = 0
        for number in range(1, 20001):
            line, word, kind, message = lines[number % 2]
            places = [(number, column) for column in range(len(line))]
            wanted_tokens += [
                Token(Kind.IDENTIFIER, "name", places[0], places[4], line, "name", (at, at + 4)),
                Token(Kind.EQUAL, "=", places[5], places[6], line, None, (at + 5, at + 6)),
                Token(Kind.STRING, "'é汉🔬'", places[7], places[12], line, "é汉🔬", (at + 7, at + 12)),
            ]
            span = at + 13, at + 13 + len(word)
            after = places[13 + len(word)]
            wanted_faults.append(Fault(kind, "Parse error: " + message, places[13], after, line, span))
            if word == "01":
                wanted_tokens.append(Token(Kind.INT, word, places[13], after, line, 1, span))
            end_of_line = span[1], span[1] + 1
            wanted_tokens.append(Token(Kind.NEWLINE, "\n", after, (number + 1, 0), line, None, end_of_line))
            at += len(line)
        end = 20001, 0
        wanted_tokens.append(Token(Kind.NEWLINE, "", end, end, "", None, (at, at)))
        source = "".join(lines[number % 2][0] for number in range(1, 20001))

        begin = process_time()
        found = faults(source)
        time = process_time() - begin
        self.assertTrue(found == wanted_faults)
        self.assertTrue(lex_all(source) == (wanted_tokens, wanted_faults))
        self.assertTrue(list(tokenize(source, recover=True)) == wanted_tokens)
        self.assertLess(time, 2)

    def test_raised_after_the_tokens_before_it(self) -> None:
        found = []
        with self.assertRaises(StarlarkFault) as raised:
            for token in tokenize("x = 01"):
                found.append(token.string)
        self.assertEqual(found, ["x", "="])
        self.assertEqual(str(raised.exception), "1:5: Parse error: integer cannot have leading 0, got `01`")
        self.assertEqual(raised.exception.fault.span, (4, 6))

    def test_not_utf8(self) -> None:
        with self.assertRaises(UnicodeDecodeError) as raised:
            list(tokenize(b"ab\xff"))
        self.assertEqual(raised.exception.start, 2)


class Printed(unittest.TestCase):
    """What `python -m starlark_lexer` prints."""

    def run_main(self, source: bytes, *words: str) -> Tuple[int, str, str]:
        with TemporaryDirectory() as folder:
            file = Path(folder) / "BUILD"
            file.write_bytes(source)
            out, err = io.StringIO(), io.StringIO()
            with redirect_stdout(out), redirect_stderr(err):
                status = main([*words, str(file)])
            return status, out.getvalue(), err.getvalue().replace(str(file), "BUILD")

    def test_tokens(self) -> None:
        status, out, err = self.run_main(b"x !")
        self.assertEqual((status, err), (1, "BUILD:1:3: Parse error: invalid input `!`\n"))
        self.assertEqual(out.split(), ["1,0-1,1:", "IDENTIFIER", "'x'", "1,3-1,3:", "NEWLINE", "''"])

    def test_all_faults(self) -> None:
        status, out, err = self.run_main(b"x !\ny\n'\n")
        places = [line.split(" ")[0] for line in err.splitlines()]
        self.assertEqual((status, places), (1, ["BUILD:1:3:", "BUILD:3:1:"]))
        self.assertIn("'y'", out)

    def test_json(self) -> None:
        status, out, _ = self.run_main(b"b'\\xff' 01\n?", "--json")
        _, *found, _ = [json.loads(line) for line in out.splitlines()]
        self.assertEqual(status, 1)
        values = [(item["kind"], item["value"]) for item in found if item["kind"] != "Fault"]
        self.assertEqual(values, [("Bytes", "ff"), ("Int", 1), ("Newline", None), ("Newline", None)])
        spans = [(item["code"], item["begin"], item["end"]) for item in found if item["kind"] == "Fault"]
        self.assertEqual(spans, [("SL008", 8, 10), ("SL002", 11, 12)])

    def test_page_has_the_text(self) -> None:
        status, out, _ = self.run_main(b"x = '<a>'\ny = 01\n", "--html")
        self.assertEqual(status, 1)
        self.assertIn('x <span class="operator">=</span> <span class="string">&#x27;&lt;a&gt;&#x27;</span>', out)
        self.assertIn(">01</mark>", out)
        self.assertNotIn("http", out)

    def test_page_has_all_faults(self) -> None:
        status, out, _ = self.run_main(b'# a\n\tb\nc = "d\ne = """f\n\ng\n', "--html")
        self.assertEqual(status, 1)
        self.assertIn("3 faults", out)
        for number in (1, 3, 4):
            self.assertIn(f'<li><a href="#line-{number}">line {number}, column ', out)
            self.assertIn(f'<span data-line="{number}" id="line-{number}" class="at-fault">', out)
        self.assertEqual(out.count('class="at-fault"'), 5)
        self.assertIn('<span class="comment"># a</span>', out)
        self.assertIn(">&quot;d</mark>", out)

    def test_not_utf8(self) -> None:
        status, out, err = self.run_main(b"\xff")
        self.assertEqual((status, out), (2, ""))
        self.assertIn("BUILD", err)


if __name__ == "__main__":
    unittest.main()
