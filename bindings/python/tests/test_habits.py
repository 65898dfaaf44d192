"""Tests of what the package's users rely on beyond the tokens themselves."""

from __future__ import annotations

import copy
import gc
import io
import pickle
import subprocess
import sys
import threading
import tokenize as python_tokenize
import unittest
from array import array
from importlib.util import find_spec
from mmap import ACCESS_READ, mmap
from tempfile import TemporaryFile
from typing import Any, Callable, Dict, List, Union

import starlark_lexer
from starlark_lexer import (
    Columns,
    Document,
    Fault,
    FaultKind,
    Kind,
    Quotes,
    StarlarkFault,
    Token,
    faults,
    lex,
    lex_all,
    lex_columns,
    tokenize,
)
from starlark_lexer.library import fault_code, lex_items, version
from test_lexer import stored_texts

TEXT = "def f(x):\n    return 'é' + x  # one\n\nf(f(2147483648))\n"
CALLS: List[Callable[[Any], Any]] = [tokenize, lex, lex_all, faults, lex_columns, lex_items]


def texts_of(part: str) -> List[bytes]:
    """The stored texts of a part that are UTF-8."""
    found = []
    for _, task, source in stored_texts(part):
        try:
            source.decode()
        except UnicodeDecodeError:
            continue
        if not task:
            found.append(source)
    return found


class Arguments(unittest.TestCase):
    """What is a text, and what a call raises at once."""

    def test_other_objects(self) -> None:
        for call in CALLS:
            for other in (5, None, ["x"], io.StringIO("x"), object()):
                with self.assertRaises(TypeError):
                    call(other)

    def test_what_has_bytes(self) -> None:
        wanted = lex(TEXT.encode())
        with TemporaryFile() as file:
            file.write(TEXT.encode())
            file.flush()
            with mmap(file.fileno(), 0, access=ACCESS_READ) as mapped:
                for source in (bytearray(TEXT.encode()), memoryview(TEXT.encode()), mapped):
                    self.assertEqual(lex(source), wanted)
                    with Document(source) as document:
                        self.assertEqual(document.tokens(), wanted[0])

    def test_subclasses(self) -> None:
        class Text(str):
            pass

        class Bytes(bytes):
            pass

        self.assertEqual(lex(Text(TEXT)), lex(TEXT))
        self.assertEqual(lex(Bytes(TEXT.encode())), lex(TEXT.encode()))

    def test_keywords(self) -> None:
        self.assertEqual(list(tokenize(source=TEXT, recover=True)), list(tokenize(TEXT)))
        arguments: List[Dict[str, Any]] = [{}, {"source": "x", "recover": False, "more": 1}, {"text": "x"}]
        for wrong in arguments:
            with self.assertRaises(TypeError):
                tokenize(**wrong)

    def test_no_utf8(self) -> None:
        for call in CALLS:
            with self.assertRaises(UnicodeDecodeError) as decoding:
                call(b"x = 1\n" * 20000 + b"'\xe6\xb1'")
            self.assertEqual(decoding.exception.start, 120001)
            with self.assertRaises(UnicodeEncodeError):
                call("x = '\ud800'")

    def test_too_long(self) -> None:
        for call in CALLS:
            try:
                source = bytes(2**32)  # zeros, which take no memory until they are read
            except MemoryError:
                self.skipTest("there is no memory for a text of 4 GB")
            with self.assertRaisesRegex(ValueError, "4294967295"):
                call(source)

    def test_a_fault_is_raised_after_the_tokens(self) -> None:
        tokens = tokenize("x = 1\n" * 20000 + "!")
        self.assertEqual(sum(1 for _, token in zip(range(80000), tokens)), 80000)
        with self.assertRaises(StarlarkFault) as raised:
            next(tokens)
        self.assertEqual(raised.exception.fault.start, (20001, 0))
        self.assertEqual(list(tokens), [])


class Tuples(unittest.TestCase):
    """Tokens and faults behave as named tuples made in Python."""

    def test_tokens(self) -> None:
        for token in tokenize(TEXT):
            made = Token(*token)
            self.assertIs(type(token), Token)
            self.assertEqual((token, hash(token), repr(token)), (made, hash(made), repr(made)))
            self.assertEqual((token, hash(token)), (tuple(token), hash(tuple(token))))
            self.assertEqual(token._asdict(), dict(zip(Token._fields, token)))
            self.assertEqual(token._replace(line="").line, "")
            for protocol in range(pickle.HIGHEST_PROTOCOL + 1):
                self.assertEqual(pickle.loads(pickle.dumps(token, protocol)), token)
            self.assertEqual(copy.deepcopy(token), token)

    def test_fields_have_their_types(self) -> None:
        for source in texts_of("texts"):
            for token in lex_all(source)[0]:
                self.assertEqual([type(field) for field in token[:5]], [Kind, str, tuple, tuple, str])
                self.assertIn(type(token.value), (str, bytes, int, Quotes, type(None)))
                self.assertEqual([type(offset) for offset in token.span], [int, int])

    def test_faults(self) -> None:
        (fault,) = faults("x = 01")
        made = Fault(*fault)
        self.assertIs(type(fault), Fault)
        self.assertEqual((fault, hash(fault), repr(fault)), (made, hash(made), repr(made)))
        self.assertEqual(pickle.loads(pickle.dumps(fault)), fault)
        self.assertEqual((fault.code, fault._fields), ("SL008", Fault._fields))
        for kind in FaultKind:
            self.assertEqual(fault._replace(type=kind).code, fault_code(kind))
        self.assertEqual([fault_code(kind) for kind in (0, 10, 2**32, 2**40)], [""] * 4)

    def test_errors(self) -> None:
        with self.assertRaises(StarlarkFault) as raised:
            list(tokenize("x = 01"))
        error = raised.exception
        self.assertIsInstance(error, ValueError)
        again = pickle.loads(pickle.dumps(error))
        self.assertEqual((type(again), str(again), again.fault), (StarlarkFault, str(error), error.fault))

    def test_garbage_collection(self) -> None:
        tokens = list(tokenize(TEXT))
        self.assertFalse(any(gc.is_tracked(token) for token in tokens))
        gc.collect()
        self.assertEqual(tokens, list(tokenize(TEXT)))

    def test_other_types_are_made_by_calls_alone(self) -> None:
        for made in (tokenize("x"), lex_columns("x")):
            makers: List[Callable[[Any], object]] = [lambda of: type(of)(), lambda of: object.__new__(type(of)), copy.copy]
            for make in makers:
                with self.assertRaises(TypeError):
                    make(made)
            with self.assertRaises(TypeError):
                pickle.dumps(made)


class Shared(unittest.TestCase):
    """Tokens share what they can."""

    def test_texts(self) -> None:
        names = [token for token in tokenize("name = name + name\nname('word', 'word')") if token.value]
        self.assertTrue(all(token.string is names[0].string is token.value for token in names[:4]))
        self.assertIs(names[4].value, names[5].value)

    def test_kinds(self) -> None:
        self.assertTrue(all(token.type is Kind(token.type) for token in tokenize(TEXT)))

    def test_places(self) -> None:
        tokens = list(tokenize("f(x)"))
        self.assertTrue(all(after.start is before.end for before, after in zip(tokens, tokens[1:])))


class Lines(unittest.TestCase):
    """The line of a token is that of `tokenize.TokenInfo`: of all lines of the token."""

    SOURCE = 'a = """b\nc\n d""" + """\n""" + (e,\n f)\nb"""x\n"""\ng\n'

    def test_strings_over_lines(self) -> None:
        lines = io.BytesIO(self.SOURCE.encode()).readline
        wanted = [
            (token.string, token.start, token.end, token.line)
            for token in python_tokenize.tokenize(lines)
            if token.type in (python_tokenize.NAME, python_tokenize.OP, python_tokenize.STRING)
        ]
        layout = (Kind.NEWLINE, Kind.INDENT, Kind.DEDENT)
        found = [token for token in tokenize(self.SOURCE) if token.type not in layout]
        self.assertEqual([(token.string, token.start, token.end, token.line) for token in found], wanted)

    def test_each_stored_text(self) -> None:
        for source in texts_of("texts") + texts_of("recovered"):
            lines = source.splitlines(keepends=True) if b"\r" not in source else source.split(b"\n")
            if b"\r" in source or b"\x0b" in source or b"\x0c" in source:
                lines = [line + b"\n" for line in source.split(b"\n")]
                lines[-1] = lines[-1][:-1]
            for token in lex_all(source)[0]:
                last = token.end[0] - (token.end[1] == 0 and token.span[1] > token.span[0])
                whole = b"".join(lines[token.start[0] - 1 : last]).decode()
                self.assertEqual(token.line, whole, (source, token))


class LongTexts(unittest.TestCase):
    """Texts that are lexed in several pieces."""

    def check(self, source: bytes) -> None:
        """Compares the tokens with those of the calls that lex the text in another way."""
        tokens, found = lex_all(source)
        columns = lex_columns(source, recover=True)
        self.assertEqual(list(columns.begin), [token.span[0] for token in tokens])
        self.assertEqual(columns.faults, tuple(found))
        self.assertTrue(list(tokenize(source, recover=True)) == tokens)
        before = [token for token in tokens if not found or token.span[1] <= found[0].span[0]]
        self.assertTrue(lex(source)[0][: len(before)] == before[: len(lex(source)[0])])

    def test_pieces_are_the_texts(self) -> None:
        line = "name = ['é', 1.5, \"\"\"a\nb\"\"\"]  # two\n"
        one, _ = lex(line)
        tokens, fault = lex(line * 5000)
        self.assertIsNone(fault)
        self.assertEqual(len(tokens), 5000 * (len(one) - 1) + 1)
        for number in (0, 1, 777, 4999):
            for index, token in enumerate(one[:-1]):
                found = tokens[number * (len(one) - 1) + index]
                self.assertEqual((found.type, found.string, found.value), (token.type, token.string, token.value))
                self.assertEqual(found.start, (token.start[0] + 2 * number, token.start[1]))
                self.assertEqual(found.span[0], token.span[0] + len(line) * number)

    def test_texts_without_a_cut(self) -> None:
        for source in ("[" + "a, 'é',\n" * 30000 + "]", "def f():\n    pass\n" * 9000, "x" * 300000, "'" + "é" * 90000):
            self.check(source.encode())

    def test_faults_of_a_long_text(self) -> None:
        front, back = b"x = 1\n" * 9000, b"y = [2,\n]\n" * 9000
        for fault in (b"!\n", b"'\n", b'"""\n', b"if x:\n\ty\n", b"  z\n", b"f'{x\n", b"01 class\n" * 500):
            self.check(front + fault + back)
        self.assertEqual(len(faults(front + b"!\n" + back + b"01\n")), 2)


class ColumnsOfTexts(unittest.TestCase):
    """Columns say what the tokens do."""

    def check(self, source: Union[str, bytes]) -> None:
        """Compares the columns of a text with its tokens."""
        tokens, found = lex_all(source)
        columns = lex_columns(source, recover=True)
        self.assertEqual(len(columns), len(tokens))
        self.assertEqual(list(columns.kind), [token.type for token in tokens])
        self.assertEqual(list(zip(columns.begin, columns.end)), [token.span for token in tokens])
        self.assertEqual([columns.value(i) for i in range(len(columns))], [token.value for token in tokens])
        self.assertEqual([columns.string(i) for i in range(len(columns))], [token.string for token in tokens])
        parts = (source[begin:end] for begin, end in zip(columns.begin, columns.end))
        strings = [part if isinstance(part, str) else part.decode() for part in parts]
        self.assertEqual(strings, [token.string for token in tokens])
        self.assertEqual(columns.faults, tuple(found))
        before, fault = lex(source)
        first = lex_columns(source)
        self.assertEqual((list(first.kind), first.faults), ([t.type for t in before], (fault,) if fault else ()))

    def test_stored_texts(self) -> None:
        for source in texts_of("texts") + texts_of("recovered"):
            self.check(source)
            self.check(source.decode())

    def test_texts(self) -> None:
        for text in ("", "?", TEXT, "x = 0xFFFFFFFFFF + 7 + b'\\xff' + f'é{x!r}'\n" * 999, "汉" * 9, "'汉' # é"):
            self.check(text)

    def test_buffers(self) -> None:
        columns = lex_columns("é = '汉'")
        for name, form in (("begin", "I"), ("end", "I"), ("kind", "B"), ("value_begin", "I"), ("values", "B")):
            view = getattr(columns, name)
            self.assertIsInstance(view, memoryview)
            self.assertEqual((view.format, view.readonly, view.contiguous), (form, True, True))
        empty = lex_columns("?")
        self.assertEqual((len(empty), len(empty.begin), empty.begin.format), (0, 0, "I"))
        self.assertEqual(array("I", columns.begin.tobytes()).tolist(), list(columns.begin))

    @unittest.skipUnless(find_spec("numpy"), "numpy isn't installed")
    def test_numpy(self) -> None:
        import numpy

        columns = lex_columns(TEXT)
        begin, kind = numpy.frombuffer(columns.begin, "u4"), numpy.frombuffer(columns.kind, "u1")
        names = [token.span[0] for token in tokenize(TEXT) if token.type == Kind.IDENTIFIER]
        self.assertEqual(begin[kind == Kind.IDENTIFIER].tolist(), names)
        self.assertEqual(numpy.asarray(columns.value_end).dtype, numpy.dtype("u4"))

    def test_numbers_of_tokens(self) -> None:
        columns = lex_columns("x 1")
        self.assertEqual([columns.value(i) for i in (0, 1, -3, -2)], ["x", 1, "x", 1])
        for number in (3, -4, 2**70, -(2**70)):
            with self.assertRaises(IndexError):
                columns.value(number)
            with self.assertRaises(IndexError):
                columns.string(number)
        wrong: Any = "0"
        with self.assertRaises(TypeError):
            columns.value(wrong)

    def test_changed_buffers(self) -> None:
        columns = lex_columns("x 'yz'")
        buffer: Any = columns.value_end.obj
        buffer[:4] = b"\xff" * 4
        with self.assertRaises(IndexError):
            columns.value(0)
        with self.assertRaises(BufferError):
            buffer.clear()

    def test_items(self) -> None:
        for source in texts_of("recovered"):
            items = lex_items(source)
            tokens, found = lex_all(source)
            self.assertEqual([item for item in items if isinstance(item, Token)], tokens)
            self.assertEqual([item for item in items if isinstance(item, Fault)], found)


class Integers(unittest.TestCase):
    """Integers of any length."""

    def test_lengths(self) -> None:
        for digits in (1, 10, 19, 4000, 4001, 4300, 4301, 12345, 20000):
            (decimal,) = (token.value for token in tokenize("7" * digits) if token.type == Kind.INT)
            (hexadecimal,) = (token.value for token in tokenize("0x" + "F" * digits) if token.type == Kind.INT)
            self.assertTrue(decimal == 7 * (10**digits - 1) // 9)
            self.assertTrue(hexadecimal == 16**digits - 1)


class Threads(unittest.TestCase):
    """Calls in threads, and one iterator in several."""

    def in_threads(self, count: int, work: Callable[[], None]) -> None:
        """Runs a function in some threads at once, and raises what one of them raised."""
        errors: List[BaseException] = []

        def run() -> None:
            try:
                work()
            except BaseException as error:
                errors.append(error)

        threads = [threading.Thread(target=run) for _ in range(count)]
        for thread in threads:
            thread.start()
        for thread in threads:
            thread.join()
        self.assertEqual(errors, [])

    def test_calls(self) -> None:
        source = TEXT * 500
        wanted = lex_all(source)
        self.in_threads(8, lambda: self.assertTrue(lex_all(source) == wanted))

    def test_one_iterator(self) -> None:
        source = TEXT * 5000
        wanted = sorted(lex(source)[0], key=lambda token: (token.span, token.type))
        tokens = tokenize(source)
        found: List[Token] = []

        def take() -> None:
            while True:
                try:
                    token = next(tokens, None)
                except ValueError:
                    continue
                if token is None:
                    return
                found.append(token)

        self.in_threads(4, take)
        self.assertTrue(sorted(found, key=lambda token: (token.span, token.type)) == wanted)

    def test_an_iterator_within_itself(self) -> None:
        tokens = tokenize(TEXT * 100)
        said: List[str] = []

        class Loop:
            """Takes a token where it is collected, which may be while one is made."""

            def __init__(self) -> None:
                self.own = self

            def __del__(self) -> None:
                try:
                    next(tokens, None)
                except ValueError as error:
                    said.append(str(error))

        old = gc.get_threshold()
        gc.set_threshold(2)
        try:
            for _ in tokens:
                Loop()
        finally:
            gc.set_threshold(*old)
        if sys.version_info < (3, 12):  # later versions collect only between instructions of Python
            self.assertEqual(set(said), {"the next token is being made already"})


ISOLATED = """
try:
    import _interpreters as interpreters  # from 3.13 on
except ImportError:
    import _xxsubinterpreters as interpreters
own = interpreters.create(*(["isolated"] if hasattr(interpreters, "new_config") else []))
code = "import starlark_lexer; print([token.string for token in starlark_lexer.tokenize('x = 1')], flush=True)"
failed = (getattr(interpreters, "exec", None) or interpreters.run_string)(own, code)
assert not failed, failed
"""


class Interpreters(unittest.TestCase):
    """Interpreters of one process."""

    @unittest.skipIf(sys.version_info < (3, 12), "only later versions have interpreters with their own locks")
    def test_an_interpreter_with_its_own_lock(self) -> None:
        ran = subprocess.run([sys.executable, "-c", ISOLATED], capture_output=True, text=True, check=False)
        self.assertEqual(ran.returncode, 0, ran.stderr)
        self.assertIn("['x', '=', '1', '", ran.stdout)


class Import(unittest.TestCase):
    """What a failed import says."""

    def failed(self, error: str) -> str:
        """The last line of an import of the package, whose extension module ends in an error."""
        code = (
            "import sys\n"
            "class Finder:\n"
            "    def find_spec(self, name, path, target=None):\n"
            f"        if name == 'starlark_lexer.library': raise {error}\n"
            "sys.meta_path.insert(0, Finder())\n"
            "import starlark_lexer\n"
        )
        ran = subprocess.run([sys.executable, "-c", code], capture_output=True, text=True, check=False)
        self.assertEqual(ran.returncode, 1)
        return ran.stderr.splitlines()[-1]

    def test_without_the_module(self) -> None:
        said = self.failed("ModuleNotFoundError('none', name=name)")
        self.assertRegex(said, "^ImportError: starlark_lexer lacks its extension module for this system")

    def test_with_one_that_fails(self) -> None:
        self.assertEqual(self.failed("ImportError('the processor is too old')"), "ImportError: the processor is too old")
        other = self.failed("ModuleNotFoundError('no enum', name='enum')")
        self.assertEqual(other, "ModuleNotFoundError: no enum")


class Package(unittest.TestCase):
    """What the package says of itself."""

    def test_version(self) -> None:
        self.assertEqual(starlark_lexer.__version__, version())

    def test_names(self) -> None:
        for name in starlark_lexer.__all__:
            self.assertTrue(getattr(starlark_lexer, name).__doc__ or name == "Value", name)

    def test_help(self) -> None:
        import inspect

        self.assertEqual(str(inspect.signature(tokenize)), "(source, recover=False)")
        self.assertEqual(list(inspect.signature(lex_columns("x").value).parameters), ["i"])


if __name__ == "__main__":
    unittest.main()
