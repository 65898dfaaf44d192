"""Tests of `python -m starlark_lexer` as a program of its own."""

from __future__ import annotations

import json
import os
import subprocess
import sys
import unittest
from pathlib import Path
from tempfile import TemporaryDirectory
from typing import Any, Dict, List, Optional
from unittest import mock

from starlark_lexer import __main__ as program
from starlark_lexer import __version__
from test_lexer import in_repository, stored_texts

Run = subprocess.CompletedProcess
DATA = "crates/starlark_tokens/data"
HEAD = b'{"format":"starlark_lexemes","version":1,"proved":true}\n'


def run(*words: Any, source: Optional[bytes] = b"", encoding: Optional[str] = None, **options: Any) -> Run[bytes]:
    """Runs the program, perhaps in a terminal of some encoding."""
    environment: Dict[str, str] = {**os.environ, **({"PYTHONIOENCODING": encoding} if encoding else {})}
    command: List[Any] = [sys.executable, "-m", "starlark_lexer", *words]
    options = {"stdout": subprocess.PIPE, "stderr": subprocess.PIPE, **options}
    return subprocess.run(command, input=source, env=environment, check=False, **options)


class Files(unittest.TestCase):
    """What is read."""

    def setUp(self) -> None:
        folder = TemporaryDirectory()
        self.addCleanup(folder.cleanup)
        self.folder = Path(folder.name)
        self.good, self.bad = self.folder / "good", self.folder / "bad"
        self.good.write_bytes(b"x\n")
        self.bad.write_bytes(b"y !\n")

    def test_standard_input(self) -> None:
        for words in ((), ("-",), ("--", "-")):
            done = run(*words, source=b"x !")
            self.assertEqual((done.returncode, done.stderr), (1, b"<stdin>:1:3: Parse error: invalid input `!`\n"))
            self.assertTrue(done.stdout.startswith(b"1,0-1,1:            IDENTIFIER     'x'\n"))

    def test_several_files(self) -> None:
        done = run(self.good, "-", self.bad, source=b"z")
        names = [line.partition(b":")[0].decode() for line in done.stdout.splitlines()]
        self.assertEqual(names, [str(self.good)] * 3 + ["<stdin>"] * 2 + [str(self.bad)] * 3)
        self.assertEqual((done.returncode, done.stderr.count(b"\n")), (1, 1))

    def test_a_file_that_is_missing(self) -> None:
        for missing in (self.folder / "none", self.folder, os.fsencode(self.folder) + b"/\xff"):
            for form in ((), ("--json",), ("--html",)):
                done = run(*form, missing, self.bad)
                self.assertEqual((done.returncode, done.stderr.count(b"\n")), (2, 2), done.stderr)
                self.assertIn(b"y", done.stdout)

    def test_no_text(self) -> None:
        self.good.write_bytes(b"\xff")
        done = run(self.good)
        self.assertEqual((done.returncode, done.stdout), (2, b""))
        self.assertIn(os.fsencode(self.good), done.stderr)
        self.assertEqual(run("-", stdin=None, source=None, preexec_fn=lambda: os.close(0)).returncode, 2)

    def test_words(self) -> None:
        self.assertEqual(run("--version").stdout, f"starlark_lexer {__version__}\n".encode())
        self.assertEqual(run("--help").returncode, 0)
        for words in (("--jsn",), ("--json", "--html")):
            self.assertEqual(run(*words).returncode, 2)

    def test_a_page_of_several_files(self) -> None:
        page = run("--html", self.bad, self.good, self.bad).stdout.decode()
        self.assertEqual(page.count("<h1>"), 3)
        for anchor in ("line-1", "file-3-line-1"):
            self.assertEqual((page.count(f'id="{anchor}"'), page.count(f'href="#{anchor}"')), (1, 1))


class Output(unittest.TestCase):
    """Where it is written."""

    SOURCE = "x = 'é汉🔬' # ü\n".encode()

    def test_encodings(self) -> None:
        page, lines = run("--html", source=self.SOURCE).stdout, run("--json", source=self.SOURCE).stdout
        self.assertIn("é汉🔬".encode(), page)
        for encoding in ("ascii", "latin-1", "utf-16", "cp1252"):
            self.assertEqual(run("--html", source=self.SOURCE, encoding=encoding).stdout, page)
            self.assertEqual(run("--json", source=self.SOURCE, encoding=encoding).stdout, lines)
            done = run(source=self.SOURCE, encoding=encoding)
            self.assertEqual((done.returncode, done.stderr), (0, b""))
            self.assertIn("STRING", done.stdout.decode(encoding))

    def test_closed_pipe(self) -> None:
        forms: List[List[str]] = [[], ["--json"], ["--html"]]
        for form in forms:
            command = [sys.executable, "-m", "starlark_lexer", *form, str(in_repository(f"{DATA}/faults.bzl")), __file__]
            with subprocess.Popen(command, stdout=subprocess.PIPE, stderr=subprocess.PIPE) as running:
                assert running.stdout and running.stderr
                running.stdout.close()
                said = running.stderr.read()
            self.assertEqual(running.returncode, 141)
            self.assertNotIn(b"Broken", said)
            self.assertNotIn(b"Exception", said)

    def test_full_disk(self) -> None:
        with open("/dev/full", "wb") as full:
            done = run(source=b"x", stdout=full)
        self.assertEqual(done.returncode, 2)
        self.assertIn(b"No space left", done.stderr)
        self.assertEqual(done.stderr.count(b"\n"), 1)

    def test_closed_output(self) -> None:
        done = run("/dev/null", stdin=subprocess.DEVNULL, source=None, preexec_fn=lambda: os.close(1))
        self.assertEqual((done.returncode, done.stderr.count(b"\n")), (2, 1))

    def test_memory(self) -> None:
        with mock.patch.object(program, "lex_items", side_effect=MemoryError), mock.patch.object(program, "_drop_output"):
            self.assertEqual(program.main(["/dev/null"]), 2)


class Json(unittest.TestCase):
    """The JSON is that of the program `starlark_tokens`."""

    def compare(self, *names: Any, source: bytes = b"") -> None:
        """Compares what both print of the same files, but for whether they were proved."""
        done = run("--json", *names, source=source)
        wanted = subprocess.run(
            [in_repository("starlark_tokens"), "--json", "--quiet", *names], input=source, capture_output=True, check=False
        )
        self.assertEqual(done.stdout.partition(b"\n")[2], wanted.stdout.partition(b"\n")[2])
        self.assertTrue(done.stdout.startswith(HEAD))
        self.assertEqual(done.returncode, wanted.returncode)

    def test_files(self) -> None:
        names = sorted(path for path in in_repository(DATA).iterdir() if path.is_file())
        self.compare(*names)
        self.compare(names[0], "/no/such/file", names[1])

    def test_stored_texts(self) -> None:
        texts = [source for part in ("texts", "recovered") for _, task, source in stored_texts(part) if not task]
        with TemporaryDirectory() as folder:
            names = [Path(folder, f'{number} é"\\\t') for number in range(len(texts))]
            for name, source in zip(names, texts):
                name.write_bytes(source)
            self.compare(*names)

    def test_standard_input(self) -> None:
        integers = ("9007199254740991", "9007199254740992", "0XFFFFFFFFFF", "0x" + "fE" * 999, "0o7" * 1 + "7" * 30)
        source = f"{' '.join(integers)} 0b{'1' * 60} {'9' * 9999} f'''é{{x!r}}🔬''' b'\\xff' \"\\b\\f\\0\x7f\" 1.5e3 # é\n"
        self.compare(source=source.encode())
        self.compare("-", source=b"'\xe2\x80\xa8\x01' !\n01\n")

    def test_each_line(self) -> None:
        printed = run("--json", source=b"x 01\n").stdout.decode().splitlines()
        self.assertEqual(
            printed[1:],
            [
                '{"file":"<stdin>","kind":"Identifier","begin":0,"end":1,"line":1,"column":1,"end_line":1,'
                '"end_column":2,"utf16_column":1,"value":"x"}',
                '{"file":"<stdin>","kind":"Fault","begin":2,"end":4,"line":1,"column":3,"end_line":1,'
                '"end_column":5,"utf16_column":3,"value":"integer cannot have leading 0, got `01`",'
                '"code":"SL008","help":"write 0o in front of an octal number, or leave the zeros out"}',
                '{"file":"<stdin>","kind":"Int","begin":2,"end":4,"line":1,"column":3,"end_line":1,'
                '"end_column":5,"utf16_column":3,"value":1}',
                '{"file":"<stdin>","kind":"Newline","begin":4,"end":5,"line":1,"column":5,"end_line":2,'
                '"end_column":1,"utf16_column":5,"value":null}',
                '{"file":"<stdin>","kind":"Newline","begin":5,"end":5,"line":2,"column":1,"end_line":2,'
                '"end_column":1,"utf16_column":1,"value":null}',
                '{"kind":"Summary","files":1,"faulty_files":1,"faults":1,"unreadable":0}',
            ],
        )
        for line in printed:
            json.loads(line)


if __name__ == "__main__":
    unittest.main()
