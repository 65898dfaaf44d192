#!/usr/bin/env python3
"""Refuses each allocation of the built programs in turn, and compares what they return.

One run has one allocation refused: the first, then the second, and so on, until a run has no such allocation.
`starlark_rows` gets stored rows of calls, one row a run, texts after edits, and edits of documents; `starlark_lex` gets texts,
and `starlark_tokens` texts and files in each form. For each run one of these has to hold:

- the answer is that of a run with no allocation refused;
- the answer is out of memory. A row of the group `refusals` answers that only where the refused call left things as
  they were, and a row of lexemes prints those before it, which have to be a beginning of all of them. What
  `starlark_lex` has printed, and `starlark_rows` for a text after edits, has to be a beginning of all its lines. `starlark_tokens`
  ends with status 2 then, and leaves out at most the file for whose text there was no memory. A document whose edit runs
  out of memory is as it was before.

With no allocation refused a row has the answer that is stored, a text after edits prints what the plain lexer does,
and no run runs out of memory. Two texts of many words are joined with few allocations, and a text of many words is edited at its
end with few more than it has words, so that no word is lexed again.

    scripts/oracles/refused_memory.py [--rows N]    tries N rows of each call that doesn't allocate itself (1)

It needs a C compiler (`CC`, `cc`, `gcc` or `clang`) and the GNU C library: refusing_allocator.c is loaded into the programs.
Programs that aren't built, or are older than a source, are proved and built first. The exit status is 0 where every run
was as it has to be, 2 where there is no C compiler, and else 1: where a run was not as it has to be, a program can't be built, or
nothing was refused. A line says which.
"""

import argparse
import os
import re
import shutil
import subprocess
import sys
import tempfile
from collections import Counter
from concurrent.futures import ThreadPoolExecutor
from itertools import product
from pathlib import Path

sys.path.append(f"{sys.path[0]}/..")  # where shared/ lies
from shared.expected_runs import runs_of
from shared.programs import TOP, built, give_up
from shared.stored import Edit, edited_record, list_of, parts_of, read_part

OUT_OF_MEMORY = b"out of memory"
OUT_OF_MEMORY_OF_AN_EDIT = b"out of memory, same\n"
MOST_ALLOCATIONS = 100_000
NO_COMPILER = 2

# The groups of rows whose calls take memory themselves. Of the others a few rows are tried, which take it only to be
# read and answered.
WHOLE_GROUPS = {b"errors", b"files", b"refusals", b"words"}

# A call that lexes thousands of texts, with too many allocations to refuse each.
LEFT_OUT = {(b"lexed_text", b"each_byte")}

# A text of words as a row has it, and how many allocations a join may make, or a run beside one for each word.
WORD_COUNT = 200
MANY_WORDS = b"word\\n" * WORD_COUNT
MOST_FOR_JOIN = 20
MOST_BESIDE_WORDS = 100

TEXTS = [
    b"",
    b"def f\n",
    b'\ndef test(a):\n  fail(a)\n\ntest("abc")\n',
    b"if x:\n    y\n  z\n",
    b"x = 01",
    b'f"{x!r}"',
    b'f"{x !r}"',
    b'f"{x',
    b'f"{(}{x}"',
    b"f'{\"a",
    'f"a\\xé"'.encode(),
    b"# c\nx = 'a\\n' + 12345678901234567890\n",
    b"f\"{f'{f\"{x}\"}'}\"",
    b"if a:\n" + b"".join(b" " * n + b"if b:\n" for n in range(1, 40)),
    b"name_of_some_length = 'text' # comment\n" * 600,
    b"\xff",
]

EDITED = [
    edited_record([Edit(2, 3, b"z"), Edit(0, 1, b"a")], b"x\ny\n"),
    edited_record([Edit(4, 4, b"f\"{a!r}\" + 'b'"), Edit(0, 4, b"\ty")], b"x\ny\n"),
    edited_record([Edit(1, 2, b"")], "é".encode()),
]


TOKEN_TEXTS = [
    b"",
    b"def f(a):\n\treturn 0x1f\n",
    b"if x:\n    y = 'a\\n'\n  z = 01  # c\n",
    'f"a{x!r}b" + b"\xff" + 12345678901234567890 "é\n!\n'.encode(),
]
TOKEN_OPTIONS = [
    [], ["--json"], ["--check"], ["--check", "--json"], ["--check", "--quiet"], ["--format", "github"], ["--format", "sarif"],
]
TOKEN_FILES = [b"x = 'a'\ny = 01\n", b"!\n"]

# A name of no file, by which a text is reported, and why it can't be read.
LOST_NAME = "/missing/file"
LOST_REASON = b"No such file or directory (os error 2)"


# A document, and an edit of it: in a line, over lines, one that opens a literal, and one that makes many segments.
DOCUMENT_EDITS = [
    (b"x = 1\ny = 2\nz = 3\n", b"edit 6 7 3\nabc\n"),
    (b"x = 1\ny = 2\nz = 3\n", b"edit 3 13 4\n = $\n"),
    (b"x = 1\n" * 12, b'edit 6 6 3\n"""\n'),
    (b"x = 1\n" * 3, b"edit 6 6 32\n" + b"y = 'a'\n" * 4 + b"\n"),
]


class Run:
    """What a program answered with one allocation refused, and how many allocations it made."""

    def __init__(self, program, allocator, stdin, refused, arguments=()):
        count, write_end = os.pipe()
        environment = {
            "LD_PRELOAD": str(allocator),
            "REFUSED_ALLOCATION": str(refused),
            "COUNT_DESCRIPTOR": str(write_end),
        }
        ran = subprocess.run(
            [program, *arguments], input=stdin, capture_output=True, env=environment, pass_fds=[write_end], timeout=60
        )
        os.close(write_end)
        self.status, self.output, self.message = ran.returncode, ran.stdout, ran.stderr
        self.allocations = int(os.read(count, 100) or -1)
        os.close(count)


def is_all_or_nothing(run, whole):
    """Whether a run answered as with ample memory, or ran out of memory and printed nothing."""
    if run.status == 0 and run.output == whole:
        return True
    return run.status == 1 and run.output == b"" and b"OutOfMemory" in run.message


def is_row_kept(run, whole, row):
    """Whether a run of one row answered as with ample memory, or out of memory."""
    if is_all_or_nothing(run, whole):
        return True
    if row.startswith((b"refusals\tlexemes\t", b"words\tlexemes")) and run.status == 0:
        front = run.output.removesuffix(OUT_OF_MEMORY + b"\n")
        return front != run.output and whole.startswith(front)
    return False


def is_edited_kept(run, whole):
    """Whether a run over a text after edits printed all, or a beginning after out of memory."""
    if is_all_or_nothing(run, whole):
        return True
    number, _, _ = whole.partition(b": ")
    _, _, lines = whole.partition(b"\n")
    front = number + b": " + OUT_OF_MEMORY + b"\n"
    return run.status == 0 and run.output.startswith(front) and lines.startswith(run.output.removeprefix(front))


def is_text_kept(run, whole):
    """Whether a run over a text printed all, or a beginning and that it runs out of memory; nothing where memory ran out
    for the arguments."""
    if run.status == whole.status and run.output == whole.output and run.message == whole.message:
        return True
    if run.status != 2 or not whole.output.startswith(run.output):
        return False
    return OUT_OF_MEMORY in run.message or (run.output == b"" and run.message.startswith(b"usage: "))


def is_report_kept(run, whole, others):
    """Whether a run of starlark_tokens printed all, or said that memory ran out and printed a beginning: of all, or of what
    others have printed, without some file. Memory may also run out for the line that counts."""
    if (run.status, run.output, run.message) == (whole.status, whole.output, whole.message):
        return True
    if OUT_OF_MEMORY not in run.message:
        return False
    if (run.status, run.output) == (whole.status, whole.output):
        return True
    return run.status == 2 and any(printed.startswith(run.output) for printed in (whole.output, *others))


def is_document_kept(run, whole):
    """Whether a run over an edit of a document printed all, or a beginning and that it runs out of memory, or that the edit ran out
    of memory and the document is as before."""
    if run.status == 1:
        return b"OutOfMemory" in run.message and whole.startswith(run.output)
    if run.output == whole:
        return run.status == 0
    made, shown, _, _ = document_parts(whole)
    return run.status == 0 and document_parts(run.output) == [made, shown, OUT_OF_MEMORY_OF_AN_EDIT, shown]


def compiler():
    """The C compiler that is there."""
    for name in [os.environ.get("CC"), "cc", "gcc", "clang"]:
        if name and shutil.which(name):
            return name
    give_up("nothing was tried: there is no C compiler, as cc, gcc or clang, for refusing_allocator.c", NO_COMPILER)


def built_allocator(folder):
    """The library that refuses allocations, built in a folder."""
    allocator = Path(folder) / "refusing_allocator.so"
    source = Path(__file__).with_name("refusing_allocator.c")
    made = subprocess.run([compiler(), "-O1", "-shared", "-fPIC", "-o", allocator, source], capture_output=True, check=False)
    if made.returncode != 0:
        give_up(f"nothing was tried: refusing_allocator.c isn't compiled: {made.stderr.decode(errors='replace')}")
    return allocator


def tried_rows(most):
    """The rows to try with their stored answers: whole groups, and a few rows of each call of the others."""
    rows = read_part("stdin", "calls").splitlines()
    answers = read_part("stdout", "calls").splitlines()
    seen = Counter()
    for row, answer in zip(rows, answers, strict=True):
        call = tuple(row.split(b"\t")[:2])
        seen[call] += 1
        if call not in LEFT_OUT and (call[0] in WHOLE_GROUPS or seen[call] <= most):
            yield row, answer + b"\n"


class Tries:
    """Runs of a program over one input, with each of its allocations refused in turn, and what was found."""

    def __init__(self, allocator, program, stdin, arguments=()):
        self.allocator, self.program, self.stdin, self.arguments = allocator, program, stdin, arguments
        self.runs = self.refused = 0
        self.wrong = []

    def run(self, number):
        return Run(self.program, self.allocator, self.stdin, number, self.arguments)

    def report(self, number, run):
        self.wrong.append(
            f"{[*self.arguments]} {self.stdin[:200]!r}, allocation {number} refused: status {run.status}, "
            f"printed {run.output[-200:]!r}, {run.message!r}"
        )

    def each_allocation(self, whole, is_kept):
        """Refuses the allocations of a run one after another, up to a run that has no such allocation."""
        for number in range(1, MOST_ALLOCATIONS):
            run = self.run(number)
            self.runs += 1
            self.refused += (run.status, run.output) != (whole.status, whole.output)
            if not is_kept(run):
                self.report(number, run)
            if run.allocations < number:
                if run.allocations < 1:
                    self.report(number, run)
                return
        self.wrong.append(f"{self.stdin[:200]!r}: more than {MOST_ALLOCATIONS} allocations")


class PartTries(Tries):
    """Tries of `starlark_rows` over one part, of which a run has what is printed for the part."""

    def __init__(self, allocator, program, name, part):
        super().__init__(allocator, program, list_of({name: part}))
        self.name = name

    def run(self, number):
        run = super().run(number)
        run.output = parts_of(run.output).get(self.name, b"")
        return run


def tried_answer(tries, answer, is_kept):
    """An input with each of the program's allocations refused in turn. With none refused it has to have its answer."""
    whole = tries.run(0)
    if whole.status != 0 or whole.output != answer:
        tries.report(0, whole)
    tries.each_allocation(whole, is_kept)
    return tries


def tried_row(allocator, program, row, answer):
    """A row with each of its allocations refused in turn."""
    tries = PartTries(allocator, program, "calls", row + b"\n")
    return tried_answer(tries, answer, lambda run: is_row_kept(run, answer, row))


def tried_edited(allocator, program, stored):
    """A text after edits with each of the program's allocations refused in turn."""
    [(_, lines)] = runs_of(stored)
    tries = PartTries(allocator, program, "texts", stored)
    return tried_answer(tries, lines, lambda run: is_edited_kept(run, lines))


def document_parts(output):
    """What the commands on a document returned."""
    return [part.partition(b" ")[2] for part in re.split(rb"(?m)^(?=[1-4] )", output)[1:]]


def tried_document(allocator, program, text, edit):
    """An edit of a document with each of the program's allocations refused in turn."""
    commands = f"new 1 {len(text)}\n".encode() + text + b"\nshow\n" + edit + b"show\n"
    tries = PartTries(allocator, program, "documents", commands)
    answer = tries.run(0).output
    return tried_answer(tries, answer, lambda run: is_document_kept(run, answer))


def allocations_of_join(allocator, program, last):
    """The run of a row that joins two texts of many words, with `last` at the end of the second."""
    row = b"lexed_text\tjoin_reads\t" + MANY_WORDS + b"\t" + MANY_WORDS + last + b"\n"
    tries = PartTries(allocator, program, "calls", row)
    run = tries.run(0)
    tries.runs = 1
    return tries, run


def tried_join(allocator, program):
    """Two texts of many words that are joined, compared with two that aren't, since the second has a
    fault. A join makes few allocations. If it lexed the words again, each would make one."""
    tries, joined = allocations_of_join(allocator, program, b"")
    _, apart = allocations_of_join(allocator, program, b"$")
    for run, answer in [(joined, b"0\n"), (apart, b"not joined\n")]:
        if run.output != answer or run.allocations < 1:
            tries.report(0, run)
    if joined.allocations > apart.allocations + MOST_FOR_JOIN:
        tries.wrong.append(f"a join made {joined.allocations} allocations, and the run without it {apart.allocations}")
    return tries


def tried_last_edit(allocator, program):
    """A text of many words with an edit at its end. Each word makes an allocation. If what was lexed last weren't what is
    printed, but lexed again, each word would make another one."""
    text = b"word\n" * WORD_COUNT
    tries = PartTries(allocator, program, "texts", edited_record([Edit(len(text), len(text), b"x")], text))
    run = tries.run(0)
    tries.runs = 1
    if run.output.count(b"\n") < WORD_COUNT or not WORD_COUNT <= run.allocations <= WORD_COUNT + MOST_BESIDE_WORDS:
        tries.wrong.append(f"a text of {WORD_COUNT} words was edited with {run.allocations} allocations: {run.output[-200:]!r}")
    return tries


def tried_text(allocator, program, text):
    """A text with each of the program's allocations refused in turn. With none refused memory may not run out."""
    tries = Tries(allocator, program, text)
    whole = tries.run(0)
    if OUT_OF_MEMORY in whole.message or whole.status not in (0, 1, 2):
        tries.report(0, whole)
    tries.each_allocation(whole, lambda run: is_text_kept(run, whole))
    return tries


def printed_for_lost(allocator, program, arguments):
    """What a run prints for files of which some are missing, as if memory had run out for those."""
    return Run(program, allocator, b"", 0, arguments).output.replace(LOST_REASON, OUT_OF_MEMORY)


def tried_report(allocator, program, options, text):
    """A report of a text with each of the program's allocations refused in turn. With none refused memory may not run out."""
    tries = Tries(allocator, program, text, [*options, "--stdin-filename", LOST_NAME])
    whole = tries.run(0)
    if OUT_OF_MEMORY in whole.message or whole.status not in (0, 1):
        tries.report(0, whole)
    lost = printed_for_lost(allocator, program, [*options, LOST_NAME])
    tries.each_allocation(whole, lambda run: is_report_kept(run, whole, [lost]))
    return tries


def tried_files(allocator, program, options, paths):
    """Two files with each of the program's allocations refused in turn. Where there is no memory for the first one, the other
    one is still reported, as where the first one is missing."""
    tries = Tries(allocator, program, b"", [*options, *paths])
    whole = tries.run(0)
    if OUT_OF_MEMORY in whole.message or whole.status != 1:
        tries.report(0, whole)
    lost = [printed_for_lost(allocator, program, [*options, *names]) for names in product(*([f"{path}.missing", path] for path in paths))]
    others = [printed.replace(b".missing", b"") for printed in lost]
    tries.each_allocation(whole, lambda run: is_report_kept(run, whole, others))
    return tries


def started_reports(pool, allocator, program, folder):
    """The tries of starlark_tokens: each text in each form, and two files in each form."""
    paths = [folder / f"{number}.star" for number in range(len(TOKEN_FILES))]
    for path, text in zip(paths, TOKEN_FILES):
        path.write_bytes(text)
    for options in TOKEN_OPTIONS:
        for text in TOKEN_TEXTS:
            yield pool.submit(tried_report, allocator, program, options, text)
        yield pool.submit(tried_files, allocator, program, options, paths)


def main():
    arguments = argparse.ArgumentParser(description=__doc__.splitlines()[0])
    arguments.add_argument("--rows", type=int, default=1, metavar="N")
    most = arguments.parse_args().rows
    compiler()
    rows, lex, tokens = (built(f"starlark_{name}") for name in ("rows", "lex", "tokens"))
    with tempfile.TemporaryDirectory() as folder, ThreadPoolExecutor(os.cpu_count()) as pool:
        allocator = built_allocator(folder)
        started = [pool.submit(tried_row, allocator, rows, row, answer) for row, answer in tried_rows(most)]
        started += [pool.submit(one, allocator, rows) for one in (tried_join, tried_last_edit)]
        started += [pool.submit(tried_edited, allocator, rows, stored) for stored in EDITED]
        started += [pool.submit(tried_text, allocator, lex, text) for text in TEXTS]
        started += started_reports(pool, allocator, tokens, Path(folder))
        started += [pool.submit(tried_document, allocator, rows, text, edit) for text, edit in DOCUMENT_EDITS]
        tried = [it.result() for it in started]
    wrong = [line for tries in tried for line in tries.wrong]
    for line in wrong:
        print(line)
    runs, refused = sum(tries.runs for tries in tried), sum(tries.refused for tries in tried)
    print(f"{len(tried)} inputs, {runs} runs, {refused} of them ended otherwise than with ample memory, {len(wrong)} wrong")
    if not refused:
        give_up("no allocation was refused: the programs don't use the C library's allocator")
    return 1 if wrong else 0


if __name__ == "__main__":
    sys.exit(main())
