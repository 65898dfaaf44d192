#!/usr/bin/env python3
"""Asks a lexer of Starlark for the tokens of each case, and says where it differs.

    runner.py [OPTIONS] -- PROGRAM [ARGUMENT..]

--cases FILE      take the cases of a file or of a folder's .jsonl files; .jsonl.gz is read too (the folder cases)
--tag TAG         only cases with this tag; may be given more than once
--without TAG     no cases with this tag; may be given more than once
--name TEXT       only cases whose name has this text
--expect FILE     names of cases that are known to differ, one a line; lines that begin with # are comments
--write-expect FILE  store the names of the cases that differ, for --expect
--junit FILE      store the results as JUnit XML
--show N          print at most so many cases that differ (10)
--seconds N       an answer may take so long (30)

The program reads requests, one a line, and writes answers, one a line; README.md has their form. The exit status is 0
where all is as expected, 1 where a case differs that isn't expected to, or doesn't where it is, and 2 where nothing can
be run.
"""

import argparse
import base64
import gzip
import json
import queue
import subprocess
import sys
import threading
import time
import xml.etree.ElementTree as ElementTree
from pathlib import Path

HERE = Path(__file__).resolve().parent
LAYOUT = ("newline", "indent", "dedent", "comment")
IGNORED = ("comments", "blank_lines", "layout_before_faults")
STATES = ("same", "expected", "differs", "surprise", "error", "skipped")


# -- Cases


def lines_of(path):
    """The lines of a file, perhaps compressed."""
    opened = gzip.open if path.suffix == ".gz" else open
    with opened(path, "rt", encoding="utf-8") as file:
        yield from file


def files_of(path):
    """The files of cases of a folder, or the one that is given."""
    if not path.is_dir():
        return [path]
    return sorted(file for file in path.iterdir() if file.name.endswith((".jsonl", ".jsonl.gz")))


def read_cases(paths):
    """All cases of files and folders."""
    return [json.loads(line) for path in paths for file in files_of(path) for line in lines_of(file)]


def is_chosen(case, options):
    """Whether a case is to be run."""
    tags = set(case["tags"])
    if options.tag and not tags & set(options.tag) or tags & set(options.without):
        return False
    return options.name in case["name"]


def request_of(case):
    """What a program is asked for a case."""
    return {key: case[key] for key in ("text", "base64", "edits", "recovering") if key in case}


def shown_text(case):
    """The text of a case for people, with its edits."""
    text = case.get("text")
    shown = json.dumps(text, ensure_ascii=False) if text is not None else repr(base64.b64decode(case["base64"]))
    edits = "".join(f", bytes {begin} to {end} become {json.dumps(new, ensure_ascii=False)}"
                    for begin, end, new in case.get("edits", []))
    return shown + edits


# -- The program


class Lexer:
    """A program that answers requests; started again after one that it didn't answer."""

    def __init__(self, command, seconds):
        self.command, self.seconds, self.process, self.answers = command, seconds, None, None

    def start(self, requests):
        """Starts the program, which is given all requests, and returns its head."""
        self.process = subprocess.Popen(self.command, stdin=subprocess.PIPE, stdout=subprocess.PIPE)
        self.answers = queue.Queue()
        threading.Thread(target=pass_on, args=(self.process.stdout, self.answers), daemon=True).start()
        threading.Thread(target=write_all, args=(self.process.stdin, requests), daemon=True).start()
        head = self.answer()
        if "lexer" not in head:
            raise ValueError(f"the first line is no head: {head}")
        return head

    def answer(self):
        """The next line of the program, as an object."""
        try:
            line = self.answers.get(timeout=self.seconds)
        except queue.Empty:
            raise ValueError(f"no answer in {self.seconds} seconds") from None
        if not line:
            raise ValueError("the program ended")
        found = json.loads(line)
        if not isinstance(found, dict):
            raise ValueError(f"an answer is no object: {line!r}")
        return found

    def stop(self):
        """Ends the program."""
        if self.process is not None:
            self.process.kill()
            self.process.wait()
        self.process = None


def pass_on(lines, answers):
    """Hands on the lines of a program, and an empty one at their end."""
    for line in lines:
        answers.put(line)
    answers.put(b"")


def write_all(stream, requests):
    """Writes all requests, as far as the program reads them."""
    try:
        for request in requests:
            stream.write(json.dumps(request).encode() + b"\n")
        stream.close()
    except OSError:
        pass


# -- Comparing


def without_blank_lines(tokens):
    """Tokens without the newlines of lines that have no others."""
    kept, has_newline = [], True
    for token in tokens:
        if token[0] == "newline":
            if not has_newline:
                kept.append(token)
            has_newline = True
        else:
            kept.append(token)
            has_newline = has_newline and token[0] in LAYOUT
    return kept


def compared(tokens, faults, ignored):
    """The tokens that are compared."""
    if "comments" in ignored:
        tokens = [token for token in tokens if token[0] != "comment"]
    if "blank_lines" in ignored:
        tokens = without_blank_lines(tokens)
    if "layout_before_faults" in ignored and faults:
        while tokens and tokens[-1][0] in LAYOUT:
            tokens = tokens[:-1]
    return tokens


def same_value(kind, wanted, found):
    """Whether two values are the same; floats are compared as numbers of 64 bits."""
    if kind != "float":
        return wanted == found
    try:
        return float(wanted) == float(found)
    except (TypeError, ValueError):
        return False


def same_item(what, wanted, found):
    """Whether two tokens or two faults are the same as far as both say something; a token's kind is always said."""
    padded = found + [None] * (len(wanted) - len(found))
    if what == "token" and wanted[0] != padded[0]:
        return False
    return len(padded) == len(wanted) and all(
        one is None or other is None or (same_value(wanted[0], one, other) if place == 3 else one == other)
        for place, (one, other) in enumerate(zip(wanted, padded))
    )


def first_difference(what, wanted, found):
    """Words about the first item that differs; none where all are the same."""
    for number, (one, other) in enumerate(zip(wanted, found), 1):
        if not same_item(what, one, other):
            return f"{what} {number} is {shown(other)}, and has to be {shown(one)}"
    if len(wanted) > len(found):
        return f"{what} {len(found) + 1} is missing: {shown(wanted[len(found)])}"
    if len(found) > len(wanted):
        return f"{what} {len(wanted) + 1} is one too many: {shown(found[len(wanted)])}"
    return ""


def shown(item):
    """A token or a fault for people."""
    return json.dumps(item, ensure_ascii=False)


def difference(case, answer, ignored):
    """Words about how an answer differs from a case; none where it doesn't."""
    wanted_faults, found_faults = case.get("faults", []), answer.get("faults", [])
    if bool(wanted_faults) != bool(found_faults):
        if wanted_faults:
            return f"no fault, and has to be {shown(wanted_faults[0])}"
        return f"a fault, {shown(found_faults[0])}, and has to be none"
    wanted, found = case.get("tokens"), answer.get("tokens")
    if found is None and not found_faults:
        return "an answer without fault has no tokens"
    if wanted is not None and found is not None:
        said = first_difference(
            "token", compared(wanted, wanted_faults, ignored), compared(found, found_faults, ignored)
        )
        if said:
            return said
    return first_difference("fault", wanted_faults, found_faults)


# -- Results


class Result:
    """What came of a case."""

    def __init__(self, case, state, said="", seconds=0.0):
        self.case, self.state, self.said, self.seconds = case, state, said, seconds


def result_of(case, answer, head, expected, begun):
    """The result of one case, by its answer or the exception in its place."""
    try:
        if isinstance(answer, Exception):
            raise answer
        said = difference(case, answer, head.get("ignores", []))
        state = "differs" if said else "same"
    except (OSError, ValueError, TypeError, IndexError, KeyError, AttributeError) as error:
        said, state = f"{type(error).__name__}: {error}", "error"
    if case["name"] in expected:
        state, said = ("surprise", "the same, and was expected to differ") if state == "same" else ("expected", said)
    return Result(case, state, said, time.monotonic() - begun)


def checked_head(head):
    """A head, if it ignores nothing else than can be ignored."""
    wrong = [name for name in head.get("ignores", []) if name not in IGNORED]
    if wrong:
        raise ValueError(f"the head ignores {wrong[0]!r}; only {', '.join(IGNORED)} can be")
    return head


def run_all(command, cases, expected=(), seconds=30):
    """The head of a program, and the results of cases, in their order."""
    lexer, results = Lexer(command, seconds), []
    try:
        head = checked_head(lexer.start([]))
        lexer.stop()
        asked = [case for case in cases if not set(case["tags"]) & set(head.get("skips", []))]
        while len(results) < len(asked):
            results += run_on(lexer, asked[len(results):], head, expected)
    finally:
        lexer.stop()
    found = {id(result.case): result for result in results}
    return head, [found.get(id(case)) or Result(case, "skipped") for case in cases]


def run_on(lexer, cases, head, expected):
    """The results of cases up to the first that isn't answered."""
    results, answer = [], None
    lexer.start([request_of(case) for case in cases])
    for case in cases:
        begun = time.monotonic()
        try:
            answer = lexer.answer()
        except (OSError, ValueError) as error:
            answer = error
        results.append(result_of(case, answer, head, expected, begun))
        if isinstance(answer, Exception):
            break
    lexer.stop()
    return results


def read_expected(path):
    """The names of a list of expected differences."""
    lines = Path(path).read_text(encoding="utf-8").split("\n")
    return {line.strip() for line in lines if line.strip() and not line.startswith("#")}


def counts(results):
    """How many results there are of each state."""
    return {state: sum(1 for result in results if result.state == state) for state in STATES}


def by_tag(results):
    """The results of each tag, in the order of the tags' first cases."""
    found = {}
    for result in results:
        for tag in result.case["tags"]:
            found.setdefault(tag, []).append(result)
    return found


def print_report(head, results, show):
    """Prints the cases that differ, and the table by tag."""
    wrong = [result for result in results if result.state in ("differs", "surprise", "error")]
    for result in wrong[:show]:
        print(f"{result.case['name']}\n    {shown_text(result.case)}\n    {result.said}")
    if len(wrong) > show:
        print(f".. and {len(wrong) - show} more; --show prints them")
    row = "{:<14}{:>8}{:>8}{:>10}{:>9}{:>10}{:>8}{:>9}"
    print(row.format("tag", "cases", *STATES))
    for tag, of_tag in [*by_tag(results).items(), ("all", results)]:
        print(row.format(tag, len(of_tag), *counts(of_tag).values()))
    print(f"{head['lexer']}: " + ("differs" if wrong else "as expected"))


def write_junit(path, head, results):
    """Stores the results as JUnit XML: a suite for each file's tag."""
    root = ElementTree.Element("testsuites", name="Starlark's lexers")
    suites = {}
    for result in results:
        tag = result.case["tags"][0]
        if tag not in suites:
            suites[tag] = ElementTree.SubElement(root, "testsuite", name=f"{head['lexer']}: {tag}")
        test = ElementTree.SubElement(
            suites[tag], "testcase", classname=f"starlark.{tag}", name=result.case["name"], time=f"{result.seconds:.4f}"
        )
        text = visible(f"{shown_text(result.case)}\n{result.said}")
        if result.state in ("differs", "surprise"):
            ElementTree.SubElement(test, "failure", message=visible(result.said)).text = text
        elif result.state == "error":
            ElementTree.SubElement(test, "error", message=visible(result.said)).text = text
        elif result.state in ("skipped", "expected"):
            ElementTree.SubElement(test, "skipped", message=visible(result.said or "the lexer skips this tag"))
    for tag, suite in suites.items():
        of_suite = counts([result for result in results if result.case["tags"][0] == tag])
        suite.set("tests", str(sum(of_suite.values())))
        suite.set("failures", str(of_suite["differs"] + of_suite["surprise"]))
        suite.set("errors", str(of_suite["error"]))
        suite.set("skipped", str(of_suite["skipped"] + of_suite["expected"]))
    ElementTree.ElementTree(root).write(path, encoding="utf-8", xml_declaration=True)


def visible(text):
    """A text without the characters that XML hasn't."""
    return "".join(
        c if c in "\t\n" or "\x20" <= c < "\ud800" or "\ue000" <= c and c not in "\ufffe\uffff" else f"\\u{ord(c):04x}"
        for c in text
    )


# -- The call


def parsed():
    """The options, and the command after `--`."""
    parser = argparse.ArgumentParser(usage=__doc__, add_help=True)
    parser.add_argument("--cases", action="append", type=Path)
    parser.add_argument("--tag", action="append", default=[])
    parser.add_argument("--without", action="append", default=[])
    parser.add_argument("--name", default="")
    parser.add_argument("--expect")
    parser.add_argument("--write-expect")
    parser.add_argument("--junit")
    parser.add_argument("--show", type=int, default=10)
    parser.add_argument("--seconds", type=float, default=30)
    arguments = sys.argv[1:]
    cut = arguments.index("--") if "--" in arguments else len(arguments)
    options, command = parser.parse_args(arguments[:cut]), arguments[cut + 1:]
    if not command:
        parser.error("the program is missing: runner.py [OPTIONS] -- PROGRAM [ARGUMENT..]")
    return options, command


def main():
    options, command = parsed()
    try:
        cases = [case for case in read_cases(options.cases or [HERE / "cases"]) if is_chosen(case, options)]
        expected = read_expected(options.expect) if options.expect else set()
        head, results = run_all(command, cases, expected, options.seconds)
    except (OSError, ValueError) as error:
        print(f"runner.py: {error}", file=sys.stderr)
        return 2
    print_report(head, results, options.show)
    if options.junit:
        write_junit(options.junit, head, results)
    if options.write_expect:
        names = [result.case["name"] + "\n" for result in results if result.state in ("differs", "error", "expected")]
        Path(options.write_expect).write_text("".join(names), encoding="utf-8")
    return 1 if any(result.state in ("differs", "surprise", "error") for result in results) else 0


if __name__ == "__main__":
    sys.exit(main())
