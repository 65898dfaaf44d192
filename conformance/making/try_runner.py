#!/usr/bin/env python3
"""Tries runner.py with small lexers: right and wrong ones, one that ends, one that is silent, and expected differences.

The exit status is 1 where the runner doesn't say what it has to.
"""

import concurrent.futures
import json
import os
import subprocess
import sys
import tempfile
import xml.etree.ElementTree as ElementTree
from pathlib import Path

SUITE = Path(__file__).resolve().parent.parent
sys.path.append(str(SUITE))

from runner import files_of, read_cases, request_of  # noqa: E402

RIGHT = [
    {"tokens": [["name", 0, 1, "x"], ["newline", 1, 1]], "faults": []},
    {"tokens": [["comment", 0, 3, " c"], ["newline", 3, 3]], "faults": []},
    {"tokens": [["float", 0, 3, "1e2"], ["newline", 3, 3]], "faults": []},
    {"tokens": [["name", 0, 1, "x"]], "faults": [["invalid_input", 2, 3]]},
]
TEXTS = {"a name": "x", "a comment": "# c", "a float": "1e2", "a fault": "x $"}
TAGS = [["words"], ["words", "comments"], ["numbers"], ["words", "faults"]]
CASES = [
    {"name": name, "tags": tags, "text": text, **answer} for (name, text), tags, answer in zip(TEXTS.items(), TAGS, RIGHT)
]
NEWLINE = ["newline", 1, 1]


def changed(number, **fields):
    """The right answers, but for one."""
    return [{**answer, **fields} if place == number else answer for place, answer in enumerate(RIGHT)]


def lexer(answers, head=None, more=""):
    """A program that gives these answers to the texts of the cases."""
    by_text = {case["text"]: answer for case, answer in zip(CASES, answers)}
    return (
        f"import json, os, sys, time\nprint({json.dumps({'lexer': 'small', **(head or {})})!r}, flush=True)\n"
        f"known = {by_text!r}\n"
        f"for line in sys.stdin:\n    text = json.loads(line)['text']\n    {more or 'pass'}\n"
        "    print(json.dumps(known[text]), flush=True)\n"
    )


COMMENT = [{**RIGHT[1], "tokens": [["newline", None, None]]}]
FAULT_ONLY = {"tokens": None, "faults": [[None, None, None]]}
TRIALS = [  # what is tried, the lexer, options, the status, and what the runner has to say
    ("right answers", lexer(RIGHT), [], 0, "small: as expected"),
    ("a wrong kind", lexer(changed(0, tokens=[["x", 0, 1, "x"], NEWLINE])), [], 1, 'token 1 is ["x"'),
    ("a kind that isn't said", lexer(changed(0, tokens=[[None, 0, 1, "x"], NEWLINE])), [], 1, "token 1 is [null"),
    ("a wrong span", lexer(changed(0, tokens=[["name", 0, 2, "x"], NEWLINE])), [], 1, "token 1 is"),
    ("a wrong value", lexer(changed(0, tokens=[["name", 0, 1, "y"], NEWLINE])), [], 1, "token 1 is"),
    ("a missing token", lexer(changed(0, tokens=[["name", 0, 1, "x"]])), [], 1, "token 2 is missing"),
    ("a token too many", lexer(changed(0, tokens=[*RIGHT[0]["tokens"], ["dedent", 1, 1]])), [], 1, "one too many"),
    ("a span that isn't said", lexer(changed(0, tokens=[["name", None, None, "x"], NEWLINE])), [], 0, "as expected"),
    ("no tokens", lexer(changed(0, tokens=None)), [], 1, "has no tokens"),
    ("a float that is written otherwise", lexer(changed(2, tokens=[["float", 0, 3, "100.0"], ["newline", 3, 3]])), [], 0,
     "as expected"),
    ("another float", lexer(changed(2, tokens=[["float", 0, 3, "100.1"], ["newline", 3, 3]])), [], 1, "token 1 is"),
    ("a fault of which nothing is said", lexer(changed(3, **FAULT_ONLY)), [], 0, "as expected"),
    ("another fault", lexer(changed(3, faults=[["invalid_tab", 2, 3]])), [], 1, "fault 1 is"),
    ("no fault", lexer(changed(3, faults=[])), [], 1, "no fault"),
    ("a fault too many", lexer(changed(0, faults=[["invalid_input", 0, 1]])), [], 1, "has to be none"),
    ("comments that are ignored", lexer(RIGHT[:1] + COMMENT + RIGHT[2:], {"ignores": ["comments"]}), [], 0, "as expected"),
    ("comments that aren't ignored", lexer(RIGHT[:1] + COMMENT + RIGHT[2:]), [], 1, "token 1 is"),
    ("a tag that is skipped", lexer(changed(2, tokens=[]), {"skips": ["numbers"]}), [], 0, "as expected"),
    ("what can't be ignored", lexer(RIGHT, {"ignores": ["names"]}), [], 2, "ignores 'names'"),
    ("a lexer that ends", lexer(RIGHT, more="text == '1e2' and os._exit(1)"), [], 1, "the program ended"),
    ("a silent lexer", lexer(RIGHT, more="text == '1e2' and time.sleep(60)"), ["--seconds", "6"], 1, "no answer"),
    ("an expected difference", lexer(changed(2, tokens=[])), ["--expect", "EXPECT"], 0, "as expected"),
    ("an expected difference that is none", lexer(RIGHT), ["--expect", "EXPECT"], 1, "was expected to differ"),
    ("a lexer without a head", "", [], 2, "the program ended"),
]


def run(folder, program, options):
    """What the runner prints for a program, and its status."""
    (folder / "lexer.py").write_text(program, encoding="utf-8")
    names = [str(folder / "expect.txt") if option == "EXPECT" else option for option in options]
    command = [
        sys.executable, SUITE / "runner.py", "--cases", folder / "cases.jsonl", "--junit", folder / "junit.xml", *names,
        "--", sys.executable, folder / "lexer.py",
    ]
    ran = subprocess.run(list(map(str, command)), capture_output=True, text=True, check=False)
    return ran.stdout + ran.stderr, ran.returncode


def unlike_schema():
    """The names of a few cases of each file that, or whose requests, aren't as the schema says."""
    try:
        import jsonschema
    except ImportError:
        print("the schema was left out: there is no jsonschema", file=sys.stderr)
        return []
    schema = json.loads((SUITE / "schema.json").read_text(encoding="utf-8"))
    fits = {
        what: jsonschema.Draft202012Validator({**schema, "oneOf": [{"$ref": f"#/$defs/{what}"}]}).is_valid
        for what in ("case", "request", "answer")
    }
    wrong = [] if fits["case"](CASES[0]) and not fits["answer"]({"tokens": [["x"]], "faults": []}) else ["the schema"]
    for path in files_of(SUITE / "cases"):
        for case in read_cases([path])[::25]:
            answer = {field: case[field] for field in ("tokens", "faults")}
            if not (fits["case"](case) and fits["request"](request_of(case)) and fits["answer"](answer)):
                wrong.append(case["name"])
    return wrong


def wrong_in(trial):
    """What is wrong with what the runner says of a lexer; none where all is right."""
    words, program, options, status, wanted = trial
    with tempfile.TemporaryDirectory() as name:
        folder = Path(name)
        (folder / "cases.jsonl").write_text("".join(json.dumps(case) + "\n" for case in CASES), encoding="utf-8")
        (folder / "expect.txt").write_text("# why\na float\n", encoding="utf-8")
        said, found = run(folder, program, options)
        if found != status or wanted not in said:
            return f"{words}: status {found}, and has to be {status} with {wanted!r}\n{said}"
        if status < 2 and len(list(ElementTree.parse(folder / "junit.xml").iter("testcase"))) != len(CASES):
            return f"{words}: the JUnit XML hasn't all cases"
    return ""


def main():
    wrong = [f"not as the schema says: {name}" for name in unlike_schema()]
    with concurrent.futures.ThreadPoolExecutor(os.cpu_count()) as pool:
        wrong += [said for said in pool.map(wrong_in, TRIALS) if said]
    for said in wrong:
        print(said)
    print(f"the runner with {len(TRIALS)} small lexers: {len(wrong)} wrong")
    return 1 if wrong else 0


if __name__ == "__main__":
    sys.exit(main())
