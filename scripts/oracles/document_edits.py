#!/usr/bin/env python3
"""Compares what is found in edited documents with what lexing their whole text finds.

usage: document_edits.py [--write] [--edits N] [--seed N]

Without options it compares the stored output of the part `documents` of crates/starlark_rows with what the plain lexer finds.

--write    store a list of commands, and what they return
--edits N  also try N random edits with the built program, with segments of at least 1, 16 and 2048 bytes (0)
--seed N   another seed gives other texts and edits (1)

After each edit the program compares all lexemes and faults of the document with those of lexing its whole text on after its
faults. This script applies the edits by itself, and compares what `show` prints with what the plain lexer finds. It also
looks at what an edit says that it changed: outside of that all has to be as before, but moved. It prints the first
command at which two of them differ, and exits with 1; else it says how many edits were tried.
"""

import argparse
import itertools
import random
import re
import sys

sys.path.append(f"{sys.path[0]}/..")  # where shared/ lies
from shared.random_texts import INSERTIONS, random_texts
from shared.recovering import items_of
from shared.stored import printed_for, read_part, write_part

PART = "documents"
EDITS_OF_A_TEXT = 20
SHOWN = 5
SPAN = re.compile(rb"(fault )?([0-9]+)-([0-9]+)(.*)")
READS = re.compile(rb"(?<=[0-9]) [0-9]+(?=, same$)")

# What is typed in turn into a stored document, and deleted again: literals, brackets and blocks that open and close.
TYPED = [b'"""', b'"""\\x', b"'\\x", b"(", b")", b"'", b"f'{", b"\\", b"#", b"if x:\n  ", b"\n", b" ", b"\t", b"$", b"is ", b"f'\n"]
STORED = b'load("a", "b")\nx = [\n  1,\n]\n\ndef f(x):\n  # c\n  return f"{x}"\n\n# d\ny = \'\'\'e\n\'\'\'\nz = 2\n'

PLACED = "# é \N{GRINNING FACE} e\nx = 'é\N{GRINNING FACE}\N{GRINNING FACE}' # é\n\nif x:\n  y = '''\N{GRINNING FACE}\n\N{GRINNING FACE}'''\nz = 'é'\n# \N{GRINNING FACE} é".encode()


def random_edit(dice, text):
    """Offsets of characters and a new text, which fit the text."""
    characters = text.decode()
    start = dice.randrange(len(characters) + 1)
    end = min(len(characters), start + dice.choice([0, 0, 0, 1, 1, 3, 20, 200]))
    match dice.randrange(40):
        case 0:
            start = 0
        case 1:
            end = len(characters)
    new = "".join(dice.choice(INSERTIONS + ["\n", "\n", "x = 1\n", "  "]) for _ in range(dice.choice([0, 1, 1, 1, 3])))
    return len(characters[:start].encode()), len(characters[:end].encode()), new.encode()


def new_command(least, text):
    return f"new {least} {len(text)}\n".encode() + text + b"\n"


def edit_command(begin, end, text):
    return f"edit {begin} {end} {len(text)}\n".encode() + text + b"\n"


def twice_command(begin, end, text):
    return f"twice {begin} {end} {len(text)}\n".encode() + text + b"\n"


# Lines of one length, in documents with segments of at least the length that `Document::new` gives them, and of few bytes.
LINE, LINES, SEGMENT_LEN = b"x = 1\n", 1000, 1280
FEW_LINES, FEW_BYTES = 8, 12


def line_segments(lines, least_len):
    """The range of each segment of a document of lines: as few lines as have the least length, where as much is left."""
    begin, end = 0, lines * len(LINE)
    least = -(-least_len // len(LINE)) * len(LINE)
    while end - begin >= least + least_len:
        yield begin, begin + least
        begin += least
    yield begin, end


def line_edits(lines, least_len, typed):
    """A text typed into each segment of a document of lines and deleted again, with what each edit returns."""
    text = LINE * lines
    for begin, end in line_segments(lines, least_len):
        at, later = begin + len(LINE), end + len(typed)
        yield edit_command(at, at, typed), text[:at] + typed + text[at:], f"{begin} {end} {later} {later - begin}, same".encode()
        yield edit_command(at, at + len(typed), b""), text, f"{begin} {later} {end} {end - begin}, same".encode()


def line_documents():
    """Lines put into an empty document, and few lines in a new one, with edits of each, and what each command returns."""
    text, few = LINE * LINES, LINE * FEW_LINES
    lexed = sum(len(text) - begin for begin, _ in line_segments(LINES, SEGMENT_LEN))
    yield edit_command(0, 0, text), text, f"0 0 {len(text)} {lexed}, same".encode()
    yield from line_edits(LINES, SEGMENT_LEN, b"y")
    yield new_command(FEW_BYTES, few), few, b"same"
    yield from line_edits(FEW_LINES, FEW_BYTES, b"zz")


# What some stored commands return: that each edit lexes a segment, and of one edit made twice how many were made, or which is refused.
WANTED = {
    b"twice 0 1 2\n<<\n": b"2, same",
    b"twice 0 60 0\n\n": b"1 the range isn't one of the text, same",
    **{command: output for command, _, output in line_documents()},
}


def stored_commands():
    """Documents of lines, and then one of many kinds of lines, into which each of a list of texts is typed at each line's start and deleted again."""
    yield from ((command, text) for command, text, _ in line_documents())
    yield new_command(1, STORED), STORED
    text = STORED
    for at in [match.start() for match in re.finditer(rb"(?m)^", STORED)]:
        for typed in TYPED:
            text = STORED[:at] + typed + STORED[at:]
            yield edit_command(at, at, typed), text
            yield b"show\n", text
            yield edit_command(at, at + len(typed), b""), STORED
    for from_ in range(len(STORED) + 1):
        yield f"from {from_}\n".encode(), STORED
    for refused in (b"edit 3 2 0\n\n", f"edit 0 {len(STORED) + 1} 0\n\n".encode(), f"slice 1 {len(STORED) + 1}\n".encode()):
        yield refused, STORED
    for begin, end in itertools.combinations(range(0, len(STORED) + 1, 7), 2):
        yield f"slice {begin} {end}\n".encode(), STORED
    yield twice_command(0, 1, b"<<"), b"<<<" + STORED[1:]
    yield edit_command(0, 3, STORED[:1]), STORED
    yield twice_command(0, 60, b""), STORED[60:]
    yield edit_command(0, 0, STORED[:60]), STORED
    yield edit_command(0, 0, "é".encode()), "é".encode() + STORED
    yield b"edit 1 2 0\n\n", "é".encode() + STORED
    yield edit_command(0, len(STORED) + 2, b""), b""
    yield edit_command(0, 0, PLACED), PLACED
    yield b"lines\n", PLACED
    for at in range(len(PLACED) + 2):
        yield f"place {at}\n".encode(), PLACED
    for line in range(PLACED.count(b"\n") + 2):
        for column in range(20):
            yield f"offset {line} {column}\n".encode(), PLACED
    yield edit_command(0, len(PLACED), b""), b""
    yield b"lines\n", b""
    yield b"place 0\n", b""
    yield b"show\n", b""


def random_commands(count, seed):
    """Random documents, each with a list of edits, and the text after each."""
    dice = random.Random(seed)
    texts = random_texts(count // EDITS_OF_A_TEXT, seed)
    for number, text in enumerate(texts):
        least = (1, 16, 2048)[number % 3]
        if least == 2048:
            text = b"".join(random_texts(30, dice.random()))
        yield new_command(least, text), text
        for _ in range(EDITS_OF_A_TEXT):
            begin, end, new = random_edit(dice, text)
            is_shown = len(text) < 2000 and dice.randrange(SHOWN) == 0
            if is_shown:
                yield b"show\n", text
            text = text[:begin] + new + text[end:]
            yield edit_command(begin, end, new), text
            if is_shown:
                yield b"show\n", text


def outputs_of(printed):
    """What was printed for each command."""
    return [output.rstrip(b"\n") for output in re.split(rb"(?m)^[0-9]+ ", printed)[1:]]


def found_spans(output):
    """What `show` printed, as begin, end, and what it is."""
    for line in output.split(b"\n")[1:]:
        if match := SPAN.fullmatch(line):
            yield int(match[2]), int(match[3]), (match[1] or b"") + match[4]


def wanted_spans(text):
    """The begin and end of all lexemes and then of all faults that the plain lexer finds."""
    items = list(items_of(text))
    for kind in ("lexeme", "fault"):
        yield from ((item.begin, item.end) for what, item in items if what == kind)


def spans_from(text, at):
    """The begin and end of the lexemes from the first one on that ends after an offset."""
    spans = [(item.begin, item.end) for what, item in items_of(text) if what == "lexeme"]
    return list(itertools.dropwhile(lambda span: span[1] <= at, spans))


def place_text(text, at):
    """The line, the column and the column in units of UTF-16 of a byte, or `none`."""
    try:
        before, _ = text[:at].decode(), text[at:].decode()
    except UnicodeDecodeError:
        return b"none"
    if at > len(text):
        return b"none"
    line = before[before.rfind("\n") + 1 :]
    return f"{before.count(chr(10))} {len(line)} {len(line.encode('utf-16-le')) // 2}".encode()


def offset_text(text, line, column):
    """The byte at a line and a column in units of UTF-16, or `none`."""
    wanted = f"{line} ".encode(), f" {column}".encode()
    places = ((at, place_text(text, at)) for at in range(len(text) + 1))
    return next((str(at).encode() for at, place in places if place.startswith(wanted[0]) and place.endswith(wanted[1])), b"none")


def slice_text(text, begin, end):
    """The bytes of a range that has only characters of one byte, or `none`."""
    return text[begin:end].rstrip(b"\n") if end <= len(text) else b"none"


def without_reads(output):
    """What an edit returned, without its count of reads, which nothing else counts."""
    return READS.sub(b"", output)


def is_unchanged(change, before, after):
    """Whether what is found before and after an edit is the same outside of what it says that it changed."""
    begin, old_end, new_end, _ = map(int, change.split()[:4])
    inside = [[span for span in spans if not (begin <= span[0] and span[1] <= end)] for spans, end in ((before, old_end), (after, new_end))]
    moved = [span if span[0] < begin else (span[0] + new_end - old_end, span[1] + new_end - old_end, span[2]) for span in inside[0]]
    return moved == inside[1]


def fault_at(commands, texts, outputs, wanted):
    """The number of the first command that doesn't return what it has to, as some wanted outputs say; None if all do."""
    shown = {}
    for number, (command, text, output) in enumerate(zip(commands, texts, outputs)):
        if command.startswith((b"new", b"edit", b"twice")) and not output.endswith(b"same"):
            return number
        if command in wanted and without_reads(output) != wanted[command]:
            return number
        if command.startswith(b"slice") and output != slice_text(text, *map(int, command.split()[1:])):
            return number
        if command.startswith(b"from") and [span[:2] for span in found_spans(output)] != spans_from(text, int(command.split()[1])):
            return number
        if command == b"lines\n" and output != str(text.count(b"\n") + 1).encode():
            return number
        if command.startswith(b"offset") and output != offset_text(text, *map(int, command.split()[1:])):
            return number
        if command.startswith(b"place") and output != place_text(text, int(command.split()[1])):
            return number
        if command == b"show\n":
            shown[number] = list(found_spans(output))
            if [span[:2] for span in shown[number]] != list(wanted_spans(text)):
                return number
            if number - 2 in shown and commands[number - 1].startswith(b"edit") and not is_unchanged(outputs[number - 1], shown[number - 2], shown[number]):
                return number
    return None if len(outputs) == len(commands) else len(outputs)


def compare(what, runs):
    """Runs commands, and says whether what they return is right."""
    commands, texts = [run[0] for run in runs], [run[1] for run in runs]
    outputs = outputs_of(printed_for(PART, b"".join(commands)))
    number = fault_at(commands, texts, outputs, {})
    edits = sum(command.startswith(b"edit") for command in commands)
    if number is None:
        print(f"{edits} {what} edits of documents, no difference")
        return True
    print(f"command {number}: {commands[number:number + 1]}\nof the text {texts[number:number + 1]}\nreturned {outputs[number:number + 1]}")
    return False


def main():
    parser = argparse.ArgumentParser()
    parser.add_argument("--write", action="store_true")
    parser.add_argument("--edits", type=int, default=0)
    parser.add_argument("--seed", type=int, default=1)
    options = parser.parse_args()
    stored = list(stored_commands())
    commands = b"".join(command for command, _ in stored)
    if options.write:
        write_part("stdin", PART, commands)
        write_part("stdout", PART, printed_for(PART, commands))
    outputs = outputs_of(read_part("stdout", PART))
    number = fault_at([command for command, _ in stored], [text for _, text in stored], outputs, WANTED)
    is_stored = read_part("stdin", PART) == commands
    if number is not None or not is_stored:
        print(f"stored command {number} differs" if is_stored else "the stored commands differ")
        return 1
    print(f"{len(stored)} stored commands on documents, no difference")
    if options.edits and not compare("random", list(random_commands(options.edits, options.seed))):
        return 1
    return 0


if __name__ == "__main__":
    sys.exit(main())
