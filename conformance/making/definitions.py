"""Runs the definitions of the grammar as they are written, and tells which of their cases a text reaches.

The modules of crates/starlark_grammar/specs are translated to functions of Python: clauses, conditions, records, tables.
What they take from the standard library is in NATIVE. A *case* of a definition is

- a clause: the patterns on its left-hand side,
- a branch of an `if`, and each operand that decides an `&&` or `||`,
- a row of a table: the one that gives the class of a word that is read, or the value of an escape.

`Definitions().outcome(text)` is the outcome by the definitions; the cases that it reached are added to `reached`.
"""

import functools
import re
import sys
from collections import namedtuple
from pathlib import Path

TOP = Path(__file__).resolve().parent.parent.parent
SPECS = TOP / "crates/starlark_grammar/specs"
WORDS_OF_THE_CODE = TOP / "crates/starlark_grammar/src/class.rt"
MEASURED = ["Words", "Items", "Numbers", "Margins", "Pieces", "Depths"]
MODULES = ["Words", "Numbers", "Tokens", "FrontCharacter", "Items", "Depths", "Margins", "Pieces", "Reading"]
TOKEN = re.compile(
    r'\s+|"(?:\\.|[^"\\])*"|0x[0-9A-Fa-f_]+|[0-9][0-9_]*|[^\W\d]\w*'
    r"|\[\]|∷|\+\+|&&|\|\||==|[λ→(){};,=+\-^:×]|\.(?=\s)|\.(?=\w)"
)
OPERATORS = {"||": (1, "right"), "&&": (2, "right"), "==": (3, "left"), "∷": (4, "right"), "++": (4, "right"),
             "+": (5, "left"), "-": (5, "left"), "^": (6, "right")}

# -- What is written, as trees


class Node:
    """A part of an expression: what it is, its parts, and its words."""

    def __init__(self, what, parts, words=""):
        self.what, self.parts, self.words = what, parts, words


def tokens_of(text):
    """The words of a text of definitions."""
    tokens, offset = [], 0
    while offset < len(text):
        found = TOKEN.match(text, offset)
        if not found:
            raise ValueError(f"no word of the definitions: {text[offset:offset + 20]!r}")
        if not found.group().isspace():
            tokens.append(found.group())
        offset = found.end()
    return tokens


class Parser:
    """Reads an expression, or patterns."""

    def __init__(self, tokens):
        self.tokens, self.at = tokens, 0

    def peek(self):
        return self.tokens[self.at] if self.at < len(self.tokens) else ""

    def take(self, wanted=None):
        token = self.peek()
        if wanted is not None and token != wanted:
            raise ValueError(f"{wanted!r} is missing in {' '.join(self.tokens)}")
        self.at += 1
        return token

    def words(self, begin):
        return " ".join(self.tokens[begin:self.at])

    def expression(self):
        """A lambda, a choice, or operators with operands."""
        begin = self.at
        if self.peek() == "λ":
            return self.function()
        if self.peek() == "if":
            self.take()
            condition = self.expression()
            self.take("then")
            positive = self.expression()
            self.take("else")
            return Node("if", [condition, positive, self.expression()], self.words(begin))
        return self.operation(0)

    def function(self):
        self.take("λ")
        if self.peek() == "(":
            self.take()
            name = self.take()
            while self.take() != ")":
                pass
        else:
            name = self.take()
        self.take(".")
        return Node("lambda", [name, self.expression()])

    def operation(self, least):
        begin, left = self.at, self.application()
        while self.peek() in OPERATORS and OPERATORS[self.peek()][0] >= least:
            level, side = OPERATORS[self.peek()]
            operator = self.take()
            if self.peek() in ("λ", "if"):
                right = self.expression()
            else:
                right = self.operation(level if side == "right" else level + 1)
            left = Node("operator", [operator, left, right], self.words(begin))
        return left

    def application(self):
        begin, parts = self.at, [self.atom()]
        while self.peek() and (self.peek()[0] in '("λ' or self.peek() == "[]" or re.match(r"\w", self.peek())):
            if self.peek() in ("then", "else", "where"):
                break
            parts.append(self.function() if self.peek() == "λ" else self.atom())
        return parts[0] if len(parts) == 1 else Node("apply", parts, self.words(begin))

    def atom(self):
        begin, token = self.at, self.take()
        if token == "record":
            return self.record()
        if token == "(":
            parts = [self.expression()]
            while self.peek() == ",":
                self.take()
                parts.append(self.expression())
            self.take(")")
            node = parts[0] if len(parts) == 1 else Node("pair", parts)
        elif token == "[]":
            node = Node("empty", [])
        elif token[0] == '"':
            node = Node("string", [token[1:-1]], token)
        elif token[0].isdigit():
            node = Node("number", [int(token.replace("_", ""), 0)], token)
        else:
            node = Node("name", [token], token)
        while self.peek() == ".":
            self.take()
            field = self.take()
            if field[0].isupper():
                node = Node("name", [field], field)
            else:
                node = Node("field", [node, field])
            node.words = self.words(begin)
        return node

    def record(self):
        self.take("{")
        fields = []
        while self.peek() != "}":
            name = self.take()
            self.take("=")
            fields.append((name, self.expression()))
            if self.peek() == ";":
                self.take()
        self.take("}")
        return Node("record", fields)


class Clause:
    """A clause of a definition: its patterns, its right-hand side, and the functions that it has for itself."""

    def __init__(self, head, text):
        tokens = tokens_of(text)
        equals = tokens.index("=")
        self.name, self.words = tokens[0], " ".join(tokens[:equals])
        parser = Parser(tokens[1:equals])
        self.patterns = []
        while parser.peek():
            self.patterns.append(parser.atom())
        self.body = Parser(tokens[equals + 1:]).expression()
        self.local = []
        self.head = head


def clause_of(head, lines):
    """The clause of some lines, with what stands after `where`."""
    cut = next((number for number, line in enumerate(lines) if line.strip() == "where"), len(lines))
    clause = Clause(head, "\n".join(lines[:cut]))
    inner = [line[4:] for line in lines[cut + 1:]]
    clause.local = definitions_in(head, inner, lambda line: re.match(r"\w+ : ", line))
    return clause


def definitions_in(head, lines, is_signature):
    """The definitions of lines: each name with its clauses."""
    found, chunk = {}, []

    def end():
        # A name in capitals is a type's.
        if chunk and not chunk[0][0].isupper():
            clause = clause_of(head, chunk)
            found.setdefault(clause.name, []).append(clause)
        chunk.clear()

    for line in lines:
        if not line.strip():
            continue
        if not line[0].isspace() and line[0] != "}":
            end()
            if is_signature(line):
                continue
        chunk.append(line)
    end()
    return found


@functools.lru_cache(maxsize=None)
def module_definitions(name):
    """The definitions of a module, and its signatures left out."""
    text = re.sub(r"(?m)^\s*--.*$", "", (SPECS / f"{name}.antt").read_text(encoding="utf-8"))
    text = re.sub(r"(?ms)^pub (record|data) .*?(?=^\S)", "", text + "\nend\n").removesuffix("end\n")
    lines = [line for line in text.split("\n") if not re.match(r"(pub )?use ", line)]
    return definitions_in(name, lines, lambda line: re.match(r"(abbrev|unfoldable) ", line))


# -- What the definitions take from elsewhere


def curried(count, function):
    """A function of several arguments, which takes one at a time."""
    if count <= 1:
        return function
    return lambda first: curried(count - 1, lambda *others: function(first, *others))


def remembered(function):
    """A function that computes once for each argument."""
    known = {}

    def call(argument):
        if argument not in known:
            known[argument] = function(argument)
        return known[argument]

    return call


def prefix_len(test, text):
    count = 0
    while count < len(text) and test(text[count]):
        count += 1
    return count


def digits_value(base, text):
    return int(bytes(text).decode(), base) if text else 0


def is_digit(byte, base):
    return chr(byte).isascii() and chr(byte).isalnum() and int(chr(byte), 36) < base


def onto_first(first, rest):
    return ((first, *rest[0]), *rest[1:]) if rest else ((first,),)


def continuation_len(byte):
    return 3 if byte >= 0xF0 else 2 if byte >= 0xE0 else 1 if byte >= 0xC0 else 0


def option_map(function, option):
    return ("Some", function(option[1])) if option[0] == "Some" else option


def fold(function, start, items):
    for item in items:
        start = function(start)(item)
    return start


NATIVE = {
    "is_ascii_alphabetic": (1, lambda b: b < 128 and chr(b).isalpha()),
    "is_ascii_digit": (1, lambda b: 48 <= b < 58),
    "is_ascii_hexdigit": (1, lambda b: is_digit(b, 16)),
    "is_digit": (2, is_digit),
    "to_ascii_lowercase": (1, lambda b: b + 32 if 65 <= b < 91 else b),
    "list_all": (2, lambda test, items: all(test(item) for item in items)),
    "list_any": (2, lambda test, items: any(test(item) for item in items)),
    "prefix_len": (2, prefix_len),
    "starts_with": (3, lambda equal, text, front: text[:len(front)] == front),
    "bytes_eq": (2, lambda one, other: one == other),
    "nat_eq": (2, lambda one, other: one == other),
    "nat_lt": (2, lambda one, other: one < other),
    "nat_le": (2, lambda one, other: one <= other),
    "max": (2, max),
    "map": (2, lambda function, items: tuple(function(item) for item in items)),
    "take": (2, lambda count, items: items[:count]),
    "drop": (2, lambda count, items: items[count:]),
    "take_while": (2, lambda test, items: items[:prefix_len(test, items)]),
    "length": (1, len),
    "count_by": (2, lambda test, items: sum(1 for item in items if test(item))),
    "sum_by": (2, lambda function, items: sum(function(item) for item in items)),
    "flat_map": (2, lambda function, items: tuple(part for item in items for part in function(item))),
    "fold": (3, fold),
    "replicate": (2, lambda count, item: count * (item,)),
    "encode_utf8": (1, lambda number: tuple(chr(number).encode())),
    "digits_value": (2, digits_value),
    "onto_first": (2, onto_first),
    "continuation_len": (1, continuation_len),
    "option_map": (2, option_map),
    "option_to_list": (1, lambda option: option[1:]),
    "pos": (1, lambda number: number),
    "neg_ℤ": (1, lambda number: -number),
    "not": (1, lambda truth: not truth),
    "byte": (1, lambda text: text[0]),
    "codes": (1, lambda text: text),
    "suc": (1, lambda number: number + 1),
}
CONSTANTS = {"true": "True", "false": "False", "zero": "0"}
RECORDS = {}


def record_type(fields):
    """The type of records with these fields."""
    key = tuple(sorted(fields))
    if key not in RECORDS:
        RECORDS[key] = namedtuple("Record" + str(len(RECORDS)), key)
    return RECORDS[key]


def rows_of_the_code():
    """The rows of symbols and of names, from the macro `terminals!`: each word with its class, by length."""
    text = WORDS_OF_THE_CODE.read_text(encoding="utf-8")
    begin = text.index("symbols {")
    rows = {"symbols": [], "names": []}
    for line in text[begin - 1:text.index("\n        }", begin)].split("\n"):
        opened = re.match(r"\s*(symbols|names|\d+) \{$", line)
        if opened and opened[1] in rows:
            group = rows[opened[1]]
        elif opened:
            group.append([])
        for word, kind in re.findall(r'"([^"]+)" (\w+) = \d+[ \w]*,', line):
            group[-1].append((tuple(word.encode()), ("Fixed", (kind,))))
        for word in re.findall(r'[;,] b"\w+" "(\w+)"', line):
            group[-1].append((tuple(word.encode()), ("Reserved",)))
    wanted = [int(count) for count in re.findall(r"(?m)^    \[\(\[u8; \d\], Class\); (\d+)\],$", text)]
    if [len(rows_of_length) for group in rows.values() for rows_of_length in group] != wanted:
        raise ValueError(f"{WORDS_OF_THE_CODE.name} has rows that aren't read")
    return [tuple(map(tuple, group)) for group in rows.values()]


# -- Changes


def truth(value):
    return Node("constant", [str(value)], str(value).lower())


def changes_of(node):
    """What an expression can be changed to, each with words."""
    if node.what == "if":
        return [("always holds", node.parts[1]), ("never holds", node.parts[2])]
    if node.what == "operator":
        operator, left, right = node.parts
        sides = [("is its first part", left), ("is its second part", right)]
        truths = [("holds", truth(True)), ("fails", truth(False))]
        by_operator = {"&&": sides, "||": sides, "==": truths, "∷": sides[1:], "++": sides}
        return by_operator.get(operator, sides[:1] if operator in "+-" else [])
    if node.what == "number":
        return [("is one more", Node("number", [node.parts[0] + 1]))]
    if node.what == "string":
        text = node.parts[0].encode().decode("unicode_escape")
        other = chr(ord(text[0]) + 1).encode("unicode_escape").decode()
        return [("is the next character", Node("string", [other]))]
    if node.what == "name" and node.parts[0] in ("true", "false"):
        return [("is the other", truth(node.parts[0] == "false"))]
    if node.what == "apply" and node.parts[0].parts[:1] == ["not"]:
        return [("isn't turned", node.parts[1])]
    return []


# -- Definitions as functions


class Definitions:
    """The definitions as functions of Python, whose cases have numbers; `reached` are those that some text reached."""

    def __init__(self, change=None):
        self.modules = {name: module_definitions(name) for name in MODULES}
        self.cases, self.reached, self.lines, self.known_names = [], set(), [], 0
        self.places, self.change, self.clause_case = [], change, -1
        self.scope = {"NATIVE": NATIVE, "curried": curried, "remembered": remembered, "record_type": record_type,
                      "reach": self.reach, "lookup": self.lookup, "longest_front": self.longest_front}
        self.scope["SYMBOLS"], self.scope["NAMES"] = map(self.rows_but_one, rows_of_the_code())
        self.classes = {}
        for name, definitions in self.modules.items():
            for key, clauses in definitions.items():
                self.define(name, key, clauses)
        sys.setrecursionlimit(20000)
        exec(compile("\n".join(self.lines), "definitions", "exec"), self.scope)
        self.add_rows()

    def value(self, module, name):
        """The value of a definition without arguments."""
        return self.scope[f"g_{module}_{name}"](0)

    def add_rows(self):
        """Adds the cases of the rows of the language and of the escapes."""
        listed = [row for name in ("openers", "line_ends", "symbols", "names") for row in self.value("Words", name)]
        words = [repr(bytes(word).decode()) for word, _ in listed]
        words += [f"{number}, {row[1][0]}" for number, row in enumerate(self.value("Words", "patterns"), 1)]
        self.language_rows = [self.case("Words", f"row {word}") for word in words]
        self.escape_rows = {
            key: self.case("Items", f"simple_escapes, row {chr(key)!r}")
            for key, _ in self.value("Items", "simple_escapes")
        }

    # What was reached

    def case(self, module, words):
        """The number of a case; -1 where its module isn't measured."""
        if module not in MEASURED:
            return -1
        self.cases.append(f"{module}: {words}")
        return len(self.cases) - 1

    def reach(self, number, value=True):
        if number >= 0:
            self.reached.add(number)
        return value

    def lookup(self, test, rows):
        """The second part of the first row whose first part passes."""
        for number, row in enumerate(rows):
            if test(row[0]):
                if isinstance(row[0], int):
                    self.reach(self.escape_rows[row[0]])
                self.found_row = number
                return "Some", row[1]
        return ("None",)

    def longest_front(self, class_of, text):
        """The class and the length of the longest front that has a class; its row is reached."""
        for end in range(len(text), 0, -1):
            if text[:end] not in self.classes:
                self.found_row = None
                found = class_of(text[:end])
                self.classes[text[:end]] = found, self.found_row
            found, row = self.classes[text[:end]]
            if found[0] == "Some":
                self.reach(self.language_rows[row])
                return "Some", (found[1], end)
        return ("None",)

    # Translation

    def define(self, module, name, clauses):
        """Adds the function of a definition."""
        count = len(clauses[0].patterns)
        self.function(module, f"g_{module}_{name}", clauses, count, 0, {})
        if count == 0:
            self.lines.append(f"g_{module}_{name} = remembered(lambda _, f=g_{module}_{name}: f())")

    def function(self, module, python_name, clauses, count, depth, local):
        """Adds the lines of a function with these clauses."""
        pad = "  " * depth
        names = [f"a{depth}_{number}" for number in range(count)]
        self.lines.append(f"{pad}def {python_name}({', '.join(names)}):")
        for clause in clauses:
            tests, bound = [], dict(local)
            for name, pattern in zip(names, clause.patterns):
                self.match(pattern, name, tests, bound)
            self.lines.append(f"{pad}  if {' and '.join(tests) or 'True'}:")
            reached = self.case(module, clause.words) if clause.patterns else -1
            self.clause_case = reached
            if reached >= 0 and self.is_changed(f"{module}: {clause.words} is left out"):
                self.lines.append(f"{pad}    pass")
                continue
            self.lines.append(f"{pad}    reach({reached})")
            for key, inner in clause.local.items():
                inner_count = len(inner[0].patterns)
                self.known_names += 1
                inner_name = f"l{self.known_names}_{key}"
                bound[key] = (inner_name, inner_count)
            for key, inner in clause.local.items():
                self.function(module, bound[key][0], inner, bound[key][1], depth + 2, bound)
            self.clause_case = reached
            self.lines.append(f"{pad}    return {self.translated(module, clause, clause.body, bound)}")
        self.lines.append(f"{pad}  raise ValueError({python_name!r})")

    def match(self, pattern, value, tests, bound):
        """The tests that a value fits a pattern, and the names that the pattern gives to parts of it."""
        if pattern.what == "empty":
            tests.append(f"{value} == ()")
        elif pattern.what == "operator":
            tests.append(f"len({value}) > 0")
            self.match(pattern.parts[1], f"{value}[0]", tests, bound)
            self.match(pattern.parts[2], f"{value}[1:]", tests, bound)
        elif pattern.what == "apply":
            head = pattern.parts[0].parts[0]
            if head == "suc":
                tests.append(f"{value} > 0")
                self.match(pattern.parts[1], f"({value} - 1)", tests, bound)
                return
            tests.append(f"{value}[0] == {head!r}")
            for number, part in enumerate(pattern.parts[1:], 1):
                self.match(part, f"{value}[{number}]", tests, bound)
        else:
            name = pattern.parts[0]
            if name in CONSTANTS:
                tests.append(f"{value} == {CONSTANTS[name]}")
            elif name[0].isupper():
                tests.append(f"{value}[0] == {name!r}")
            else:
                bound[name] = (value, None)

    def reference(self, module, name, bound):
        """The text of a name, and how many arguments it takes at once; None for a value."""
        if name in bound:
            return bound[name]
        if name in CONSTANTS:
            return CONSTANTS[name], None
        if name[0].isupper():
            if name in ("SYMBOLS", "NAMES"):
                return name, None
            return f"({name!r},)", None
        for other in [module, *MODULES]:
            if name in self.modules[other]:
                return f"g_{other}_{name}", len(self.modules[other][name][0].patterns)
        if name == "lookup":
            return "lookup", 2
        if name == "longest_front":
            return "longest_front", 2
        return f"NATIVE[{name!r}][1]", NATIVE[name][0]

    def translated(self, module, clause, node, bound):
        """An expression as one of Python."""
        node = self.changed(module, clause, node)

        def go(part):
            return self.translated(module, clause, part, bound)

        if node.what == "empty":
            return "()"
        if node.what == "constant":
            return node.parts[0]
        if node.what == "number":
            return str(node.parts[0])
        if node.what == "string":
            text = node.parts[0].encode().decode("unicode_escape")
            return repr(tuple(text.encode()))
        if node.what == "pair":
            return "(" + ", ".join(map(go, node.parts)) + ")"
        if node.what == "field":
            place = f"[{node.parts[1]}]" if node.parts[1].isdigit() else f".{node.parts[1]}"
            return f"{go(node.parts[0])}{place}"
        if node.what == "record":
            fields = ", ".join(f"{name}={go(part)}" for name, part in node.parts)
            return f"record_type({[name for name, _ in node.parts]!r})({fields})"
        if node.what == "lambda":
            name, body = node.parts
            self.known_names += 1
            variable = f"v{self.known_names}_{name}"
            inner = {**bound, name: (variable, None)}
            return f"remembered(lambda {variable}: {self.translated(module, clause, body, inner)})"
        if node.what == "if":
            return self.choice(module, clause, node, go)
        if node.what == "operator":
            return self.operator(module, clause, node, go)
        return self.applied(module, node, bound, go)

    def choice(self, module, clause, node, go):
        condition, positive, negative = node.parts
        words = f"{clause.words}, if {condition.words}"
        yes, no = self.case(module, words + ": yes"), self.case(module, words + ": no")
        test = go(condition)
        return f"((reach({yes}) and {go(positive)},) if {test} else (reach({no}) and {go(negative)},))[0]"

    def operator(self, module, clause, node, go):
        operator, left, right = node.parts
        if operator in ("&&", "||"):
            words = f"{clause.words}, {left.words} {operator} .."
            decided = self.case(module, f"{words}: {left.words} decides")
            yes = self.case(module, f"{words}: by {right.words}, which holds")
            no = self.case(module, f"{words}: by {right.words}, which fails")
            one, other = go(left), go(right)
            rest = f"(reach({yes}) if {other} else not reach({no}))"
            return f"({rest} if {one} else not reach({decided}))" if operator == "&&" else \
                f"(reach({decided}) if {one} else {rest})"
        one, other = go(left), go(right)
        return {
            "==": f"({one} == {other})", "∷": f"({one}, *{other})", "++": f"({one} + {other})",
            "+": f"({one} + {other})", "-": f"max(0, {one} - {other})", "^": f"({one} ** {other})",
        }[operator]

    def applied(self, module, node, bound, go):
        """A name, or a function with arguments."""
        if node.what == "name":
            parts = [node]
        else:
            parts = node.parts
        head, arguments = parts[0], [go(part) for part in parts[1:]]
        if head.what != "name":
            return go(head) + "".join(f"({argument})" for argument in arguments)
        name = head.parts[0]
        if name not in bound and name[0].isupper() and name not in ("SYMBOLS", "NAMES"):
            return "(" + "".join(f"{part}, " for part in [repr(name), *arguments]) + ")"
        text, count = self.reference(module, name, bound)
        if count is None:
            return text + "".join(f"({argument})" for argument in arguments)
        if count == 0:
            called = f"{text}(0)" if text.startswith("g_") else f"{text}()"
            return called + "".join(f"({argument})" for argument in arguments)
        if len(arguments) < count:
            return f"curried({count}, {text})" + "".join(f"({argument})" for argument in arguments)
        return f"{text}({', '.join(arguments[:count])})" + "".join(f"({argument})" for argument in arguments[count:])

    # Changes

    def is_changed(self, words):
        """Notes a change that can be made, with the case of the definitions around it; whether it is the one to make."""
        self.places.append((self.clause_case, words))
        return self.change == len(self.places) - 1

    def changed(self, module, clause, node):
        """An expression, or what it is changed to."""
        if module in MEASURED:
            for what, other in changes_of(node):
                if self.is_changed(f"{module}: {clause.words}: `{node.words}` {what}"):
                    return other
        return node

    def rows_but_one(self, groups):
        """The rows of the code, or all but the one that is to be left out."""
        return tuple(
            tuple(row for row in rows if not self.is_changed(f"Words: row {bytes(row[0]).decode()!r} is left out"))
            for rows in groups
        )

    # Texts

    def outcome(self, text):
        """The outcome of a text by the definitions."""
        return self.scope["g_Reading_outcome"](0)(tuple(text))
