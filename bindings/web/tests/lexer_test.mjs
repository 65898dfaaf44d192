// Tests of the module in Node, against what the programs print. The package is in the folder that
// STARLARK_WEB names.
import assert from "node:assert/strict";
import { readFileSync } from "node:fs";
import { createRequire } from "node:module";
import { test } from "node:test";
import { pathToFileURL } from "node:url";
import { linesOf, linesOfText } from "./lines.mjs";
import { plainTexts, recoveredTexts } from "./stored.mjs";

const PACKAGE = pathToFileURL(`${process.env.STARLARK_WEB}/`);
const { Document, Lexer, faults, lex, lexRecovering, open } = await import(new URL("starlark_lexer.js", PACKAGE));
const WASM = readFileSync(new URL("starlark_lex.wasm", PACKAGE));
const TOP = new URL("../../../", import.meta.url);

const kindsOf = ({ tokens }) => Array.from(tokens, (token) => token.kind);
const valuesOf = ({ tokens }) => Array.from(tokens, (token) => token.value).filter((value) => value !== undefined);
const textOf = (file) => readFileSync(new URL(file, TOP), "utf8");

/** The bytes of a number in LEB128. */
function leb(number) {
    const bytes = [];
    for (; number >= 128; number = Math.floor(number / 128)) {
        bytes.push((number % 128) | 128);
    }
    return [...bytes, number];
}

function readLeb(bytes, at) {
    let number = 0;
    for (let shift = 0; ; shift += 7) {
        const byte = bytes[at++];
        number += (byte & 127) * 2 ** shift;
        if (byte < 128) {
            return [number, at];
        }
    }
}

/** The module with a memory that is refused more pages than some. */
function limited(pages) {
    for (let at = 8; ; ) {
        const [size, begin] = readLeb(WASM, at + 1);
        if (WASM[at] === 5) {
            const [least] = readLeb(WASM, begin + 2);
            const memory = [1, WASM[begin + 1] | 1, ...leb(least), ...leb(Math.max(least, pages))];
            const section = Buffer.from([5, ...leb(memory.length), ...memory]);
            return Buffer.concat([WASM.subarray(0, at), section, WASM.subarray(begin + size)]);
        }
        at = begin + size;
    }
}

test("each stored text has the lines of the program", () => {
    const texts = plainTexts();
    assert.ok(texts.length > 1000, `${texts.length} texts`);
    for (const { number, source, head, lines } of texts) {
        const wanted = head.endsWith("not UTF-8\n") ? "input is not UTF-8\n" : lines;
        assert.equal(linesOfText(lex, source), wanted, `text ${number}`);
    }
});

test("each stored text with faults has the lines of the lexer that goes on after them", () => {
    const texts = recoveredTexts();
    assert.ok(texts.length >= 158);
    for (const { source, lines } of texts) {
        assert.equal(linesOfText(lexRecovering, source).trimEnd(), lines.trimEnd(), source.toString());
        assert.deepEqual(faults(source), lexRecovering(source).faults);
    }
});

test("each stored text has one result up to its first fault", () => {
    for (const { source, head } of plainTexts()) {
        if (!head.endsWith("not UTF-8\n")) {
            const { tokens, faults: first } = lex(source);
            const all = lexRecovering(source);
            assert.deepEqual(first, all.faults.slice(0, 1));
            assert.ok(tokens.length <= all.tokens.length);
        }
    }
});

test("a token has its kind, its spans and its value", () => {
    const token = lex("x = 'ä🔬\\n'\n").tokens.at(2);
    assert.deepEqual({ ...token }, { kind: "String", begin: 4, end: 11, beginByte: 4, endByte: 14 });
    assert.equal(token.value, "ä🔬\n");
    assert.equal(lex("x").tokens.at(2), undefined);
    assert.equal(lex("x").tokens.at(-1).kind, "Newline");
    assert.equal(lex("x").tokens.at(-2).value, "x");
    assert.equal(lex("x").tokens.at(-3), undefined);
});

test("tokens are written into JSON", () => {
    const text = "e = 'é' + b'\\x00\\xff' 5000000000 0xfffffffffffffffff";
    const { tokens, faults: found } = JSON.parse(JSON.stringify(lex(text)));
    assert.deepEqual(tokens[0], { kind: "Identifier", begin: 0, end: 1, beginByte: 0, endByte: 1, value: "e" });
    const values = ["e", null, "é", null, "00ff", 5000000000, "295147905179352825855", null];
    assert.deepEqual(tokens.map(({ value }) => value), values);
    assert.deepEqual(found, []);
});

test("a token has the class of its kind", () => {
    const { tokens } = lex("if a >= 1.5: # b\n  f'{c!r}'\n");
    const classes = [
        ["If", "Keyword"],
        ["Identifier", "Name"],
        ["GreaterEqual", "Operator"],
        ["Float", "Number"],
        ["Colon", "Punctuation"],
        ["Comment", "Comment"],
        ["Newline", "Layout"],
        ["Indent", "Layout"],
        ["FStringStart", "String"],
        ["FStringExprStart", "Bracket"],
        ["Identifier", "Name"],
        ["FStringBang", "Punctuation"],
        ["Identifier", "Name"],
        ["FStringExprEnd", "Bracket"],
        ["FStringEnd", "String"],
        ["Newline", "Layout"],
        ["Newline", "Layout"],
        ["Dedent", "Layout"],
    ];
    assert.deepEqual(Array.from(tokens, ({ kind, kindClass }) => [kind, kindClass]), classes);
});

test("values are decoded", () => {
    const text = "a 1 2147483647 2147483648 0xFFFFFFFFFF 0o7777777777777 0b1 1.5 'b\\n' b'\\xff' rf'''{x}''' # c";
    assert.deepEqual(valuesOf(lex(text)), [
        "a",
        1,
        2147483647,
        2147483648n,
        0xffffffffffn,
        0o7777777777777n,
        1,
        "1.5",
        "b\n",
        Uint8Array.of(255),
        "TripleSingle",
        "x",
        " c",
    ]);
    assert.deepEqual(valuesOf(lex("'\ufeffa'")), ["\ufeffa"]);
});

test("offsets count units of UTF-16", () => {
    const text = "a = '🔬🔬' + '汉' # é\nb = '\u{10ffff}' ?";
    const { tokens, faults: found } = lex(text);
    const written = [...Array.from(tokens), ...found].map(({ begin, end }) => text.slice(begin, end));
    assert.deepEqual(written, ["a", "=", "'🔬🔬'", "+", "'汉'", "# é", "\n", "b", "=", "'\u{10ffff}'", "?"]);
});

test("a lone surrogate is lexed as U+FFFD", () => {
    for (const lone of ["\ud800", "\udfff", "\ud83d"]) {
        const text = `a = '${lone}' + b`;
        const { tokens } = lex(text);
        assert.equal(tokens.at(2).value, "\ufffd");
        assert.deepEqual({ ...tokens.at(4) }, { kind: "Identifier", begin: 10, end: 11, beginByte: 12, endByte: 13 });
        assert.equal(linesOf(new TextEncoder().encode(text), lex(text)), linesOf(new TextEncoder().encode(text), lex(new TextEncoder().encode(text))));
    }
    assert.equal(lex("\ud800").faults[0].message, "Parse error: invalid input `\ufffd`");
});

test("a fault has its code, its kind, its message and its place", () => {
    const text = "é = 1\nx = '🔬' 01\n'\ny = \"\\x\"\nclass\n";
    const found = faults(text);
    assert.deepEqual(found[1], {
        code: "SL008",
        kind: "StartsZero",
        message: "Parse error: integer cannot have leading 0, got `01`",
        begin: 15,
        end: 17,
        beginByte: 18,
        endByte: 20,
        tokensBefore: 6,
    });
    const kinds = ["InvalidInput", "StartsZero", "UnfinishedStringLiteral", "InvalidEscapeSequence", "ReservedKeyword"];
    assert.deepEqual(found.map((fault) => fault.kind), kinds);
    assert.equal(text.slice(found[4].begin, found[4].end), "class");
});

test("faults are named as in the header", () => {
    const texts = ["if x:\n  y\n z", "?", "x\n\ty", "'", "'\\x'", "'\\", "class", "01", "f'{\"a"];
    const body = /enum starlark_fault\w* \{(.*?)\};/s.exec(textOf("bindings/c/starlark_lex.h"))[1];
    const header = [...body.matchAll(/STARLARK_FAULT_(\w+) = (\d+)/g)];
    assert.equal(header.length, texts.length);
    for (const [, name, number] of header) {
        const [fault] = faults(texts[Number(number) - 1]);
        assert.equal(fault.kind.toUpperCase(), name.replaceAll("_", ""));
        assert.equal(fault.code, `SL00${number}`);
    }
});

test("the types name each kind of tokens and faults", () => {
    const types = textOf("bindings/web/lexer.d.ts");
    const named = (type) =>
        [...new RegExp(`export type ${type} =(.*?);`, "s").exec(types)[1].matchAll(/"(\w+)"/g)].map((found) => found[1]);
    const header = [...textOf("bindings/c/starlark_lex.h").matchAll(/STARLARK_KIND_(\w+) = (\d+)/g)];
    assert.deepEqual(named("Kind").map((kind) => kind.toUpperCase()), header.map((found) => found[1].replaceAll("_", "")));
    assert.equal(named("FaultKind").length, 9);
    const all = plainTexts().flatMap(({ source, head }) => (head.endsWith("not UTF-8\n") ? [] : kindsOf(lex(source))));
    assert.deepEqual([...new Set(all)].sort(), named("Kind").sort());
});

test("the package has the version of the repository", () => {
    const made = JSON.parse(readFileSync(new URL("package.json", PACKAGE), "utf8"));
    assert.equal(made.version, textOf("VERSION").trim());
    made.files.forEach((file) => assert.ok(readFileSync(new URL(file, PACKAGE)).length > 0));
});

test("what is no text is refused", () => {
    for (const text of [undefined, null, 1, ["a"], new Uint16Array(1)]) {
        assert.throws(() => lex(text), { name: "TypeError", message: "a text is a string or a Uint8Array" });
    }
    assert.throws(() => lex(Uint8Array.of(97, 98, 255)), { name: "TypeError", message: "the text is not UTF-8 at byte 2" });
    assert.throws(() => faults(Uint8Array.of(0xc0)), { name: "TypeError", message: "the text is not UTF-8 at byte 0" });
    assert.deepEqual(kindsOf(lex("x")), ["Identifier", "Newline"]);
});

test("a result stays as it is after later calls", () => {
    const first = lex("a = 'b' # é");
    const before = Array.from(first.tokens, (token) => [token.kind, token.begin, token.value]);
    lex("some other text = 'with other values'");
    lexRecovering("x = 1\n".repeat(1000));
    assert.deepEqual(Array.from(first.tokens, (token) => [token.kind, token.begin, token.value]), before);
});

test("texts of any density have room", () => {
    for (const line of [";", "a;", "\n", "x\n y\n", "''", "f'{'", "'a'", "{}", "é ", "'\\n'", "01\n", "1"]) {
        const text = line.repeat(3000);
        const bytes = new TextEncoder().encode(text);
        assert.equal(linesOf(bytes, lexRecovering(text)), linesOf(bytes, lexRecovering(bytes)), line);
        assert.equal(linesOf(bytes, lex(text)), linesOf(bytes, lex(bytes)), line);
    }
    assert.equal(lex(";".repeat(100000)).tokens.length, 100001);
    assert.equal(faults("?\n".repeat(50000)).length, 50000);
});

test("memory is given back between calls", () => {
    const text = "x = 'a' + 1 # b\n".repeat(20000);
    const lexer = new Lexer(WASM);
    lexer.lex(text);
    const before = process.memoryUsage();
    for (let round = 0; round < 200; round++) {
        lexer.faults(text);
        lexer.faults("?\n".repeat(20000));
    }
    const after = process.memoryUsage();
    const grown = after.arrayBuffers + after.external - before.arrayBuffers - before.external;
    assert.ok(grown < 256e6, `${grown} bytes more after 200 rounds`);
});

test("a refused memory is told, and the next call works", () => {
    const text = "name = 'é' + b'\\xff' # comment\n?\n".repeat(3000);
    const wanted = new Lexer(WASM).lexRecovering(text);
    const lines = linesOf(new TextEncoder().encode(text), wanted);
    let refused = 0;
    let done = 0;
    for (let pages = 0; done === 0; pages += 3) {
        let lexer;
        try {
            lexer = new Lexer(limited(pages));
            assert.equal(linesOf(new TextEncoder().encode(text), lexer.lexRecovering(text)), lines);
            done++;
        } catch (error) {
            assert.equal(error.name, "RangeError");
            assert.match(error.message, /^out of memory/);
            refused++;
        }
        if (lexer) {
            assert.deepEqual(kindsOf(lexer.lex("x")), ["Identifier", "Newline"]);
        }
        assert.ok(pages < 2000);
    }
    assert.ok(refused > 5, `${refused} refusals`);
});

test("a text of 64 MB is lexed", () => {
    const line = "name = [1, 'two', three(4.5)]  # comment\n";
    const count = Math.ceil((64 * 1024 * 1024) / line.length);
    const text = line.repeat(count);
    const one = lex(line).tokens.length - 1;
    const { tokens, faults: found } = lexRecovering(text);
    assert.equal(tokens.length, one * count + 1);
    assert.equal(found.length, 0);
    const last = tokens.at(tokens.length - 3);
    assert.deepEqual([last.kind, last.value, last.end], ["Comment", " comment", text.length - 1]);
});

test("a small memory is kept, a large one is not", () => {
    const lexer = new Lexer(WASM);
    let made = 0;
    const { Instance } = WebAssembly;
    WebAssembly.Instance = class extends Instance {
        constructor(...given) {
            super(...given);
            made++;
        }
    };
    try {
        lexer.lex("x");
        lexer.lex("y");
        assert.equal(made, 0);
        lexer.lex("x = 1\n".repeat(1e6));
        lexer.lex("x");
        assert.equal(made, 1);
    } finally {
        WebAssembly.Instance = Instance;
    }
});

test("a module is taken as bytes or compiled, and one module serves many lexers", () => {
    const module = new WebAssembly.Module(WASM);
    const lexers = [new Lexer(module), new Lexer(module), new Lexer(new Uint8Array(WASM).buffer)];
    assert.deepEqual(lexers.map((lexer) => lexer.lex("a b").tokens.length), [3, 3, 3]);
});

test("CommonJS has the same calls at once", () => {
    const required = createRequire(import.meta.url)(new URL("starlark_lexer.cjs", PACKAGE).pathname);
    const text = "x = 'é' + 01";
    assert.equal(JSON.stringify(required.lexRecovering(text)), JSON.stringify(lexRecovering(text)));
    assert.deepEqual(Object.keys(required).sort(), ["Document", "Lexer", "faults", "lex", "lexRecovering", "open"]);
    assert.ok(required.open("x") instanceof required.Document);
});

// What random texts of documents are made of.
const PIECES = [
    "x = 1\n",
    "def f(a, b):\n    return a\n",
    "    y\n",
    "\n",
    "(",
    ")",
    "'a'",
    '"""',
    "'''\n",
    "f'{a!r} b{'",
    "}'",
    "# é🔬\n",
    "b'\\x00\\n'",
    "\t",
    "$",
    "'\\q'\n",
    "汉",
    "🔬",
    "if x:\n  if y:\n    z\n",
    "0xFFFFFFFFFFF",
];

/** Numbers below others, the same ones each time. */
function randomNumbers(seed) {
    return (below) => (seed = (seed * 48271) % 2147483647) % below;
}

/** The first offset from another one on that cuts no character. */
function boundary(text, at) {
    return /[\udc00-\udfff]/.test(text[at] ?? "") ? at + 1 : at;
}

/** What tokens and faults tell of a range of their text. */
function told({ tokens, faults: found }, begin, end) {
    const touches = (span) => begin <= span.end && span.begin <= end;
    return [
        Array.from(tokens).filter(touches).map((token) => [JSON.stringify(token), token.kindClass]),
        Array.from(found).filter(touches).map(({ tokensBefore, ...fault }) => fault),
    ];
}

/** Compares a document with lexing its text: all of it, a range, and the place of an offset. */
function compareDocument(document, text, random) {
    const whole = lexRecovering(text);
    assert.equal(document.slice(), text);
    const begin = boundary(text, random(text.length + 1));
    const end = boundary(text, Math.min(text.length, begin + 40));
    for (const range of [[0, text.length], [begin, end]]) {
        const found = { tokens: document.tokens(...range), faults: document.faults(...range) };
        assert.deepEqual(told(found, ...range), told(whole, ...range));
    }
    const front = text.slice(0, begin).split("\n");
    const position = { line: front.length - 1, character: front.at(-1).length };
    assert.deepEqual(document.positionAt(begin), position);
    assert.equal(document.offsetAt(position), begin);
}

/** Edits a document at random, and compares it after each edit. */
function editAtRandom(text, edits, random) {
    const made = (count) => Array.from({ length: count }, () => PIECES[random(PIECES.length)]).join("");
    const document = open(text);
    for (let edit = 0; edit < edits; edit++) {
        const before = Array.from(document.tokens(), ({ begin }) => begin);
        const begin = boundary(text, random(text.length + 1));
        const end = boundary(text, Math.min(text.length, begin + random(12)));
        const inserted = made(random(3));
        const change = document.edit(begin, end, random(2) ? inserted : Buffer.from(inserted));
        text = text.slice(0, begin) + inserted + text.slice(end);
        assert.equal(document.length, text.length);
        const moved = before.filter((at) => at > change.oldEnd).map((at) => at + change.newEnd - change.oldEnd);
        const after = Array.from(document.tokens(), (token) => token.begin);
        assert.deepEqual(after.filter((at) => at > change.newEnd), moved);
        compareDocument(document, text, random);
    }
}

test("a document that is edited is as its whole text is lexed", () => {
    const random = randomNumbers(97);
    for (let round = 0; round < 40; round++) {
        editAtRandom(Array.from({ length: random(30) }, () => PIECES[random(PIECES.length)]).join(""), 20, random);
    }
    for (const line of ["x = 'é🔬' # 汉\n", "name = [1, 2]\n"]) {
        editAtRandom(line.repeat(2000), 5, random);
    }
});

test("a refused edit changes nothing", () => {
    const document = open("x = '🔬'\n");
    const refused = { name: "RangeError", message: /^the text has no characters from / };
    for (const [begin, end] of [[2, 1], [0, 10], [10, 10], [-1, 2], [0, 1.5], [6, 6], [NaN, 1], ["0", 1]]) {
        assert.throws(() => document.edit(begin, end, "y"), refused);
        assert.throws(() => document.tokens(begin, end), refused);
        assert.throws(() => document.slice(begin, end), refused);
    }
    assert.throws(() => document.positionAt(6), refused);
    const notUtf8 = { name: "TypeError", message: "the text is not UTF-8" };
    assert.throws(() => document.edit(0, 0, Uint8Array.of(255)), notUtf8);
    assert.throws(() => open(Uint8Array.of(255)), notUtf8);
    assert.throws(() => document.edit(0, 0, 7), { name: "TypeError", message: "a text is a string or a Uint8Array" });
    for (const [line, character] of [[7, 0], [0, 6], [-1, 0], [0.5, 0]]) {
        assert.equal(document.offsetAt({ line, character }), undefined);
    }
    assert.equal(document.slice(), "x = '🔬'\n");
    assert.equal(document.length, 9);
    assert.ok(document instanceof Document);
});

test("a document keeps its text where memory is refused", () => {
    const line = "name = 'é' + other # comment\n";
    let now = "";
    let refused = 0;
    let compared = 0;
    let done = 0;
    for (let pages = 0; done < 20; pages += 2) {
        assert.ok(pages < 2000);
        let document;
        try {
            document = new Lexer(limited(pages)).open(line);
            now = line;
            for (done = 0; done < 20; done++) {
                document.edit(0, 0, line.repeat(200));
                now = line.repeat(200) + now;
            }
        } catch (error) {
            assert.match(error.message, /^out of memory/);
            refused++;
        }
        assert.equal(document?.length ?? now.length, now.length);
        try {
            assert.equal(document?.tokens(7, 10).at(-1).value ?? "é", "é");
            compared++;
        } catch (error) {
            assert.match(error.message, /^out of memory/);
        }
    }
    assert.ok(refused > 3 && compared > 3, `${refused} refusals, ${compared} documents compared`);
});
