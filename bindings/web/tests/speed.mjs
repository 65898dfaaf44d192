// Compares the speed of the module in Node with that of the library for C and of a plain lexer in
// JavaScript, on texts without faults.
//
//     node speed.mjs PROGRAM TEXT..
//
// PROGRAM is the built speed.c. Each lexes each text some times, in turns, and the fastest counts. Before
// that each runs for some seconds, in which Node compiles it anew. The module is given a string, and its
// time ends with all tokens in memory of their own; `each token` also makes each one's object and value,
// as the plain lexer does. STARLARK_WEB names the package.
import { execFileSync } from "node:child_process";
import { readFileSync } from "node:fs";
import { basename } from "node:path";
import { pathToFileURL } from "node:url";
import { PlainLexer } from "./plain_lexer.mjs";

const { lex } = await import(new URL("starlark_lexer.js", pathToFileURL(`${process.env.STARLARK_WEB}/`)));
const ROUNDS = 20;
const TURNS = 3;
const WARMING = 2000;

/** The least time of some rounds, in milliseconds. */
function fastest(action) {
    let least = Infinity;
    for (let round = 0; round < ROUNDS; round++) {
        const begin = performance.now();
        action();
        least = Math.min(least, performance.now() - begin);
    }
    return least;
}

function warm(action) {
    for (const begin = performance.now(); performance.now() - begin < WARMING; ) {
        action();
    }
}

function makeAll(text) {
    let length = 0;
    for (const token of lex(text).tokens) {
        length += token.value?.length ?? 0;
    }
    return length;
}

function measured(program, file) {
    const text = readFileSync(file, "utf8");
    const times = { c: Infinity, module: Infinity, tokens: Infinity, plain: Infinity };
    const counts = { module: lex(text).tokens.length, plain: new PlainLexer(text).lex().length };
    warm(() => lex(text));
    warm(() => makeAll(text));
    warm(() => new PlainLexer(text).lex());
    for (let turn = 0; turn < TURNS; turn++) {
        const [, lexemes, taken] = execFileSync(program, [String(ROUNDS), file], { encoding: "utf8" }).split(" ");
        counts.c = Number(lexemes);
        times.c = Math.min(times.c, Number(taken) / 1e6);
        times.module = Math.min(times.module, fastest(() => lex(text)));
        times.tokens = Math.min(times.tokens, fastest(() => makeAll(text)));
        times.plain = Math.min(times.plain, fastest(() => new PlainLexer(text).lex()));
    }
    if (new Set(Object.values(counts)).size !== 1) {
        console.error(`${file}: ${JSON.stringify(counts)} lexemes`);
        process.exitCode = 1;
    }
    return times;
}

const [program, ...files] = process.argv.slice(2);
console.log("| Text | C library, ms | Module in Node, ms | Ratio | Each token, ms | Plain JavaScript, ms |");
console.log("|---|---|---|---|---|---|");
for (const file of files) {
    const { c, module, tokens, plain } = measured(program, file);
    const cells = [c, module, module / c, tokens, plain].map((time) => time.toFixed(1));
    console.log(`| ${basename(file, ".star")} | ${cells.join(" | ")} |`);
}
