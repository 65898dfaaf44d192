// Prints the tokens of standard input by the package for npm, as CommonJS has it.
const { readFileSync } = require("node:fs");
const { lex } = require("starlark-lexer");

for (const { beginByte, endByte, kind } of lex(readFileSync(0)).tokens) {
    console.log(`${beginByte}-${endByte} ${kind}`);
}
