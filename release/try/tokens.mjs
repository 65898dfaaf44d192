// Prints the tokens of standard input by the package for npm.
import { readFileSync } from "node:fs";
import { lex } from "starlark-lexer";

for (const { beginByte, endByte, kind } of lex(readFileSync(0)).tokens) {
    console.log(`${beginByte}-${endByte} ${kind}`);
}
