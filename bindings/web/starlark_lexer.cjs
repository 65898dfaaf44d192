// The proved lexer of Starlark for CommonJS, in Node. It reads starlark_lex.wasm from beside this file.
"use strict";
const { readFileSync } = require("node:fs");
const { join } = require("node:path");
const { Document, Lexer } = require("./lexer.cjs");

const lexer = new Lexer(readFileSync(join(__dirname, "starlark_lex.wasm")));

module.exports = {
    Document,
    Lexer,
    lex: (text) => lexer.lex(text),
    lexRecovering: (text) => lexer.lexRecovering(text),
    faults: (text) => lexer.faults(text),
    open: (text) => lexer.open(text),
};
