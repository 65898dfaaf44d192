// The proved lexer of Starlark. It loads starlark_lex.wasm from beside this file.
import { Lexer } from "./lexer.js";

export { Document, Lexer } from "./lexer.js";

// A bundler doesn't look for a module that has its name from a variable.
const FILES = "node:fs";

async function wasm() {
    const url = new URL("starlark_lex.wasm", import.meta.url);
    // Node's fetch reads no files.
    if (url.protocol === "file:" && globalThis.process?.versions?.node) {
        const { readFileSync } = await import(/* webpackIgnore: true */ /* @vite-ignore */ FILES);
        return readFileSync(url);
    }
    const response = await fetch(url);
    if (!response.ok) {
        throw new Error(`${url} can't be loaded: ${response.status} ${response.statusText}`);
    }
    return response.arrayBuffer();
}

const lexer = new Lexer(await wasm());

export function lex(text) {
    return lexer.lex(text);
}

export function lexRecovering(text) {
    return lexer.lexRecovering(text);
}

export function faults(text) {
    return lexer.faults(text);
}

export function open(text) {
    return lexer.open(text);
}
