// The stored texts of crates/starlark_rows, and the lines that the programs print of them.
import { readFileSync } from "node:fs";

const FOLDER = new URL("../../../crates/starlark_rows/", import.meta.url);
const LF = 10;

function lineAt(bytes, at) {
    const end = bytes.indexOf(LF, at);
    return { line: bytes.subarray(at, end).toString(), end: end + 1 };
}

/** A part of a file, which is a list of parts: a line `part NAME LENGTH`, and as many bytes. */
function partOf(file, name) {
    const bytes = readFileSync(new URL(file, FOLDER));
    for (let at = 0; ; ) {
        const { line, end } = lineAt(bytes, at);
        const [, found, length] = line.split(" ");
        at = end + Number(length);
        if (found === name) {
            return bytes.subarray(end, at);
        }
    }
}

/** The texts of a part, each with its number, and with its task if it isn't a plain text. */
function textsOf(name) {
    const bytes = partOf("stdin", name);
    const texts = [];
    for (let at = 0; at < bytes.length; ) {
        const { line, end } = lineAt(bytes, at);
        const [length, ...task] = line.split(" ");
        const source = bytes.subarray(end, end + Number(length));
        texts.push({ number: texts.length + 1, task: task.join(" "), source });
        at = end + Number(length) + 1;
    }
    return texts;
}

/** The lines of each text, by its number: what follows the line `text NUMBER: ..`. */
function printedOf(name) {
    const printed = partOf("stdout", name).toString();
    const starts = [...printed.matchAll(/^text (\d+)(?::| )(.*)\n/gm)];
    return new Map(
        starts.map((start, index) => [
            Number(start[1]),
            { head: start[0], lines: printed.slice(start.index + start[0].length, starts[index + 1]?.index) },
        ]),
    );
}

/** Each plain stored text, with what the program prints of it. */
export function plainTexts() {
    const printed = printedOf("texts");
    return textsOf("texts")
        .filter(({ task }) => task === "")
        .map(({ number, source }) => ({ number, source, ...printed.get(number) }));
}

/** Each stored text that is lexed on after its faults, with what the program prints of it. */
export function recoveredTexts() {
    const printed = partOf("stdout", "recovered").toString();
    const lines = `\n${printed}`.split("\ntext ").slice(1).map((part) => part.slice(part.indexOf("\n") + 1));
    return textsOf("recovered").map(({ source }, index) => ({ source, lines: lines[index] }));
}
