// The lines of the program `starlark_lex`, made of what the module finds. This file runs in Node and
// in browsers.

/** Lines and columns of offsets in bytes, which are asked for in any order but quickly in theirs. */
class Places {
    constructor(bytes) {
        this.bytes = bytes;
        this.reset();
    }

    reset() {
        this.at = 0;
        this.line = 1;
        this.column = 1;
        this.units = 0;
    }

    move(at) {
        if (at < this.at) {
            this.reset();
        }
        for (; this.at < at; this.at++) {
            const byte = this.bytes[this.at];
            if (byte === 10) {
                this.line++;
                this.column = 1;
            } else if (byte < 0x80 || byte >= 0xc0) {
                this.column++;
            }
            this.units += byte >= 0xf0 ? 2 : byte < 0x80 || byte >= 0xc0 ? 1 : 0;
        }
        return { line: this.line, column: this.column, units: this.units };
    }
}

function hex(bytes) {
    return Array.from(bytes, (byte) => byte.toString(16).padStart(2, "0")).join("");
}

function integer(value, written) {
    if (typeof value === "number") {
        return String(value);
    }
    const base = { x: 16, o: 8, b: 2 }[written[1]?.toLowerCase()] ?? 10;
    return value.toString(base) + (base === 10 ? "" : ` (base ${base})`);
}

function valueText({ kind, value }, written) {
    if (value === undefined) {
        return "";
    }
    if (kind === "Int") {
        return ` ${integer(value, written)}`;
    }
    if (kind === "Bytes") {
        return ` ${hex(value)}`;
    }
    return kind === "String" || kind === "FStringText" ? ` ${hex(new TextEncoder().encode(value))}` : ` ${value}`;
}

// The place of a span as it is printed. Its offsets in UTF-16 have to be those of its bytes.
function spanText(places, { begin, end, beginByte, endByte }, isString) {
    const from = places.move(beginByte);
    const to = places.move(endByte);
    if (begin !== from.units || end !== to.units) {
        throw new Error(`${beginByte}-${endByte} is ${from.units}-${to.units} in UTF-16, not ${begin}-${end}`);
    }
    const first = `${from.line}:${from.column}`;
    if (from.line !== to.line) {
        return `${first}-${to.line}:${to.column}`;
    }
    return from.column === to.column ? first : `${first}-${to.column}`;
}

/** The lines of tokens and faults, in the order in which the program prints them. */
export function linesOf(bytes, { tokens, faults }) {
    const places = new Places(bytes);
    const decoder = new TextDecoder();
    const lines = Array.from(tokens, (token) => {
        const { beginByte, endByte, kind } = token;
        const place = spanText(places, token);
        const written = kind === "Int" ? decoder.decode(bytes.subarray(beginByte, endByte)) : "";
        return `${beginByte}-${endByte} ${place} ${kind}${valueText(token, written)}\n`;
    });
    const faultPlaces = new Places(bytes);
    const faultLines = faults.map((fault) => {
        const place = spanText(faultPlaces, fault);
        return `fault ${fault.beginByte}-${fault.endByte} <stdin>:${place} ${fault.message}\n`;
    });
    faults.forEach(({ tokensBefore }, index) => lines.splice(tokensBefore + index, 0, faultLines[index]));
    return lines.join("");
}

/** The lines of a text, by its bytes, and where it is UTF-8 also by its string, which gives the same. */
export function linesOfText(lex, bytes) {
    let found;
    try {
        found = linesOf(bytes, lex(bytes));
    } catch (error) {
        if (error instanceof TypeError) {
            return "input is not UTF-8\n";
        }
        throw error;
    }
    const text = new TextDecoder("utf-8", { fatal: true, ignoreBOM: true }).decode(bytes);
    const again = linesOf(bytes, lex(text));
    return found === again ? found : `by bytes:\n${found}by string:\n${again}`;
}
