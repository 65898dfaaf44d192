// The proved lexer of Starlark, by a module of WebAssembly that its user gives.

// Sizes in bytes of the records of bindings/c/starlark_lex.h, and of what has room for each of the
// two outcomes.
const LEXEME_SIZE = 32;
const FAULT_SIZE = 40;
const OUTCOME_SIZE = 128;
const DOCUMENT_SIZE = 16;
const CHANGE_SIZE = 48;
const PLACE_SIZE = 24;
const NAME_ROOM = 64;
const MESSAGE_ROOM = 128;

// Where the fields of the outcome of each call are, in bytes from its beginning.
const LEXED = { lexemes: 32, values: 40, next: 48, fault: 4 };
const RECOVERED = { lexemes: 8, values: 16, faults: 24, next: 32, wanted: [40, 48, 56] };

const STATUS = { WHOLE: 0, FAULT: 1, FULL: 2, NOT_UTF8: 3, TOO_LONG: 4, MEMORY: 5, BAD_RANGE: 6 };

// What starlark_document_offset_at_utf16 returns where there is no offset.
const NO_OFFSET = 2n ** 64n - 1n;

// How many bytes of a document are read to find an offset in it, but for some.
const STEP = 4096;

// The classes of kinds, the kinds of faults and the quotes of f-strings by their numbers, which never
// change.
const CLASSES = [
    "",
    "Comment",
    "Layout",
    "Name",
    "Number",
    "String",
    "Keyword",
    "Operator",
    "Punctuation",
    "Bracket",
];
const FAULT_KINDS = [
    "",
    "Indentation",
    "InvalidInput",
    "InvalidTab",
    "UnfinishedStringLiteral",
    "InvalidEscapeSequence",
    "EmptyEscapeSequence",
    "ReservedKeyword",
    "StartsZero",
    "UnfinishedFStringExpression",
];
const QUOTES = ["", "Single", "Double", "TripleSingle", "TripleDouble"];
const PREFIXES = { 2: "0b", 8: "0o", 10: "", 16: "0x" };

// A module whose memory is larger than this after a call is not kept.
const KEPT_MEMORY = 64 * 1024 * 1024;

const encoder = new TextEncoder();
const decoder = new TextDecoder("utf-8", { ignoreBOM: true });

/** A token with its span. Its value is decoded each time that it is asked for. */
export class Token {
    #tokens;
    #index;

    constructor(tokens, index) {
        this.kind = tokens.kind(index);
        this.begin = tokens.begin(index);
        this.end = tokens.end(index);
        this.beginByte = tokens.beginByte(index);
        this.endByte = tokens.endByte(index);
        this.#tokens = tokens;
        this.#index = index;
    }

    get kindClass() {
        return this.#tokens.kindClass(this.#index);
    }

    get value() {
        return this.#tokens.value(this.#index);
    }

    /** All of the token, with its value as `starlark_tokens` writes it into JSON. */
    toJSON() {
        const { kind, begin, end, beginByte, endByte, value } = this;
        return { kind, begin, end, beginByte, endByte, value: plainValue(value) };
    }
}

/** A value as JSON has it: bytes by their hexadecimal digits, null for none. */
function plainValue(value) {
    if (value instanceof Uint8Array) {
        return Array.from(value, (byte) => byte.toString(16).padStart(2, "0")).join("");
    }
    if (typeof value === "bigint") {
        return value <= Number.MAX_SAFE_INTEGER ? Number(value) : String(value);
    }
    return value ?? null;
}

/** The tokens of a text, in order. A token is made when it is asked for. */
export class Tokens {
    #names;
    #words;
    #values;
    #units;

    // `names` has the names of kinds, and of their classes, by the numbers of the kinds. `words` has the
    // records of the tokens, eight words each. `units` has their offsets in UTF-16, two each, and is
    // null where these are the offsets in bytes.
    constructor(names, words, values, units) {
        this.#names = names;
        this.#words = words;
        this.#values = values;
        this.#units = units;
    }

    get length() {
        return this.#words.length / 8;
    }

    at(index) {
        const number = index < 0 ? index + this.length : index;
        return number >= 0 && number < this.length ? new Token(this, number) : undefined;
    }

    toJSON() {
        return Array.from(this);
    }

    *[Symbol.iterator]() {
        for (let index = 0; index < this.length; index++) {
            yield new Token(this, index);
        }
    }

    kind(index) {
        return this.#names.kinds[this.#number(index)];
    }

    kindClass(index) {
        return this.#names.classes[this.#number(index)];
    }

    begin(index) {
        return this.#units ? this.#units[2 * index] : this.#words[8 * index];
    }

    end(index) {
        return this.#units ? this.#units[2 * index + 1] : this.#words[8 * index + 1];
    }

    beginByte(index) {
        return this.#words[8 * index];
    }

    endByte(index) {
        return this.#words[8 * index + 1];
    }

    value(index) {
        switch (this.kind(index)) {
            case "Comment":
            case "Identifier":
            case "Float":
            case "String":
            case "FStringText":
                return decoder.decode(this.#bytes(index));
            case "Bytes":
                return this.#bytes(index).slice();
            case "Int":
                return this.#integer(index);
            case "FStringStart":
                return QUOTES[this.#detail(index)];
            default:
                return undefined;
        }
    }

    // The bytes of the value. A record tells its offset and its length by two words each.
    #bytes(index) {
        const words = this.#words;
        const begin = words[8 * index + 4] + words[8 * index + 5] * 2 ** 32;
        const length = words[8 * index + 6] + words[8 * index + 7] * 2 ** 32;
        return this.#values.subarray(begin, begin + length);
    }

    #number(index) {
        return this.#words[8 * index + 2] & 0xffff;
    }

    #detail(index) {
        return this.#words[8 * index + 2] >>> 16;
    }

    #integer(index) {
        const digits = this.#bytes(index);
        if (digits.length === 0) {
            return this.#words[8 * index + 3] | 0;
        }
        return BigInt(PREFIXES[this.#detail(index)] + decoder.decode(digits));
    }
}

/** Lexes texts by a module, of which it keeps one instance between calls. */
export class Lexer {
    #module;
    #instance = null;
    #names;

    constructor(wasm) {
        this.#module = wasm instanceof WebAssembly.Module ? wasm : new WebAssembly.Module(wasm);
        const exports = this.#exports();
        const kinds = namesOf(exports, "starlark_kind_name");
        this.#names = {
            kinds,
            classes: kinds.map((_, number) => CLASSES[exports.starlark_kind_class(number)]),
            codes: namesOf(exports, "starlark_fault_code"),
        };
    }

    lex(text) {
        return this.#use(text, (call) => call.lexed(call.lex()));
    }

    lexRecovering(text) {
        return this.#use(text, (call) => call.lexed(call.lexRecovering()));
    }

    faults(text) {
        return this.#use(text, (call) => call.lexRecovering().faults);
    }

    /** Opens a document, which has an instance of its own. */
    open(text) {
        return new Document(new WebAssembly.Instance(this.#module, {}).exports, this.#names, text);
    }

    #use(text, action) {
        const exports = this.#exports();
        try {
            return action(new Call(exports, this.#names, text));
        } finally {
            // A memory never shrinks, so a large one goes with its instance.
            if (exports.memory.buffer.byteLength > KEPT_MEMORY) {
                this.#instance = null;
            }
        }
    }

    #exports() {
        this.#instance ??= new WebAssembly.Instance(this.#module, {});
        return this.#instance.exports;
    }
}

/** What a call writes for each number from 1 on, up to the first for which it writes nothing. */
function namesOf(exports, call) {
    const room = new Room(exports);
    const at = room.take(NAME_ROOM);
    const names = [""];
    for (;;) {
        const length = Number(exports[call](names.length, BigInt(at), BigInt(NAME_ROOM)));
        if (length === 0) {
            return names;
        }
        names.push(decoder.decode(room.bytes(at, length)));
    }
}

/** A slice of the memory as a call takes it: its address and its length. */
function slice({ at, length }) {
    return [BigInt(at), BigInt(length)];
}

/** The error where no memory is left. */
function outOfMemory() {
    return new RangeError("out of memory: WebAssembly was refused a larger memory");
}

/** What the module finds wrong with a text, as an error. */
function errorOf(status, at) {
    switch (status) {
        case STATUS.NOT_UTF8:
            return new TypeError(`the text is not UTF-8${at === undefined ? "" : ` at byte ${at}`}`);
        case STATUS.TOO_LONG:
            return new RangeError("the text has more than 4294967295 bytes");
        default:
            return outOfMemory();
    }
}

/** The memory of an instance. */
class Memory {
    constructor(exports) {
        this.exports = exports;
    }

    bytes(at, length) {
        return new Uint8Array(this.exports.memory.buffer, at, length);
    }

    words(at, length) {
        return new Uint32Array(this.exports.memory.buffer, at, length);
    }

    data(at, length) {
        return new DataView(this.exports.memory.buffer, at, length);
    }

    /** The number of 64 bits at an address. */
    number(at) {
        return Number(this.data(at, 8).getBigUint64(0, true));
    }
}

/** Memory that is taken from its beginning on, for one call; the module's heap follows it. */
class Room extends Memory {
    #end;

    constructor(exports) {
        super(exports);
        this.#end = Number(exports.__heap_base.value);
    }

    get end() {
        return this.#end;
    }

    /** Lets the room that is taken end at an address. */
    set end(at) {
        this.#end = 16 * Math.ceil(at / 16);
        if (!this.exports.heap_begin(BigInt(this.#end))) {
            throw outOfMemory();
        }
    }

    /** Takes room for some bytes, and returns its address. */
    take(length) {
        const at = this.#end;
        this.end = at + length;
        return at;
    }

    /** What an action makes with the address of room for some bytes, which is given back. */
    within(length, action) {
        const { end } = this;
        const made = action(this.take(length));
        this.end = end;
        return made;
    }
}

/** Memory of the module's heap, which keeps what it has between calls. */
class Heap extends Memory {
    constructor(exports) {
        super(exports);
        if (!exports.heap_begin(exports.__heap_base.value)) {
            throw outOfMemory();
        }
    }

    take(length) {
        const at = Number(this.exports.heap_take(BigInt(length)));
        if (at === 0) {
            throw outOfMemory();
        }
        return at;
    }

    within(length, action) {
        const at = this.take(length);
        try {
            return action(at);
        } finally {
            this.exports.heap_give(BigInt(at));
        }
    }
}

/** A fault of which the memory has kind, begin and end at an address, and from `named` on the text that
 * it names. */
function faultOf(memory, names, at, named, values, unitsBefore) {
    const [number, beginByte, endByte] = memory.words(at, 3);
    const text = { at: values + memory.number(at + named), length: memory.number(at + named + 8) };
    return {
        code: names.codes[number],
        kind: FAULT_KINDS[number],
        message: messageOf(memory, number, text),
        begin: unitsBefore(beginByte),
        end: unitsBefore(endByte),
        beginByte,
        endByte,
    };
}

/** The message of a fault, of its number and the text that it names. */
function messageOf(memory, number, named) {
    const most = named.length + MESSAGE_ROOM;
    return memory.within(most, (at) => {
        const room = { at, length: most };
        const length = memory.exports.starlark_fault_message(number, ...slice(named), ...slice(room));
        return decoder.decode(memory.bytes(at, Number(length)));
    });
}

/** The bytes of a text. */
function bytesOf(text) {
    if (typeof text === "string") {
        return encoder.encode(text);
    }
    if (text instanceof Uint8Array) {
        return text;
    }
    throw new TypeError("a text is a string or a Uint8Array");
}

/** A text in the memory of a module, and what is found in it. */
class Call {
    #names;
    #room;
    #outcome;
    #text;
    #units;

    constructor(exports, names, text) {
        this.#names = names;
        this.#room = new Room(exports);
        this.#outcome = this.#room.take(OUTCOME_SIZE);
        this.#text = typeof text === "string" ? this.#placeString(text) : this.#placeBytes(bytesOf(text));
        const isAscii = this.#text.length === text.length && typeof text === "string";
        this.#units = isAscii ? null : new Units(this.#room, this.#text);
    }

    // A string of n units has n bytes in UTF-8 if it is ASCII, and 3n at most.
    #placeString(text) {
        const at = this.#room.take(text.length);
        const { read, written } = encoder.encodeInto(text, this.#room.bytes(at, text.length));
        if (read === text.length) {
            return { at, length: written };
        }
        const most = 3 * (text.length - read);
        this.#room.end = at + written + most;
        const rest = encoder.encodeInto(text.slice(read), this.#room.bytes(at + written, most));
        this.#room.end = at + written + rest.written;
        return { at, length: written + rest.written };
    }

    #placeBytes(text) {
        const at = this.#room.take(text.length);
        this.#room.bytes(at, text.length).set(text);
        return { at, length: text.length };
    }

    /** Lexes the text up to its first fault. */
    lex() {
        const { end } = this.#room;
        for (let scale = 1; ; scale *= 2) {
            const buffers = this.#buffers(...this.#usual().map((length) => scale * length));
            const status = this.#run("starlark_lex", [buffers.lexemes, buffers.values], LEXED);
            if (status !== STATUS.FULL) {
                const faults = status === STATUS.FAULT ? [this.#firstFault(buffers)] : [];
                return this.#found(buffers, LEXED, faults);
            }
            this.#room.end = end;
        }
    }

    /** Lexes the text on after its faults. */
    lexRecovering() {
        const { end } = this.#room;
        for (let lengths = this.#usual(); ; lengths = RECOVERED.wanted.map((field) => this.#told(field))) {
            this.#room.end = end;
            const buffers = this.#buffers(...lengths);
            const status = this.#run("starlark_lex_recovering", Object.values(buffers), RECOVERED);
            if (status !== STATUS.FULL) {
                return this.#found(buffers, RECOVERED, this.#allFaults(buffers));
            }
        }
    }

    /** What was found, in memory of its own. */
    lexed({ lexemes, values, faults }) {
        const words = this.#room.words(lexemes.at, (lexemes.length * LEXEME_SIZE) / 4);
        const units = this.#units && this.#units.ofTokens(words);
        const written = this.#room.bytes(values.at, values.length).slice();
        return { tokens: new Tokens(this.#names, words.slice(), written, units), faults };
    }

    // Numbers of lexemes, of bytes of values and of faults that few texts of this length have more of.
    #usual() {
        return [Math.ceil(this.#text.length / 2) + 16, this.#text.length + 16, 16];
    }

    #buffers(lexemes, values, faults) {
        return {
            lexemes: { at: this.#room.take(lexemes * LEXEME_SIZE), length: lexemes },
            values: { at: this.#room.take(values), length: values },
            faults: { at: this.#room.take(faults * FAULT_SIZE), length: faults },
        };
    }

    // Calls the module, and returns the status if the buffers are right or too small.
    #run(name, buffers, fields) {
        const slices = [this.#text, ...buffers].flatMap(slice);
        const status = this.#room.exports[name](...slices, BigInt(this.#outcome));
        if (status > STATUS.FULL) {
            throw errorOf(status, this.#told(fields.next));
        }
        return status;
    }

    #told(field) {
        return this.#room.number(this.#outcome + field);
    }

    #found({ lexemes, values }, fields, faults) {
        return {
            lexemes: { at: lexemes.at, length: this.#told(fields.lexemes) },
            values: { at: values.at, length: this.#told(fields.values) },
            faults,
        };
    }

    #firstFault({ values }) {
        return this.#fault(this.#outcome + LEXED.fault, 12, this.#told(LEXED.lexemes), values);
    }

    #allFaults({ faults, values }) {
        return Array.from({ length: this.#told(RECOVERED.faults) }, (_, index) => {
            const at = faults.at + index * FAULT_SIZE;
            return this.#fault(at, 24, this.#room.number(at + 16), values);
        });
    }

    #fault(at, named, tokensBefore, values) {
        const before = (byte) => (this.#units ? this.#units.before(byte) : byte);
        return { ...faultOf(this.#room, this.#names, at, named, values.at, before), tokensBefore };
    }
}

/** Counts units of UTF-16 in a text of the memory, quickly for offsets that ascend. */
class Units {
    #room;
    #text;
    #byte = 0;
    #unit = 0;

    constructor(room, text) {
        this.#room = room;
        this.#text = text;
    }

    /** How many units are before an offset in bytes. */
    before(end) {
        if (end < this.#byte) {
            this.#byte = 0;
            this.#unit = 0;
        }
        const bytes = this.#room.bytes(this.#text.at + this.#byte, end - this.#byte);
        this.#unit += unitsIn(bytes);
        this.#byte = end;
        return this.#unit;
    }

    /** The offsets in units of the spans of records. */
    ofTokens(words) {
        return unitsOfSpans(words, this.#room.bytes(this.#text.at, this.#text.length), 0, 0);
    }
}

/** The offsets in units of the spans of records. The bytes are those of their text from an offset on. */
function unitsOfSpans(words, bytes, fromByte, fromUnit) {
    const units = new Uint32Array(words.length / 4);
    let byte = fromByte;
    let unit = fromUnit;
    for (let at = 0; at < units.length; at++) {
        const end = words[8 * (at >> 1) + (at & 1)];
        while (byte < end) {
            unit += unitsOf(bytes[byte++ - fromByte]);
        }
        units[at] = unit;
    }
    return units;
}

/** How many units of UTF-16 some bytes of UTF-8 have. */
function unitsIn(bytes) {
    let units = 0;
    for (let at = 0; at < bytes.length; at++) {
        units += unitsOf(bytes[at]);
    }
    return units;
}

/** How many units of UTF-16 a byte of UTF-8 begins. */
function unitsOf(byte) {
    if (byte < 0x80) {
        return 1;
    }
    return byte < 0xc0 ? 0 : byte < 0xf0 ? 1 : 2;
}

// The records of a document's range: their size, and where the outcome has their count and how many are
// wanted.
const ITEMS = {
    lexemes: { size: LEXEME_SIZE, count: RECOVERED.lexemes, wanted: RECOVERED.wanted[0] },
    faults: { size: FAULT_SIZE, count: RECOVERED.faults, wanted: RECOVERED.wanted[2] },
};

/** A text that stays lexed while it is edited. */
export class Document {
    #heap;
    #names;
    #slot;
    #offsets;

    constructor(exports, names, text) {
        this.#heap = new Heap(exports);
        this.#names = names;
        this.#slot = this.#heap.take(DOCUMENT_SIZE);
        this.#heap.bytes(this.#slot, DOCUMENT_SIZE).fill(0);
        const bytes = bytesOf(text);
        this.#change(bytes, "open", []);
        const room = this.#heap.take(3 * STEP);
        this.#offsets = new Offsets((from, to) => this.#read(from, to, room));
        this.#offsets.replace([0, 0], [0, 0], [bytes.length, unitsIn(bytes)]);
    }

    get length() {
        return this.#offsets.units;
    }

    edit(begin, end, text) {
        const range = this.#range(begin, end);
        const bytes = bytesOf(text);
        return this.#heap.within(CHANGE_SIZE, (change) => {
            const { units } = this.#offsets;
            this.#change(bytes, "edit", range.map(BigInt), BigInt(change));
            this.#offsets.replace(range, [begin, end], [bytes.length, unitsIn(bytes)]);
            const [changed, newEnd] = this.#changed(change);
            return { begin: changed, oldEnd: newEnd - (this.#offsets.units - units), newEnd };
        });
    }

    tokens(begin = 0, end = this.length) {
        return this.#filled("lexemes", begin, end, ({ at, length }, values) => {
            const words = this.#heap.words(at, (length * LEXEME_SIZE) / 4).slice();
            const written = this.#heap.bytes(values.at, values.length).slice();
            return new Tokens(this.#names, words, written, this.#unitsOf(words));
        });
    }

    faults(begin = 0, end = this.length) {
        const before = (byte) => this.#offsets.unitAt(byte);
        return this.#filled("faults", begin, end, ({ at, length }, values) =>
            Array.from({ length }, (_, index) =>
                faultOf(this.#heap, this.#names, at + index * FAULT_SIZE, 24, values.at, before),
            ),
        );
    }

    slice(begin = 0, end = this.length) {
        const [from, to] = this.#range(begin, end);
        return this.#heap.within(to - from, (room) => decoder.decode(this.#read(from, to, room)));
    }

    positionAt(offset) {
        const [byte] = this.#range(offset, offset);
        return this.#heap.within(PLACE_SIZE, (place) => {
            this.#call("place", BigInt(byte), BigInt(place));
            return { line: this.#heap.number(place), character: this.#heap.number(place + 16) };
        });
    }

    offsetAt({ line, character }) {
        if (!isCount(line) || !isCount(character)) {
            return undefined;
        }
        // A number of 64 bits comes with a sign.
        const byte = BigInt.asUintN(64, this.#call("offset_at_utf16", BigInt(line), BigInt(character)));
        return byte === NO_OFFSET ? undefined : this.#offsets.unitAt(Number(byte));
    }

    /** The range of the text that a change touches: all of it where no memory is left to find it. */
    #changed(change) {
        try {
            return [0, 16].map((field) => this.#offsets.unitAt(this.#heap.number(change + field)));
        } catch {
            return [0, this.#offsets.units];
        }
    }

    #call(name, ...given) {
        return this.#heap.exports[`starlark_document_${name}`](BigInt(this.#slot), ...given);
    }

    /** Calls with some bytes, which stand between other arguments. */
    #change(bytes, name, before, ...after) {
        this.#heap.within(bytes.length, (at) => {
            this.#heap.bytes(at, bytes.length).set(bytes);
            const status = this.#call(name, ...before, ...slice({ at, length: bytes.length }), ...after);
            if (status !== STATUS.WHOLE) {
                throw errorOf(status);
            }
        });
    }

    /** The offsets in bytes of a range. */
    #range(begin, end) {
        const range = [begin, end].map((offset) => this.#offsets.byteAt(offset));
        if (range.includes(undefined) || begin > end) {
            throw new RangeError(`the text has no characters from ${begin} to ${end}`);
        }
        return range;
    }

    /** The bytes of a range, which are written to an address; undefined where it cuts a character. */
    #read(from, to, at) {
        const status = this.#call("text", BigInt(from), BigInt(to), ...slice({ at, length: to - from }));
        if (status === STATUS.MEMORY) {
            throw outOfMemory();
        }
        return status === STATUS.WHOLE ? this.#heap.bytes(at, to - from) : undefined;
    }

    /** What an action makes of the records that touch a range, and of their values. */
    #filled(name, begin, end, action) {
        const range = this.#range(begin, end).map(BigInt);
        const { size, count, wanted } = ITEMS[name];
        const heap = this.#heap;
        return heap.within(OUTCOME_SIZE, (outcome) => {
            const told = (field) => heap.number(outcome + field);
            for (let [items, values] = [64, 1024]; ; [items, values] = [told(wanted), told(RECOVERED.wanted[1])]) {
                const made = heap.within(items * size + values, (at) => {
                    const slices = [slice({ at, length: items }), slice({ at: at + items * size, length: values })];
                    const buffers = name === "faults" ? slices.reverse() : slices;
                    const status = this.#call(name, ...range, ...buffers.flat(), BigInt(outcome));
                    const found = { at: at + items * size, length: told(RECOVERED.values) };
                    return status === STATUS.FULL ? undefined : action({ at, length: told(count) }, found);
                });
                if (made) {
                    return made;
                }
            }
        });
    }

    /** The offsets in units of the spans of records, or null where they are those in bytes. */
    #unitsOf(words) {
        if (this.#offsets.isAscii || words.length === 0) {
            return null;
        }
        const [from, to] = [words[0], words.at(-7)];
        const unit = this.#offsets.unitAt(from);
        return this.#heap.within(to - from, (room) => unitsOfSpans(words, this.#read(from, to, room), from, unit));
    }
}

/** Whether a value is an offset in a text that a memory holds. */
function isCount(value) {
    return Number.isSafeInteger(value) && value >= 0;
}

/** The offsets in bytes and in units of some characters of a document: of its first, and of others that
 * were passed on the way to what was asked for. */
class Offsets {
    #read;
    #bytes = [0];
    #units = [0];
    #byteLength = 0;
    #unitLength = 0;

    /** `read` returns the bytes of a range, or undefined where it cuts a character. */
    constructor(read) {
        this.#read = read;
    }

    get units() {
        return this.#unitLength;
    }

    get isAscii() {
        return this.#byteLength === this.#unitLength;
    }

    /** Takes a change of the text: the range in bytes and in units that had been replaced, and how many
     * of both it has now. */
    replace([from, to], [begin, end], [bytes, units]) {
        const kept = lastUpTo(this.#bytes, from) + 1;
        const moved = Math.max(kept, lastUpTo(this.#bytes, to - 1) + 1);
        const grown = [bytes - (to - from), units - (end - begin)];
        this.#bytes.splice(kept, Infinity, ...this.#bytes.slice(moved).map((byte) => byte + grown[0]));
        this.#units.splice(kept, Infinity, ...this.#units.slice(moved).map((unit) => unit + grown[1]));
        this.#byteLength += grown[0];
        this.#unitLength += grown[1];
    }

    /** The offset in units of a character, by its offset in bytes. */
    unitAt(byte) {
        if (this.isAscii) {
            return byte;
        }
        let at = lastUpTo(this.#bytes, byte);
        while (byte - this.#bytes[at] > STEP) {
            at = this.#pass(at);
        }
        return this.#units[at] + unitsIn(this.#read(this.#bytes[at], byte));
    }

    /** The offset in bytes of a character, by its offset in units; undefined where none has it. */
    byteAt(unit) {
        if (!isCount(unit) || unit > this.#unitLength) {
            return undefined;
        }
        if (this.isAscii) {
            return unit;
        }
        let at = lastUpTo(this.#units, unit);
        while (unit - this.#units[at] > STEP) {
            at = this.#pass(at);
        }
        const bytes = this.#readUpTo(at, 3 * (unit - this.#units[at]));
        let byte = 0;
        for (let left = unit - this.#units[at]; left > 0 || unitsOf(bytes[byte] ?? 0) === 0; byte++) {
            left -= unitsOf(bytes[byte]);
            if (left < 0) {
                return undefined;
            }
        }
        return this.#bytes[at] + byte;
    }

    /** Keeps the character some bytes after one that is kept, and returns the number of the new one. */
    #pass(at) {
        const bytes = this.#readUpTo(at, STEP);
        this.#bytes.splice(at + 1, 0, this.#bytes[at] + bytes.length);
        this.#units.splice(at + 1, 0, this.#units[at] + unitsIn(bytes));
        return at + 1;
    }

    /** The bytes after a kept character: so many, or fewer where a character or the text ends. */
    #readUpTo(at, length) {
        const from = this.#bytes[at];
        for (let to = Math.min(from + length, this.#byteLength); ; to--) {
            const bytes = this.#read(from, to);
            if (bytes) {
                return bytes;
            }
        }
    }
}

/** The number of the last of some ascending offsets that is at most another one; the first is. */
function lastUpTo(offsets, most) {
    let low = 0;
    let high = offsets.length;
    while (high - low > 1) {
        const middle = (low + high) >> 1;
        if (offsets[middle] <= most) {
            low = middle;
        } else {
            high = middle;
        }
    }
    return low;
}
