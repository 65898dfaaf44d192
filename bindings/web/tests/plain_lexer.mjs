// A plain lexer in JavaScript, to compare speeds with: the tokens of texts without faults, each with
// its kind, its span and its value. It is written for speed as one would write it: one `switch` over
// the first character, loops over the codes of characters.

const KEYWORDS = new Set("and break continue def elif else for if in lambda load not or pass return".split(" "));
const SYMBOLS = new Set(
    (", ; : += -= *= /= //= %= == != <= >= ** -> = < > - + * % / // . & | ^ << >> ~ &= |= ^= <<= >>= ... " +
        "[ { ( ] } )").split(" "),
);
const ESCAPES = { n: "\n", r: "\r", t: "\t", a: "\x07", b: "\b", f: "\f", v: "\v", "\n": "" };
const [LF, CR, SPACE, QUOTE, HASH, APOSTROPHE, DOT, BACKSLASH] = [10, 13, 32, 34, 35, 39, 46, 92];

const isDigit = (code) => code >= 48 && code <= 57;
const isLetter = (code) => (code >= 97 && code <= 122) || (code >= 65 && code <= 90) || code === 95;

/** The tokens of a text without faults. */
export class PlainLexer {
    constructor(text) {
        this.text = text;
        this.at = 0;
        this.tokens = [];
        this.depth = 0;
        this.widths = [];
        this.fstrings = [];
    }

    lex() {
        this.margin();
        while (this.at < this.text.length || this.inFStringText()) {
            if (this.inFStringText()) {
                this.fstringText();
            } else {
                this.step();
            }
        }
        this.add("Newline", this.at);
        this.widths.forEach(() => this.add("Dedent", this.at));
        return this.tokens;
    }

    add(kind, begin, value = undefined) {
        this.tokens.push({ kind, begin, end: this.at, value });
    }

    inFStringText() {
        const fstring = this.fstrings.at(-1);
        return fstring !== undefined && fstring.depth < 0;
    }

    step() {
        const begin = this.at;
        const code = this.text.charCodeAt(begin);
        if (code === SPACE || code === CR) {
            this.at++;
        } else if (code === LF) {
            this.newline(begin);
        } else if (code === HASH) {
            this.comment();
        } else if (code === QUOTE || code === APOSTROPHE) {
            this.string(begin, "");
        } else if (isLetter(code)) {
            this.word(begin);
        } else if (isDigit(code) || (code === DOT && isDigit(this.text.charCodeAt(begin + 1)))) {
            this.number(begin);
        } else if (code === BACKSLASH) {
            this.at = this.text.indexOf("\n", begin) + 1;
        } else {
            this.symbol(begin);
        }
    }

    newline(begin) {
        this.at++;
        if (this.depth > 0 || this.fstrings.length > 0) {
            return;
        }
        this.add("Newline", this.text.charCodeAt(begin - 1) === CR ? begin - 1 : begin);
        this.margin();
    }

    // Comment-only lines, and the indentation of the line after them.
    margin() {
        for (;;) {
            const begin = this.at;
            let code = this.text.charCodeAt(this.at);
            while (code === SPACE || code === CR) {
                code = this.text.charCodeAt(++this.at);
            }
            if (code === HASH) {
                this.comment();
                this.at = Math.min(this.at + 1, this.text.length);
            } else {
                if (code !== LF && this.at < this.text.length) {
                    this.indentation(begin, this.at - begin);
                }
                return;
            }
        }
    }

    indentation(begin, width) {
        if (width > (this.widths.at(-1) ?? 0)) {
            this.widths.push(width);
            this.add("Indent", begin);
        }
        while (this.widths.length > 0 && width < this.widths.at(-1)) {
            this.widths.pop();
            this.tokens.push({ kind: "Dedent", begin, end: begin, value: undefined });
        }
    }

    comment() {
        const begin = this.at;
        const end = this.text.indexOf("\n", begin);
        this.at = end < 0 ? this.text.length : end;
        const last = this.text.charCodeAt(this.at - 1) === CR ? this.at - 1 : this.at;
        this.tokens.push({ kind: "Comment", begin, end: last, value: this.text.slice(begin + 1, last) });
    }

    word(begin) {
        let code = this.text.charCodeAt(++this.at);
        while (isLetter(code) || isDigit(code)) {
            code = this.text.charCodeAt(++this.at);
        }
        const word = this.text.slice(begin, this.at);
        if ((code === QUOTE || code === APOSTROPHE) && /^(?:r|b|f|fr|rf|br|rb)$/.test(word)) {
            this.string(begin, word);
        } else if (KEYWORDS.has(word)) {
            this.add(word, begin);
        } else {
            this.add("Identifier", begin, word);
        }
    }

    number(begin) {
        const pattern = /0[xX][\da-fA-F]+|0[oO][0-7]+|0[bB][01]+|(?:\d+\.\d*|\.\d+)(?:[eE][+-]?\d+)?|\d+[eE][+-]?\d+|\d+/y;
        pattern.lastIndex = begin;
        const [word] = pattern.exec(this.text);
        this.at += word.length;
        if (/^(?:0[xXoObB]|\d+$)/.test(word)) {
            const value = Number(word);
            this.add("Int", begin, value < 2 ** 31 ? value : BigInt(word));
        } else {
            this.add("Float", begin, word);
        }
    }

    symbol(begin) {
        let length = 3;
        while (length > 1 && !SYMBOLS.has(this.text.slice(begin, begin + length))) {
            length--;
        }
        const word = this.text.slice(begin, begin + length);
        this.at += length;
        const fstring = this.fstrings.at(-1);
        if ("([{".includes(word)) {
            this.depth++;
        } else if (")]}".includes(word)) {
            if (word === "}" && fstring?.depth === this.depth) {
                fstring.depth = -1;
                this.add("FStringExprEnd", begin);
                return;
            }
            this.depth--;
        } else if (word === "!" && fstring) {
            this.add("FStringBang", begin);
            return;
        }
        this.add(word, begin);
    }

    string(begin, prefix) {
        const quote = this.text[this.at];
        const quotes = this.text.startsWith(quote.repeat(3), this.at) ? quote.repeat(3) : quote;
        this.at += quotes.length;
        const isRaw = prefix.includes("r");
        if (prefix.includes("f")) {
            this.fstrings.push({ quotes, isRaw, depth: -1 });
            this.add("FStringStart", begin, quotes);
            return;
        }
        const value = this.body(quotes, isRaw, false);
        this.at += quotes.length;
        this.add(prefix.includes("b") ? "Bytes" : "String", begin, value);
    }

    fstringText() {
        const begin = this.at;
        const fstring = this.fstrings.at(-1);
        const value = this.body(fstring.quotes, fstring.isRaw, true);
        if (value) {
            this.add("FStringText", begin, value);
        }
        const end = this.at;
        if (this.text[end] === "{") {
            this.at++;
            fstring.depth = this.depth;
            this.add("FStringExprStart", end);
        } else {
            this.at += fstring.quotes.length;
            this.fstrings.pop();
            this.add("FStringEnd", end);
        }
    }

    // The decoded text up to the quotes, or to a brace of an f-string.
    body(quotes, isRaw, isFString) {
        const { text } = this;
        const first = quotes.charCodeAt(0);
        let value = "";
        let from = this.at;
        for (;;) {
            const code = text.charCodeAt(this.at);
            if (code === first && (quotes.length === 1 || text.startsWith(quotes, this.at))) {
                return value + text.slice(from, this.at);
            }
            if (code === BACKSLASH) {
                value += text.slice(from, this.at) + this.escape(isRaw);
                from = this.at;
            } else if (code === CR) {
                value += text.slice(from, this.at);
                from = ++this.at;
            } else if (isFString && (code === 123 || code === 125)) {
                if (text.charCodeAt(this.at + 1) !== code) {
                    return value + text.slice(from, this.at);
                }
                value += text.slice(from, this.at + 1);
                this.at += 2;
                from = this.at;
            } else {
                this.at++;
            }
        }
    }

    escape(isRaw) {
        const begin = this.at;
        const letter = this.text[begin + 1];
        this.at += 2;
        if (isRaw) {
            return letter === "'" || letter === '"' ? letter : this.text.slice(begin, this.at);
        }
        if (letter in ESCAPES) {
            return ESCAPES[letter];
        }
        const digits = /[xuU]/.test(letter) ? { x: 2, u: 4, U: 8 }[letter] : 0;
        if (digits) {
            this.at += digits;
            return String.fromCodePoint(Number.parseInt(this.text.slice(begin + 2, this.at), 16));
        }
        if (/[0-7]/.test(letter)) {
            const [octal] = /^[0-7]{1,3}/.exec(this.text.slice(begin + 1, begin + 4));
            this.at = begin + 1 + octal.length;
            return String.fromCharCode(Number.parseInt(octal, 8));
        }
        return /['"\\]/.test(letter) ? letter : `\\${letter}`;
    }
}
