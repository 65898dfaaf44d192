/**
 * A text: a string, or its bytes in UTF-8. A lone surrogate in a string is lexed as U+FFFD, as
 * TextEncoder encodes it; it still counts as one unit of UTF-16, and as three bytes.
 */
export type Source = string | Uint8Array;

/** The kind of a token. */
export type Kind =
    | "Comment"
    | "Indent"
    | "Dedent"
    | "Newline"
    | "Identifier"
    | "Int"
    | "Float"
    | "String"
    | "Bytes"
    | "FStringStart"
    | "FStringText"
    | "FStringExprStart"
    | "FStringExprEnd"
    | "FStringBang"
    | "FStringEnd"
    | "And"
    | "Break"
    | "Continue"
    | "Def"
    | "Elif"
    | "Else"
    | "For"
    | "If"
    | "In"
    | "Lambda"
    | "Load"
    | "Not"
    | "Or"
    | "Pass"
    | "Return"
    | "Comma"
    | "Semicolon"
    | "Colon"
    | "PlusEqual"
    | "MinusEqual"
    | "StarEqual"
    | "SlashEqual"
    | "SlashSlashEqual"
    | "PercentEqual"
    | "EqualEqual"
    | "BangEqual"
    | "LessEqual"
    | "GreaterEqual"
    | "StarStar"
    | "MinusGreater"
    | "Equal"
    | "LessThan"
    | "GreaterThan"
    | "Minus"
    | "Plus"
    | "Star"
    | "Percent"
    | "Slash"
    | "SlashSlash"
    | "Dot"
    | "Ampersand"
    | "Pipe"
    | "Caret"
    | "LessLess"
    | "GreaterGreater"
    | "Tilde"
    | "AmpersandEqual"
    | "PipeEqual"
    | "CaretEqual"
    | "LessLessEqual"
    | "GreaterGreaterEqual"
    | "Ellipsis"
    | "OpeningSquare"
    | "OpeningCurly"
    | "OpeningRound"
    | "ClosingSquare"
    | "ClosingCurly"
    | "ClosingRound";

/** What a kind of token is to a highlighter, an editor or a parser. */
export type KindClass =
    | "Comment"
    /** `Indent`, `Dedent` or `Newline`. */
    | "Layout"
    | "Name"
    | "Number"
    /** A string, bytes, or the quotes or the text of an f-string. */
    | "String"
    | "Keyword"
    /** A symbol that computes, compares or assigns, or is `->`. */
    | "Operator"
    /** `,`, `;`, `:`, `.`, `...`, or the `!` of an f-string's expression. */
    | "Punctuation"
    /** Also the `{` and `}` of an f-string's expression. */
    | "Bracket";

/** The kind of a fault. */
export type FaultKind =
    | "Indentation"
    | "InvalidInput"
    | "InvalidTab"
    | "UnfinishedStringLiteral"
    | "InvalidEscapeSequence"
    | "EmptyEscapeSequence"
    | "ReservedKeyword"
    | "StartsZero"
    | "UnfinishedFStringExpression";

/** The quotes of an f-string, the value of its `FStringStart`. */
export type Quotes = "Single" | "Double" | "TripleSingle" | "TripleDouble";

/**
 * The value of a token:
 *
 * - `Comment`: a string, the text after `#`
 * - `Identifier`: a string, the name
 * - `Int`: a number up to 2147483647, a bigint above
 * - `Float`: a string, as it is written
 * - `String`, `FStringText`: a string, with its escapes decoded
 * - `Bytes`: a Uint8Array, with its escapes decoded
 * - `FStringStart`: its `Quotes`
 * - every other kind: undefined
 */
export type Value = string | number | bigint | Uint8Array | undefined;

/** The place of a token or a fault in its text. Offsets count from 0; an end is the offset after it. */
export interface Span {
    /** Offset in units of UTF-16, as of `String.prototype.slice`. */
    readonly begin: number;
    readonly end: number;
    /** Offset in bytes of UTF-8. */
    readonly beginByte: number;
    readonly endByte: number;
}

/** A token with its span. */
export interface Token extends Span {
    readonly kind: Kind;
    readonly kindClass: KindClass;
    /** The value, which is decoded each time that it is asked for. */
    readonly value: Value;
    toJSON(): TokenJson;
}

/**
 * A token as JSON has it. Its value is a string; bytes in hexadecimal digits; an integer as a number
 * where 53 bits hold it, else as a string; or null where it has none.
 */
export interface TokenJson extends Span {
    readonly kind: Kind;
    readonly value: string | number | null;
}

/**
 * The tokens of a text, in order. A token is an object from when it is asked for. The other calls
 * tell a part of the token of a number from 0, and make no object; the number is below `length`.
 */
export interface Tokens extends Iterable<Token> {
    readonly length: number;
    /** The token of a number, which counts from the last one if it is negative; undefined where there is none. */
    at(index: number): Token | undefined;
    toJSON(): Token[];
    kind(index: number): Kind;
    kindClass(index: number): KindClass;
    begin(index: number): number;
    end(index: number): number;
    beginByte(index: number): number;
    endByte(index: number): number;
    value(index: number): Value;
}

/** Why a text isn't Starlark's tokens, with the place. */
export interface Fault extends Span {
    /** The code of the kind, as `SL008`. It never changes. */
    readonly code: string;
    readonly kind: FaultKind;
    readonly message: string;
    /** How many tokens of the text are before the fault. */
    readonly tokensBefore: number;
}

/** The tokens and the faults of a text, each in order. */
export interface Lexed {
    readonly tokens: Tokens;
    readonly faults: readonly Fault[];
}

/**
 * Lexes texts by a module of WebAssembly. What a call returns has memory of its own, and no later
 * call changes it. A call throws
 *
 * - `TypeError` where the bytes of a text are not UTF-8, and for what is no text;
 * - `RangeError` where a text has more than 4294967295 bytes, or memory ran out.
 *
 * After an error the next call is as good as the first.
 */
export declare class Lexer {
    /** Takes the bytes of `starlark_lex.wasm`, or the module that was compiled of them. */
    constructor(wasm: BufferSource | WebAssembly.Module);
    /** The tokens of a text up to its first fault, and that fault if there is one. */
    lex(text: Source): Lexed;
    /**
     * All tokens and all faults of a text. A reserved word, an integer with a leading 0, a
     * character that begins no token, and a tab in code keep their lines: lexing goes on after
     * them, with all brackets, f-strings and blocks open, and so it does after a literal with a bad
     * escape, and at the line end of an open quote, whose brackets count. A token stands for such a
     * word, integer or literal. After any other fault it begins again at the next line, with the
     * blocks alone open.
     */
    lexRecovering(text: Source): Lexed;
    /** All faults of a text, as `lexRecovering` finds them. */
    faults(text: Source): Fault[];
    /** A document of a text, with its own memory, which goes with the document. */
    open(text: Source): Document;
}

/** A fault of a document. */
export type DocumentFault = Omit<Fault, "tokensBefore">;

/** A place in a document: a line from 0, and units of UTF-16 before it in the line, as editors tell it. */
export interface Position {
    readonly line: number;
    readonly character: number;
}

/**
 * What an edit of a document changed. Before `begin` and after the ends all tokens and faults are the
 * old ones; those after are moved by `newEnd - oldEnd`.
 */
export interface Change {
    readonly begin: number;
    /** End of the range in the text before the edit. */
    readonly oldEnd: number;
    /** End of the range in the text after it. */
    readonly newEnd: number;
}

/**
 * A text that stays lexed while it is edited; `open` makes one. Offsets count units of UTF-16. A call
 * throws a `RangeError` where an offset is past the end or cuts a character, or where memory ran out,
 * and a `TypeError` as calls of `Lexer` do. After an error the document is as it was.
 */
export declare class Document {
    private constructor();
    /** How many units of UTF-16 the text has. */
    readonly length: number;
    /** Replaces what is between two offsets by a text, and lexes what that touches. */
    edit(begin: number, end: number, text: Source): Change;
    /**
     * The tokens that touch a range: those that end at `begin` or later, and begin at `end` or earlier.
     * Without a range, all. After an edit the tokens that touched its old range are to be replaced by
     * those that touch the new one.
     */
    tokens(begin?: number, end?: number): Tokens;
    /** The faults that touch a range, as `tokens` tells it. */
    faults(begin?: number, end?: number): DocumentFault[];
    /** The text between two offsets. */
    slice(begin?: number, end?: number): string;
    positionAt(offset: number): Position;
    /** The offset of a position, or undefined where no character is there. */
    offsetAt(position: Position): number | undefined;
}
