import { Document, Fault, Lexed, Source } from "./lexer.js";

export * from "./lexer.js";

/** The tokens of a text up to its first fault, and that fault if there is one. */
export declare function lex(text: Source): Lexed;

/**
 * All tokens and all faults of a text. A reserved word, an integer with a leading 0, a character
 * that begins no token, and a tab in code keep their lines: lexing goes on after them, with all
 * brackets, f-strings and blocks open, and so it does after a literal with a bad escape, and at the
 * line end of an open quote, whose brackets count. A token stands for such a word, integer or literal.
 * After any other fault it begins again at the next line, with the blocks alone open.
 */
export declare function lexRecovering(text: Source): Lexed;

/** All faults of a text, as `lexRecovering` finds them. */
export declare function faults(text: Source): Fault[];

/** A document of a text, which stays lexed while it is edited. */
export declare function open(text: Source): Document;
