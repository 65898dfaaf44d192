/* The proved lexer of Starlark, for C and C++.
 *
 * Each call fills buffers of its caller. Only a starlark_document keeps memory after a call returns.
 * So calls may run at once in any number of threads, as long as no two of them write into one
 * buffer, or are given one document.
 *
 * A buffer is a pointer and its length: the number of its records, or of its bytes. With a length
 * of 0 the pointer may be NULL. No buffer has more than PTRDIFF_MAX bytes, which no allocation has.
 * What a call reads and what it writes must not overlap.
 *
 * Offsets and lengths count bytes, from 0. Texts are UTF-8 and have no terminating zero; a zero
 * byte is a character like others.
 *
 * The library is built for x86-64 and 64-bit ARM, on Linux with the GNU C library 2.17 or later or
 * with musl, and for x86-64 on Windows. For the DLL define STARLARK_LEX_SHARED before this header.
 */
#ifndef STARLARK_LEX_H
#define STARLARK_LEX_H

/* The version of this header. starlark_lex_version tells that of the library. */
#define STARLARK_LEX_VERSION_MAJOR 0
#define STARLARK_LEX_VERSION_MINOR 2
#define STARLARK_LEX_VERSION_PATCH 0

/* The version as one number: 2000 for 0.2.0. */
#define STARLARK_LEX_VERSION \
    (1000000 * STARLARK_LEX_VERSION_MAJOR + 1000 * STARLARK_LEX_VERSION_MINOR \
     + STARLARK_LEX_VERSION_PATCH)

#include <stdbool.h>
#include <stddef.h>
#include <stdint.h>

#if defined(_WIN32) && defined(STARLARK_LEX_SHARED)
#define STARLARK_LEX_API __declspec(dllimport)
#else
#define STARLARK_LEX_API
#endif

/* No call throws. */
#if defined(__cplusplus) && __cplusplus >= 201103L
#define STARLARK_LEX_NOEXCEPT noexcept
#else
#define STARLARK_LEX_NOEXCEPT
#endif

#ifdef __cplusplus
extern "C" {
#endif

/* The kinds of lexemes. A number never changes; a new kind gets the next one. */
enum starlark_kind {
    STARLARK_KIND_COMMENT = 1,
    STARLARK_KIND_INDENT = 2,
    STARLARK_KIND_DEDENT = 3,
    STARLARK_KIND_NEWLINE = 4,
    STARLARK_KIND_IDENTIFIER = 5,
    STARLARK_KIND_INT = 6,
    STARLARK_KIND_FLOAT = 7,
    STARLARK_KIND_STRING = 8,
    STARLARK_KIND_BYTES = 9,
    STARLARK_KIND_FSTRING_START = 10,
    STARLARK_KIND_FSTRING_TEXT = 11,
    STARLARK_KIND_FSTRING_EXPR_START = 12,
    STARLARK_KIND_FSTRING_EXPR_END = 13,
    STARLARK_KIND_FSTRING_BANG = 14,
    STARLARK_KIND_FSTRING_END = 15,
    STARLARK_KIND_AND = 16,
    STARLARK_KIND_BREAK = 17,
    STARLARK_KIND_CONTINUE = 18,
    STARLARK_KIND_DEF = 19,
    STARLARK_KIND_ELIF = 20,
    STARLARK_KIND_ELSE = 21,
    STARLARK_KIND_FOR = 22,
    STARLARK_KIND_IF = 23,
    STARLARK_KIND_IN = 24,
    STARLARK_KIND_LAMBDA = 25,
    STARLARK_KIND_LOAD = 26,
    STARLARK_KIND_NOT = 27,
    STARLARK_KIND_OR = 28,
    STARLARK_KIND_PASS = 29,
    STARLARK_KIND_RETURN = 30,
    STARLARK_KIND_COMMA = 31,
    STARLARK_KIND_SEMICOLON = 32,
    STARLARK_KIND_COLON = 33,
    STARLARK_KIND_PLUS_EQUAL = 34,
    STARLARK_KIND_MINUS_EQUAL = 35,
    STARLARK_KIND_STAR_EQUAL = 36,
    STARLARK_KIND_SLASH_EQUAL = 37,
    STARLARK_KIND_SLASH_SLASH_EQUAL = 38,
    STARLARK_KIND_PERCENT_EQUAL = 39,
    STARLARK_KIND_EQUAL_EQUAL = 40,
    STARLARK_KIND_BANG_EQUAL = 41,
    STARLARK_KIND_LESS_EQUAL = 42,
    STARLARK_KIND_GREATER_EQUAL = 43,
    STARLARK_KIND_STAR_STAR = 44,
    STARLARK_KIND_MINUS_GREATER = 45,
    STARLARK_KIND_EQUAL = 46,
    STARLARK_KIND_LESS_THAN = 47,
    STARLARK_KIND_GREATER_THAN = 48,
    STARLARK_KIND_MINUS = 49,
    STARLARK_KIND_PLUS = 50,
    STARLARK_KIND_STAR = 51,
    STARLARK_KIND_PERCENT = 52,
    STARLARK_KIND_SLASH = 53,
    STARLARK_KIND_SLASH_SLASH = 54,
    STARLARK_KIND_DOT = 55,
    STARLARK_KIND_AMPERSAND = 56,
    STARLARK_KIND_PIPE = 57,
    STARLARK_KIND_CARET = 58,
    STARLARK_KIND_LESS_LESS = 59,
    STARLARK_KIND_GREATER_GREATER = 60,
    STARLARK_KIND_TILDE = 61,
    STARLARK_KIND_AMPERSAND_EQUAL = 62,
    STARLARK_KIND_PIPE_EQUAL = 63,
    STARLARK_KIND_CARET_EQUAL = 64,
    STARLARK_KIND_LESS_LESS_EQUAL = 65,
    STARLARK_KIND_GREATER_GREATER_EQUAL = 66,
    STARLARK_KIND_ELLIPSIS = 67,
    STARLARK_KIND_OPENING_SQUARE = 68,
    STARLARK_KIND_OPENING_CURLY = 69,
    STARLARK_KIND_OPENING_ROUND = 70,
    STARLARK_KIND_CLOSING_SQUARE = 71,
    STARLARK_KIND_CLOSING_CURLY = 72,
    STARLARK_KIND_CLOSING_ROUND = 73
};

/* The classes of kinds, by which highlighters, editors and parsers group them. A number never
 * changes; a new class gets the next one. */
enum starlark_class {
    STARLARK_CLASS_COMMENT = 1,
    STARLARK_CLASS_LAYOUT = 2,      /* INDENT, DEDENT and NEWLINE */
    STARLARK_CLASS_NAME = 3,        /* IDENTIFIER */
    STARLARK_CLASS_NUMBER = 4,      /* INT and FLOAT */
    STARLARK_CLASS_STRING = 5,      /* STRING, BYTES, and the quotes and the text of an f-string */
    STARLARK_CLASS_KEYWORD = 6,
    STARLARK_CLASS_OPERATOR = 7,    /* a symbol that computes, compares or assigns, or is `->` */
    STARLARK_CLASS_PUNCTUATION = 8, /* `,`, `;`, `:`, `.`, `...`, and the `!` of an f-string */
    STARLARK_CLASS_BRACKET = 9      /* a bracket; also `{` and `}` of an f-string's expression */
};

/* The kinds of faults. A number never changes; a new kind gets the next one. */
enum starlark_fault {
    STARLARK_FAULT_INDENTATION = 1,
    STARLARK_FAULT_INVALID_INPUT = 2,
    STARLARK_FAULT_INVALID_TAB = 3,
    STARLARK_FAULT_UNFINISHED_STRING_LITERAL = 4,
    STARLARK_FAULT_INVALID_ESCAPE_SEQUENCE = 5,
    STARLARK_FAULT_EMPTY_ESCAPE_SEQUENCE = 6,
    STARLARK_FAULT_RESERVED_KEYWORD = 7,
    STARLARK_FAULT_STARTS_ZERO = 8,
    STARLARK_FAULT_UNFINISHED_FSTRING_EXPRESSION = 9
};

/* The quotes of an f-string: the field `detail` of a STARLARK_KIND_FSTRING_START. */
enum starlark_quotes {
    STARLARK_QUOTES_SINGLE = 1,
    STARLARK_QUOTES_DOUBLE = 2,
    STARLARK_QUOTES_TRIPLE_SINGLE = 3,
    STARLARK_QUOTES_TRIPLE_DOUBLE = 4
};

/* How lexing a text ended: what starlark_lex returns. Other calls return some of them, and say there
 * what they mean. */
enum starlark_status {
    STARLARK_STATUS_WHOLE = 0,    /* the text has no fault, and the buffers have all its lexemes */
    STARLARK_STATUS_FAULT = 1,    /* the text has a fault; the buffers have all lexemes before it */
    STARLARK_STATUS_FULL = 2,     /* the buffers have no room for the text, or the text is a front:
                                     they have a piece of it, if `next` isn't 0 */
    STARLARK_STATUS_NOT_UTF8 = 3, /* the bytes are not UTF-8 */
    STARLARK_STATUS_TOO_LONG = 4, /* the text has more than 4294967295 bytes */
    STARLARK_STATUS_MEMORY = 5,   /* malloc or realloc returned NULL */
    STARLARK_STATUS_BAD_RANGE = 6, /* two offsets aren't in order, or one isn't a character boundary
                                      of the document */
    STARLARK_STATUS_CLOSED = 7    /* the document is NULL */
};

/* A lexeme: 32 bytes without padding. */
typedef struct starlark_lexeme {
    uint32_t begin;     /* offset of its first byte in the text */
    uint32_t end;       /* offset in the text after its last byte */
    uint16_t kind;      /* an enum starlark_kind */
    uint16_t detail;    /* STARLARK_KIND_FSTRING_START: its quotes, an enum starlark_quotes;
                           STARLARK_KIND_INT with value_len > 0: the base of its digits;
                           a value that is in the text: STARLARK_IN_TEXT; else 0 */
    int32_t integer;    /* STARLARK_KIND_INT with value_len == 0: its value; else 0 */
    size_t value_begin; /* offset of its value in the buffer of values, or in the text */
    size_t value_len;   /* length of its value in bytes, 0 for a kind without a value:
                           STARLARK_KIND_COMMENT: the text after `#`
                           STARLARK_KIND_IDENTIFIER: the name
                           STARLARK_KIND_INT out of the range of int32_t: the digits, without
                               leading zeros and with letters in lower case
                           STARLARK_KIND_FLOAT: the text as it is written
                           STARLARK_KIND_STRING, STARLARK_KIND_FSTRING_TEXT: the text with its
                               escapes decoded, in UTF-8
                           STARLARK_KIND_BYTES: the bytes with their escapes decoded */
} starlark_lexeme;

/* The field `detail` of a lexeme whose value is in the text, from the byte at `value_begin` on. Only
 * starlark_lex_uncopied and starlark_lex_front_uncopied make such records. */
#define STARLARK_IN_TEXT 0x8000

/* Where the value of a lexeme begins, given a pointer to its record, and the text and the buffer of
 * values of its call. It is right for the records of all calls. */
#define STARLARK_VALUE(lexeme, text, values)                                                       \
    (((lexeme)->detail == STARLARK_IN_TEXT ? (text) : (values)) + (lexeme)->value_begin)

/* What a call of starlark_lex did. A field that names statuses is 0 with all others. */
typedef struct starlark_outcome {
    uint32_t status;          /* an enum starlark_status */
    uint32_t fault_kind;      /* FAULT: an enum starlark_fault */
    uint32_t fault_begin;     /* FAULT: offset of its first byte in the text */
    uint32_t fault_end;       /* FAULT: offset in the text after its last byte */
    size_t fault_value_begin; /* FAULT: offset in the buffer of values of the text that it names */
    size_t fault_value_len;   /* FAULT: length of that text; 0 for a kind that names none */
    size_t lexemes;           /* how many records in the buffer are right */
    size_t values;            /* how many bytes in the buffer of values are right */
    size_t next;              /* WHOLE: the length of the text;
                                 FULL: offset of a clean cut, where to go on; 0 where the buffers
                                     have no room for the first piece;
                                 NOT_UTF8: offset of the first byte that is not UTF-8 */
    size_t wanted_lexemes;    /* FULL with next == 0: how many records the first piece needs */
    size_t wanted_values;     /* FULL with next == 0: how many bytes of values it needs */
} starlark_outcome;

/* A fault of a text that is lexed on after it: 40 bytes without padding. */
typedef struct starlark_found_fault {
    uint32_t kind;         /* an enum starlark_fault */
    uint32_t begin;        /* offset of its first byte in the text */
    uint32_t end;          /* offset in the text after its last byte */
    uint32_t reserved;     /* 0 */
    size_t lexemes_before; /* how many lexemes of the text are before it */
    size_t value_begin;    /* offset in the buffer of values of the text that it names */
    size_t value_len;      /* length of that text in bytes; 0 for a kind that names none */
} starlark_found_fault;

/* What a call of starlark_lex_recovering did. A field that names statuses is 0 with all others. */
typedef struct starlark_recovered {
    uint32_t status;       /* a STARLARK_STATUS_: all but FAULT */
    size_t lexemes;        /* WHOLE, MEMORY: how many records in the buffer of lexemes are right */
    size_t values;         /* WHOLE, MEMORY: how many bytes in the buffer of values are right */
    size_t faults;         /* WHOLE, MEMORY: how many records in the buffer of faults are right */
    size_t next;           /* WHOLE: the length of the text;
                              NOT_UTF8: offset of the first byte that is not UTF-8 */
    size_t wanted_lexemes; /* FULL: how many records of lexemes the whole text needs */
    size_t wanted_values;  /* FULL: how many bytes of values it needs */
    size_t wanted_faults;  /* FULL: how many records of faults it needs */
} starlark_recovered;

/* The line and columns of an offset in a text. Each counts from 0. */
typedef struct starlark_text_place {
    size_t line;         /* how many LF are before the offset */
    size_t column;       /* how many characters are on the line before the offset */
    size_t utf16_column; /* how many units of UTF-16 these take */
} starlark_text_place;

/* A text that stays lexed while it is edited. starlark_document_open makes one, which
 * starlark_document_close frees. One thread at a time may call with it. With NULL each call says
 * that no document is open. */
typedef struct starlark_document starlark_document;

/* What an edit of a document changed. Before `begin` and after the ends all lexemes and faults are
 * the old ones; those after are moved by new_end - old_end. */
typedef struct starlark_change {
    size_t begin;   /* start of the range in both texts */
    size_t old_end; /* end of the range in the old text */
    size_t new_end; /* end of the range in the new text */
    size_t lexed;   /* how many bytes were given to the lexer */
    size_t starts;  /* how often lexing started */
    uint64_t reads; /* how many reads of bytes that took: at most 16 * (lexed + starts) */
} starlark_change;

#if defined(__cplusplus) && __cplusplus >= 201103L
#define STARLARK_LEX_ASSERT(test) static_assert(test, #test)
#elif defined(__STDC_VERSION__) && __STDC_VERSION__ >= 201112L
#define STARLARK_LEX_ASSERT(test) _Static_assert(test, #test)
#else
#define STARLARK_LEX_ASSERT(test) extern int starlark_lex_assert[(test) ? 1 : -1]
#endif
STARLARK_LEX_ASSERT(sizeof(size_t) == 8);
STARLARK_LEX_ASSERT(sizeof(bool) == 1);
STARLARK_LEX_ASSERT(sizeof(starlark_lexeme) == 32);
STARLARK_LEX_ASSERT(sizeof(starlark_outcome) == 72);
STARLARK_LEX_ASSERT(sizeof(starlark_found_fault) == 40);
STARLARK_LEX_ASSERT(sizeof(starlark_recovered) == 64);
STARLARK_LEX_ASSERT(sizeof(starlark_text_place) == 24);
STARLARK_LEX_ASSERT(sizeof(starlark_change) == 48);
#undef STARLARK_LEX_ASSERT

/* The version of the library, as STARLARK_LEX_VERSION has that of the header. */
STARLARK_LEX_API
uint32_t starlark_lex_version(void) STARLARK_LEX_NOEXCEPT;

/* Lexes a text into two buffers, says in *outcome how that ended, and returns its status.
 *
 * Up to the counts in *outcome the buffers have the records of the text's lexemes, in order, and
 * their values, one after another. After a fault's lexemes the values have the text that the fault
 * names, and `values` counts it. After what is counted the buffers are as they were, except with
 * STARLARK_STATUS_FULL: then they may have some more lexemes of the text.
 *
 * Where the buffers are full they have the lexemes up to offset `next` of the text, a clean cut: a
 * line ends there, and no bracket, block or f-string is open. The text from there on is lexed by a
 * next call, whose offsets count from there. The lexemes of all calls, one after another, are those
 * of the whole text. Each call tests that all bytes which it is given are UTF-8.
 *
 * A text of n bytes has at most 2n + 1 lexemes, and n bytes of values with the text that its fault
 * names. So buffers for these are never too small. */
STARLARK_LEX_API
uint32_t starlark_lex(const uint8_t *text, size_t text_len,
                      starlark_lexeme *lexemes, size_t lexemes_cap,
                      uint8_t *values, size_t values_cap,
                      starlark_outcome *outcome) STARLARK_LEX_NOEXCEPT;

/* Lexes the front of a longer text up to the last offset in it where the lexer finds that the text
 * may be cut. Does all else as starlark_lex with the front.
 *
 * With STARLARK_STATUS_FULL and `next` above 0 the buffers have the lexemes up to the clean cut
 * `next`, which are the first of the longer text, whatever follows the front. The text from there
 * on is lexed by a next call. With any other status no such offset was found that the buffers have
 * room for. Then STARLARK_STATUS_WHOLE and STARLARK_STATUS_FAULT say how the front ends as a text
 * of its own. How the longer text goes on is known only of a fault that is final: see
 * starlark_fault_is_final. Else lex a longer front, or all that is left by starlark_lex.
 *
 * A front ends at a character boundary, so best after an LF. It is tested for UTF-8 once. So a text
 * of any length is lexed with small buffers that stay in the caches of the processor, and a text
 * that is still being read is lexed as far as it is known. */
STARLARK_LEX_API
uint32_t starlark_lex_front(const uint8_t *front, size_t front_len,
                            starlark_lexeme *lexemes, size_t lexemes_cap,
                            uint8_t *values, size_t values_cap,
                            starlark_outcome *outcome) STARLARK_LEX_NOEXCEPT;

/* Does all as starlark_lex, but copies no value that the text has at the end of its lexeme: the record
 * has STARLARK_IN_TEXT, and `value_begin` is the offset of the value in the text. STARLARK_VALUE finds
 * either kind. The text has to stay while values are read.
 *
 * The value of a name, of a comment, of a float and of a text of an f-string is in the text where its
 * bytes are the last ones of the lexeme: so of each name, comment and float, and of a text without
 * escapes, doubled braces and CRs. That of a string or bytes literal is where its bytes are right
 * before the last byte of the lexeme, or else before the last three: so of each without escapes and
 * CRs. All other values are in the buffer, one after another, as are the digits of an integer out of
 * the range of int32_t, and the text that a fault names. */
STARLARK_LEX_API
uint32_t starlark_lex_uncopied(const uint8_t *text, size_t text_len,
                               starlark_lexeme *lexemes, size_t lexemes_cap,
                               uint8_t *values, size_t values_cap,
                               starlark_outcome *outcome) STARLARK_LEX_NOEXCEPT;

/* Does all as starlark_lex_front, but copies no value that the front has, as starlark_lex_uncopied
 * does. `value_begin` counts from the first byte of the front. */
STARLARK_LEX_API
uint32_t starlark_lex_front_uncopied(const uint8_t *front, size_t front_len,
                                     starlark_lexeme *lexemes, size_t lexemes_cap,
                                     uint8_t *values, size_t values_cap,
                                     starlark_outcome *outcome) STARLARK_LEX_NOEXCEPT;

/* Returns whether the fault of a front, which ends at an offset, is final: then it and all lexemes
 * before it are those of the longer text, whatever follows the front. It is final where the front
 * goes on after it, and ends with an LF. Give a longer front where it isn't. */
STARLARK_LEX_API
bool starlark_fault_is_final(const uint8_t *front, size_t front_len,
                             uint32_t fault_end) STARLARK_LEX_NOEXCEPT;

/* Lexes a whole text, on after each of its faults, into three buffers. Says in *outcome how that
 * ended, and returns its status.
 *
 * With STARLARK_STATUS_WHOLE the buffers have all lexemes and all faults of the text, each in
 * order, and their values. The values are one after another in the order of the text: what a fault
 * names is after the values of the lexemes before it. All offsets count from the first byte of the
 * text.
 *
 * A reserved word, an integer with a leading 0, a character that begins no token, and a tab in code
 * keep their lines: lexing goes on after them, with all brackets, f-strings and blocks open. So it
 * does after a literal with a bad escape, if that is closed, and at the line end that stops an open
 * quote outside of f-strings, where the brackets in it count. After any other fault it begins again
 * at the next line, with the blocks alone open. Each fault that keeps its line, but the tab, names
 * its text.
 *
 * The first lexeme after the fault stands for it, where it is a reserved word (an identifier), an
 * integer with a leading 0 (an integer, in decimal), or such a literal (a string or bytes, with its
 * body as it is written). So a parser can go on, and a caller may take a reserved word as a name.
 *
 * With STARLARK_STATUS_FULL one of the buffers has no room for all. A next call with buffers of the
 * wanted sizes has room. So one call with empty buffers tells how much a text needs. The buffers
 * have the lexemes and faults before the first that has no room, of which nothing is counted. With
 * STARLARK_STATUS_MEMORY they have the first lexemes and faults of the text. After what they have
 * they are as they were.
 *
 * The call tests once that the bytes are UTF-8, and lexes each byte once. It copies no text. */
STARLARK_LEX_API
uint32_t starlark_lex_recovering(const uint8_t *text, size_t text_len,
                                 starlark_lexeme *lexemes, size_t lexemes_cap,
                                 uint8_t *values, size_t values_cap,
                                 starlark_found_fault *faults, size_t faults_cap,
                                 starlark_recovered *outcome) STARLARK_LEX_NOEXCEPT;

/* What starlark_restart returns where no fault of the text has the numbers. */
#define STARLARK_NO_RESTART SIZE_MAX

/* Returns the offset at which a caller begins anew after a fault, without a state: the start of a
 * later line, or the end of the text. What comes from there on is lexed as a text of its own, with
 * no open bracket, block or f-string.
 *
 * The text is the one that the call of starlark_lex was given, and the numbers are those of its
 * outcome. For others it returns STARLARK_NO_RESTART: where the text is not UTF-8, where an offset
 * is past its end, inside a character or out of order, or where no fault has the number. So buffers
 * of a fixed size serve a text with faults by
 *
 *     size_t from = 0;
 *     do {
 *         const uint8_t *rest = text + from;
 *         size_t rest_len = text_len - from;
 *         starlark_lex(rest, rest_len, lexemes, lexemes_cap, values, values_cap, &outcome);
 *         show(from, lexemes, values, &outcome);
 *         if (outcome.status == STARLARK_STATUS_FAULT)
 *             from += starlark_restart(rest, rest_len, outcome.fault_begin, outcome.fault_end,
 *                                      outcome.fault_kind);
 *         else
 *             from += outcome.next;
 *     } while (outcome.status == STARLARK_STATUS_FAULT
 *              || (outcome.status == STARLARK_STATUS_FULL && outcome.next > 0));
 *
 * where offsets of lexemes and faults count from `from`. With STARLARK_STATUS_FULL and `next` 0
 * larger buffers are wanted. The loop leaves out what is on the line after a fault. Both calls test
 * that all bytes from there on are UTF-8. So a text with n faults, far from each other, is read n
 * times. starlark_lex_recovering reads the text once, and finds more: it goes on within the line
 * after a fault that keeps its line. */
STARLARK_LEX_API
size_t starlark_restart(const uint8_t *text, size_t text_len,
                        uint32_t fault_begin, uint32_t fault_end,
                        uint32_t fault_kind) STARLARK_LEX_NOEXCEPT;

/* Tells the line and columns of an offset in *place, and returns true. Where the offset is past the
 * end of the text, or the text up to it is not UTF-8, as inside a character, it returns false, and
 * *place is as it was. It reads the text up to the offset. */
STARLARK_LEX_API
bool starlark_place(const uint8_t *text, size_t text_len, size_t at,
                    starlark_text_place *place) STARLARK_LEX_NOEXCEPT;

/* Moves *place from one offset of a text to a later one, and returns true. It has to be the place
 * of the first offset, and is then what starlark_place tells of the later one. Where the offsets
 * are out of order or past the end of the text, or the bytes between are not UTF-8, it returns
 * false, and *place is as it was. It reads only the bytes between. So all places of a text cost one
 * pass:
 *
 *     starlark_text_place place = {0, 0, 0};
 *     size_t at = 0;
 *     for (size_t index = 0; index < outcome.lexemes; index++) {
 *         starlark_move_place(text, text_len, at, lexemes[index].begin, &place);
 *         at = lexemes[index].begin;
 *         show(&lexemes[index], &place);
 *     } */
STARLARK_LEX_API
bool starlark_move_place(const uint8_t *text, size_t text_len, size_t from, size_t to,
                         starlark_text_place *place) STARLARK_LEX_NOEXCEPT;

/* Returns the name of a kind, such as "Identifier"; NULL for a number that no kind has. This
 * string, and those of the calls below, are the library's, and stay. */
STARLARK_LEX_API
const char *starlark_kind_name(uint32_t kind) STARLARK_LEX_NOEXCEPT;

/* Returns the class of a kind, an enum starlark_class; 0 for a number that no kind has. */
STARLARK_LEX_API
uint32_t starlark_kind_class(uint32_t kind) STARLARK_LEX_NOEXCEPT;

/* Returns the code of a fault, such as "SL008"; NULL for a number that no fault has. A code never
 * changes. */
STARLARK_LEX_API
const char *starlark_fault_code(uint32_t kind) STARLARK_LEX_NOEXCEPT;

/* Returns what a status means, such as "the bytes are not UTF-8"; NULL for a number that no status
 * has. */
STARLARK_LEX_API
const char *starlark_status_text(uint32_t status) STARLARK_LEX_NOEXCEPT;

/* Writes the message of a fault, if there is room for it, without a terminating zero. `named` is
 * the text that the fault names. Returns the message's length in bytes, which is 0 for a number
 * that no fault has. */
STARLARK_LEX_API
size_t starlark_fault_message(uint32_t kind, const uint8_t *named, size_t named_len,
                              uint8_t *message, size_t message_cap) STARLARK_LEX_NOEXCEPT;

/* What starlark_document_offset_at_utf16 returns where there is no offset. */
#define STARLARK_NO_OFFSET SIZE_MAX

/* Returns a new document of a text, which it lexes, and says in *status how that ended.
 *
 * With STARLARK_STATUS_WHOLE the document has this text. Else it returns NULL, and the status is
 * STARLARK_STATUS_NOT_UTF8, STARLARK_STATUS_TOO_LONG or STARLARK_STATUS_MEMORY. `status` may be
 * NULL. */
STARLARK_LEX_API
starlark_document *starlark_document_open(const uint8_t *text, size_t text_len,
                                          uint32_t *status) STARLARK_LEX_NOEXCEPT;

/* Replaces the bytes from `begin` to `end` by a text, lexes what that touches, and returns a status.
 *
 * With STARLARK_STATUS_WHOLE the document has the new text, and *change says what changed. With any
 * other status both are as they were: STARLARK_STATUS_CLOSED, STARLARK_STATUS_NOT_UTF8 where the new
 * bytes are not, STARLARK_STATUS_BAD_RANGE, STARLARK_STATUS_TOO_LONG where the text would have more
 * than 4294967295 bytes, or STARLARK_STATUS_MEMORY. */
STARLARK_LEX_API
uint32_t starlark_document_edit(starlark_document *document, size_t begin, size_t end,
                                const uint8_t *text, size_t text_len,
                                starlark_change *change) STARLARK_LEX_NOEXCEPT;

/* Fills two buffers with the lexemes that touch the range from `begin` to `end`, says in *outcome
 * how that ended, and returns its status. A lexeme touches it that ends at `begin` or later, and
 * begins at `end` or earlier; so 0 and SIZE_MAX are a range of all.
 *
 * With STARLARK_STATUS_WHOLE the buffers have the records of all of them, in order, and their
 * values, one after another. Offsets count from the first byte of the document; `next` is 0. With
 * STARLARK_STATUS_FULL some buffer has no room for all, and the outcome says how much is wanted. The
 * buffers have the lexemes before the first that has no room. With STARLARK_STATUS_CLOSED they are
 * as they were. The call allocates nothing.
 *
 * After an edit the lexemes that touched the old range of its change are to be replaced by those
 * that touch the new one. */
STARLARK_LEX_API
uint32_t starlark_document_lexemes(const starlark_document *document, size_t begin, size_t end,
                                   starlark_lexeme *lexemes, size_t lexemes_cap,
                                   uint8_t *values, size_t values_cap,
                                   starlark_recovered *outcome) STARLARK_LEX_NOEXCEPT;

/* Fills two buffers with the faults that touch the range from `begin` to `end`: the texts that they
 * name, one after another, and a record for each. All else is as of starlark_document_lexemes. In
 * the records `lexemes_before` is 0. */
STARLARK_LEX_API
uint32_t starlark_document_faults(const starlark_document *document, size_t begin, size_t end,
                                  uint8_t *values, size_t values_cap,
                                  starlark_found_fault *faults, size_t faults_cap,
                                  starlark_recovered *outcome) STARLARK_LEX_NOEXCEPT;

/* Writes the bytes from `begin` to `end` into a buffer, and returns a status.
 *
 * With STARLARK_STATUS_WHOLE the buffer begins with them. With any other status it is as it was:
 * STARLARK_STATUS_FULL where it has no room, STARLARK_STATUS_BAD_RANGE, STARLARK_STATUS_MEMORY or
 * STARLARK_STATUS_CLOSED. */
STARLARK_LEX_API
uint32_t starlark_document_text(const starlark_document *document, size_t begin, size_t end,
                                uint8_t *text, size_t text_cap) STARLARK_LEX_NOEXCEPT;

/* Returns the length of the text in bytes; 0 of NULL. */
STARLARK_LEX_API
size_t starlark_document_len(const starlark_document *document) STARLARK_LEX_NOEXCEPT;

/* Tells the line and columns of an offset in *place, and returns true. Where the offset is no
 * character boundary of the text, or the document is NULL, it returns false, and *place is as it
 * was. It reads one segment of the text, of some 1 to 4 KB. */
STARLARK_LEX_API
bool starlark_document_place(const starlark_document *document, size_t at,
                             starlark_text_place *place) STARLARK_LEX_NOEXCEPT;

/* Returns the offset of a line and a column in units of UTF-16, both from 0, or STARLARK_NO_OFFSET
 * where no character boundary is there, or the document is NULL. */
STARLARK_LEX_API
size_t starlark_document_offset_at_utf16(const starlark_document *document, size_t line,
                                         size_t column) STARLARK_LEX_NOEXCEPT;

/* Frees a document. NULL is none. */
STARLARK_LEX_API
void starlark_document_close(starlark_document *document) STARLARK_LEX_NOEXCEPT;

#ifdef __cplusplus
}
#endif

#undef STARLARK_LEX_NOEXCEPT

#endif
