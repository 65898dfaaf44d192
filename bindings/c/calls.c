/* The calls of the header, over the proved ones.
 *
 * A proved call takes no NULL. Each call here passes its arguments on to the proved one, and with a
 * length of 0 the address of an object that nothing reads or writes in place of the pointer. Where
 * the library is linked, the name of each proved call gets `proved_` before it. */
#include "starlark_lex.h"

/* For macOS this is compiled without the headers of C. */
void *malloc(size_t size);
void free(void *block);

/* A document as the proved calls take it: a slot, which is free where it is zeroed. They read and
 * write a slot in each call, so calls that only read a document are given a copy of its slot. */
struct starlark_document {
    void *inner;
    bool is_full;
};

#define PROVED(call) extern __typeof__(call) proved_##call

PROVED(starlark_lex_version);
PROVED(starlark_lex);
PROVED(starlark_lex_front);
PROVED(starlark_lex_uncopied);
PROVED(starlark_lex_front_uncopied);
PROVED(starlark_fault_is_final);
PROVED(starlark_lex_recovering);
PROVED(starlark_restart);
PROVED(starlark_place);
PROVED(starlark_move_place);
PROVED(starlark_kind_class);
PROVED(starlark_fault_message);
PROVED(starlark_document_edit);
PROVED(starlark_document_close);
extern uint32_t proved_starlark_document_open(starlark_document *slot, const uint8_t *text,
                                              size_t text_len);
extern uint32_t proved_starlark_document_lexemes(starlark_document *slot, size_t begin, size_t end,
                                                 starlark_lexeme *lexemes, size_t lexemes_cap,
                                                 uint8_t *values, size_t values_cap,
                                                 starlark_recovered *outcome);
extern uint32_t proved_starlark_document_faults(starlark_document *slot, size_t begin, size_t end,
                                                uint8_t *values, size_t values_cap,
                                                starlark_found_fault *faults, size_t faults_cap,
                                                starlark_recovered *outcome);
extern uint32_t proved_starlark_document_text(starlark_document *slot, size_t begin, size_t end,
                                              uint8_t *text, size_t text_cap);
extern size_t proved_starlark_document_len(starlark_document *slot);
extern bool proved_starlark_document_place(starlark_document *slot, size_t at,
                                           starlark_text_place *place);
extern size_t proved_starlark_document_offset_at_utf16(starlark_document *slot, size_t line,
                                                       size_t column);

/* The names of kinds, which the grammar's table has, too. */
static const char *const kind_names[] = {
    [STARLARK_KIND_COMMENT] = "Comment",
    [STARLARK_KIND_INDENT] = "Indent",
    [STARLARK_KIND_DEDENT] = "Dedent",
    [STARLARK_KIND_NEWLINE] = "Newline",
    [STARLARK_KIND_IDENTIFIER] = "Identifier",
    [STARLARK_KIND_INT] = "Int",
    [STARLARK_KIND_FLOAT] = "Float",
    [STARLARK_KIND_STRING] = "String",
    [STARLARK_KIND_BYTES] = "Bytes",
    [STARLARK_KIND_FSTRING_START] = "FStringStart",
    [STARLARK_KIND_FSTRING_TEXT] = "FStringText",
    [STARLARK_KIND_FSTRING_EXPR_START] = "FStringExprStart",
    [STARLARK_KIND_FSTRING_EXPR_END] = "FStringExprEnd",
    [STARLARK_KIND_FSTRING_BANG] = "FStringBang",
    [STARLARK_KIND_FSTRING_END] = "FStringEnd",
    [STARLARK_KIND_AND] = "And",
    [STARLARK_KIND_BREAK] = "Break",
    [STARLARK_KIND_CONTINUE] = "Continue",
    [STARLARK_KIND_DEF] = "Def",
    [STARLARK_KIND_ELIF] = "Elif",
    [STARLARK_KIND_ELSE] = "Else",
    [STARLARK_KIND_FOR] = "For",
    [STARLARK_KIND_IF] = "If",
    [STARLARK_KIND_IN] = "In",
    [STARLARK_KIND_LAMBDA] = "Lambda",
    [STARLARK_KIND_LOAD] = "Load",
    [STARLARK_KIND_NOT] = "Not",
    [STARLARK_KIND_OR] = "Or",
    [STARLARK_KIND_PASS] = "Pass",
    [STARLARK_KIND_RETURN] = "Return",
    [STARLARK_KIND_COMMA] = "Comma",
    [STARLARK_KIND_SEMICOLON] = "Semicolon",
    [STARLARK_KIND_COLON] = "Colon",
    [STARLARK_KIND_PLUS_EQUAL] = "PlusEqual",
    [STARLARK_KIND_MINUS_EQUAL] = "MinusEqual",
    [STARLARK_KIND_STAR_EQUAL] = "StarEqual",
    [STARLARK_KIND_SLASH_EQUAL] = "SlashEqual",
    [STARLARK_KIND_SLASH_SLASH_EQUAL] = "SlashSlashEqual",
    [STARLARK_KIND_PERCENT_EQUAL] = "PercentEqual",
    [STARLARK_KIND_EQUAL_EQUAL] = "EqualEqual",
    [STARLARK_KIND_BANG_EQUAL] = "BangEqual",
    [STARLARK_KIND_LESS_EQUAL] = "LessEqual",
    [STARLARK_KIND_GREATER_EQUAL] = "GreaterEqual",
    [STARLARK_KIND_STAR_STAR] = "StarStar",
    [STARLARK_KIND_MINUS_GREATER] = "MinusGreater",
    [STARLARK_KIND_EQUAL] = "Equal",
    [STARLARK_KIND_LESS_THAN] = "LessThan",
    [STARLARK_KIND_GREATER_THAN] = "GreaterThan",
    [STARLARK_KIND_MINUS] = "Minus",
    [STARLARK_KIND_PLUS] = "Plus",
    [STARLARK_KIND_STAR] = "Star",
    [STARLARK_KIND_PERCENT] = "Percent",
    [STARLARK_KIND_SLASH] = "Slash",
    [STARLARK_KIND_SLASH_SLASH] = "SlashSlash",
    [STARLARK_KIND_DOT] = "Dot",
    [STARLARK_KIND_AMPERSAND] = "Ampersand",
    [STARLARK_KIND_PIPE] = "Pipe",
    [STARLARK_KIND_CARET] = "Caret",
    [STARLARK_KIND_LESS_LESS] = "LessLess",
    [STARLARK_KIND_GREATER_GREATER] = "GreaterGreater",
    [STARLARK_KIND_TILDE] = "Tilde",
    [STARLARK_KIND_AMPERSAND_EQUAL] = "AmpersandEqual",
    [STARLARK_KIND_PIPE_EQUAL] = "PipeEqual",
    [STARLARK_KIND_CARET_EQUAL] = "CaretEqual",
    [STARLARK_KIND_LESS_LESS_EQUAL] = "LessLessEqual",
    [STARLARK_KIND_GREATER_GREATER_EQUAL] = "GreaterGreaterEqual",
    [STARLARK_KIND_ELLIPSIS] = "Ellipsis",
    [STARLARK_KIND_OPENING_SQUARE] = "OpeningSquare",
    [STARLARK_KIND_OPENING_CURLY] = "OpeningCurly",
    [STARLARK_KIND_OPENING_ROUND] = "OpeningRound",
    [STARLARK_KIND_CLOSING_SQUARE] = "ClosingSquare",
    [STARLARK_KIND_CLOSING_CURLY] = "ClosingCurly",
    [STARLARK_KIND_CLOSING_ROUND] = "ClosingRound",
};

static const char *const fault_codes[] = {
    [STARLARK_FAULT_INDENTATION] = "SL001",
    [STARLARK_FAULT_INVALID_INPUT] = "SL002",
    [STARLARK_FAULT_INVALID_TAB] = "SL003",
    [STARLARK_FAULT_UNFINISHED_STRING_LITERAL] = "SL004",
    [STARLARK_FAULT_INVALID_ESCAPE_SEQUENCE] = "SL005",
    [STARLARK_FAULT_EMPTY_ESCAPE_SEQUENCE] = "SL006",
    [STARLARK_FAULT_RESERVED_KEYWORD] = "SL007",
    [STARLARK_FAULT_STARTS_ZERO] = "SL008",
    [STARLARK_FAULT_UNFINISHED_FSTRING_EXPRESSION] = "SL009",
};

static const char *const status_texts[] = {
    [STARLARK_STATUS_WHOLE] = "the text has no fault",
    [STARLARK_STATUS_FAULT] = "the text has a fault",
    [STARLARK_STATUS_FULL] = "the buffers have no room for the text",
    [STARLARK_STATUS_NOT_UTF8] = "the bytes are not UTF-8",
    [STARLARK_STATUS_TOO_LONG] = "the text has more than 4294967295 bytes",
    [STARLARK_STATUS_MEMORY] = "out of memory",
    [STARLARK_STATUS_BAD_RANGE] = "the range is not one of the text",
    [STARLARK_STATUS_CLOSED] = "no document is open",
};

/* The string of a number, or NULL where the table has none. */
#define STRING_OF(table, number)                                                                   \
    ((number) < sizeof(table) / sizeof *(table) ? (table)[number] : NULL)

/* Aligned for each record. */
static uint64_t nothing;

/* A pointer to read from, or another one where the length is 0. */
static const uint8_t *input(const uint8_t *at, size_t len)
{
    return len == 0 ? (const uint8_t *)&nothing : at;
}

/* A pointer to write to, or another one where the length is 0. */
static void *output(void *at, size_t len)
{
    return len == 0 ? &nothing : at;
}

uint32_t starlark_lex_version(void)
{
    return proved_starlark_lex_version();
}

uint32_t starlark_lex(const uint8_t *text, size_t text_len, starlark_lexeme *lexemes,
                      size_t lexemes_cap, uint8_t *values, size_t values_cap,
                      starlark_outcome *outcome)
{
    return proved_starlark_lex(input(text, text_len), text_len, output(lexemes, lexemes_cap),
                               lexemes_cap, output(values, values_cap), values_cap, outcome);
}

uint32_t starlark_lex_front(const uint8_t *front, size_t front_len, starlark_lexeme *lexemes,
                            size_t lexemes_cap, uint8_t *values, size_t values_cap,
                            starlark_outcome *outcome)
{
    return proved_starlark_lex_front(input(front, front_len), front_len,
                                     output(lexemes, lexemes_cap), lexemes_cap,
                                     output(values, values_cap), values_cap, outcome);
}

uint32_t starlark_lex_uncopied(const uint8_t *text, size_t text_len, starlark_lexeme *lexemes,
                               size_t lexemes_cap, uint8_t *values, size_t values_cap,
                               starlark_outcome *outcome)
{
    return proved_starlark_lex_uncopied(input(text, text_len), text_len,
                                        output(lexemes, lexemes_cap), lexemes_cap,
                                        output(values, values_cap), values_cap, outcome);
}

uint32_t starlark_lex_front_uncopied(const uint8_t *front, size_t front_len,
                                     starlark_lexeme *lexemes, size_t lexemes_cap, uint8_t *values,
                                     size_t values_cap, starlark_outcome *outcome)
{
    return proved_starlark_lex_front_uncopied(input(front, front_len), front_len,
                                              output(lexemes, lexemes_cap), lexemes_cap,
                                              output(values, values_cap), values_cap, outcome);
}

bool starlark_fault_is_final(const uint8_t *front, size_t front_len, uint32_t fault_end)
{
    return proved_starlark_fault_is_final(input(front, front_len), front_len, fault_end);
}

uint32_t starlark_lex_recovering(const uint8_t *text, size_t text_len, starlark_lexeme *lexemes,
                                 size_t lexemes_cap, uint8_t *values, size_t values_cap,
                                 starlark_found_fault *faults, size_t faults_cap,
                                 starlark_recovered *outcome)
{
    return proved_starlark_lex_recovering(
        input(text, text_len), text_len, output(lexemes, lexemes_cap), lexemes_cap,
        output(values, values_cap), values_cap, output(faults, faults_cap), faults_cap, outcome);
}

size_t starlark_restart(const uint8_t *text, size_t text_len, uint32_t fault_begin,
                        uint32_t fault_end, uint32_t fault_kind)
{
    return proved_starlark_restart(input(text, text_len), text_len, fault_begin, fault_end,
                                   fault_kind);
}

bool starlark_place(const uint8_t *text, size_t text_len, size_t at, starlark_text_place *place)
{
    return proved_starlark_place(input(text, text_len), text_len, at, place);
}

bool starlark_move_place(const uint8_t *text, size_t text_len, size_t from, size_t to,
                         starlark_text_place *place)
{
    return proved_starlark_move_place(input(text, text_len), text_len, from, to, place);
}

const char *starlark_kind_name(uint32_t kind)
{
    return STRING_OF(kind_names, kind);
}

uint32_t starlark_kind_class(uint32_t kind)
{
    return proved_starlark_kind_class(kind);
}

const char *starlark_fault_code(uint32_t kind)
{
    return STRING_OF(fault_codes, kind);
}

const char *starlark_status_text(uint32_t status)
{
    return STRING_OF(status_texts, status);
}

size_t starlark_fault_message(uint32_t kind, const uint8_t *named, size_t named_len,
                              uint8_t *message, size_t message_cap)
{
    return proved_starlark_fault_message(kind, input(named, named_len), named_len,
                                         output(message, message_cap), message_cap);
}

/* A copy of a document's slot, which is free where there is no document. */
static starlark_document slot_of(const starlark_document *document)
{
    return document == NULL ? (starlark_document){NULL, false} : *document;
}

starlark_document *starlark_document_open(const uint8_t *text, size_t text_len, uint32_t *status)
{
    starlark_document *document = malloc(sizeof *document);
    uint32_t told = STARLARK_STATUS_MEMORY;
    if (document != NULL) {
        *document = (starlark_document){NULL, false};
        told = proved_starlark_document_open(document, input(text, text_len), text_len);
    }
    if (status != NULL)
        *status = told;
    if (told == STARLARK_STATUS_WHOLE)
        return document;
    free(document);
    return NULL;
}

uint32_t starlark_document_edit(starlark_document *document, size_t begin, size_t end,
                                const uint8_t *text, size_t text_len, starlark_change *change)
{
    starlark_document none = {NULL, false};
    return proved_starlark_document_edit(document == NULL ? &none : document, begin, end,
                                         input(text, text_len), text_len, change);
}

uint32_t starlark_document_lexemes(const starlark_document *document, size_t begin, size_t end,
                                   starlark_lexeme *lexemes, size_t lexemes_cap, uint8_t *values,
                                   size_t values_cap, starlark_recovered *outcome)
{
    starlark_document slot = slot_of(document);
    return proved_starlark_document_lexemes(&slot, begin, end, output(lexemes, lexemes_cap),
                                            lexemes_cap, output(values, values_cap), values_cap,
                                            outcome);
}

uint32_t starlark_document_faults(const starlark_document *document, size_t begin, size_t end,
                                  uint8_t *values, size_t values_cap, starlark_found_fault *faults,
                                  size_t faults_cap, starlark_recovered *outcome)
{
    starlark_document slot = slot_of(document);
    return proved_starlark_document_faults(&slot, begin, end, output(values, values_cap),
                                           values_cap, output(faults, faults_cap), faults_cap,
                                           outcome);
}

uint32_t starlark_document_text(const starlark_document *document, size_t begin, size_t end,
                                uint8_t *text, size_t text_cap)
{
    starlark_document slot = slot_of(document);
    return proved_starlark_document_text(&slot, begin, end, output(text, text_cap), text_cap);
}

size_t starlark_document_len(const starlark_document *document)
{
    starlark_document slot = slot_of(document);
    return proved_starlark_document_len(&slot);
}

bool starlark_document_place(const starlark_document *document, size_t at,
                             starlark_text_place *place)
{
    starlark_document slot = slot_of(document);
    return proved_starlark_document_place(&slot, at, place);
}

size_t starlark_document_offset_at_utf16(const starlark_document *document, size_t line,
                                         size_t column)
{
    starlark_document slot = slot_of(document);
    return proved_starlark_document_offset_at_utf16(&slot, line, column);
}

void starlark_document_close(starlark_document *document)
{
    if (document == NULL)
        return;
    proved_starlark_document_close(document);
    free(document);
}
