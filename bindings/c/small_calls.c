/* Tries the calls that other tests leave out: the version, codes of faults, classes of kinds, empty
 * buffers by NULL, places that are moved along a text, full buffers, and faults of fronts that are
 * final. */
#include "starlark_lex.h"

#include <stdio.h>
#include <stdlib.h>
#include <string.h>

#define ROOM 512
#define UNTOUCHED 0x5a

static const char *const texts[] = {
    "",
    "x\n",
    "a = '\xc3\xa9\xf0\x9f\x94\xac' + b  # \xe6\xb1\x89\n\n'''\n\xf0\x9f\x94\xac''' + c",
    "def f(a):\n    return f\"{a!r} b\" + 'c\\n'  # d\n\nx = 0xFFFFFFFFFF\n",
    "x = 'a\nif y:\n  z = 01\n\n$\nf'{b!r} c' + \"\\q\nclass\nd(  # e\n",
    "a\n\tb\nc\n",
    "if a:\n  b\n c\nd\n",
    "x = f'{'''a\n",
    "x = 'a\\\nb\nc = 'd'\n",
    "$\r\n\tx\n",
};

typedef struct lexed {
    starlark_lexeme lexemes[ROOM];
    uint8_t values[ROOM];
    starlark_outcome outcome;
} lexed;

static void require(bool is_right, const char *what, size_t number)
{
    if (is_right)
        return;
    fprintf(stderr, "small_calls: %s: %zu\n", what, number);
    exit(1);
}

static const uint8_t *bytes_of(const char *text)
{
    return (const uint8_t *)text;
}

/* The code of each number is `SL` and three digits, or nothing where no fault has the number. */
static void try_codes(void)
{
    for (uint32_t kind = 0; kind < 1000; kind++) {
        char wanted[8];
        const char *code = starlark_fault_code(kind);
        bool is_fault = kind >= STARLARK_FAULT_INDENTATION
                        && kind <= STARLARK_FAULT_UNFINISHED_FSTRING_EXPRESSION;
        snprintf(wanted, sizeof wanted, "SL%03u", (unsigned)kind);
        require(is_fault ? code != NULL && strcmp(code, wanted) == 0 : code == NULL, "a code",
                kind);
        require((starlark_status_text(kind) != NULL) == (kind <= STARLARK_STATUS_CLOSED),
                "the text of a status", kind);
    }
}

/* A kind of each class has it, and what is no kind has none. */
static void try_classes(void)
{
    static const uint32_t classes[][2] = {
        {STARLARK_KIND_COMMENT, STARLARK_CLASS_COMMENT},
        {STARLARK_KIND_DEDENT, STARLARK_CLASS_LAYOUT},
        {STARLARK_KIND_IDENTIFIER, STARLARK_CLASS_NAME},
        {STARLARK_KIND_FLOAT, STARLARK_CLASS_NUMBER},
        {STARLARK_KIND_FSTRING_END, STARLARK_CLASS_STRING},
        {STARLARK_KIND_RETURN, STARLARK_CLASS_KEYWORD},
        {STARLARK_KIND_GREATER_GREATER_EQUAL, STARLARK_CLASS_OPERATOR},
        {STARLARK_KIND_FSTRING_BANG, STARLARK_CLASS_PUNCTUATION},
        {STARLARK_KIND_ELLIPSIS, STARLARK_CLASS_PUNCTUATION},
        {STARLARK_KIND_FSTRING_EXPR_END, STARLARK_CLASS_BRACKET},
        {STARLARK_KIND_OPENING_CURLY, STARLARK_CLASS_BRACKET},
        {0, 0},
        {UINT16_MAX, 0},
        {UINT32_MAX, 0},
    };
    for (size_t at = 0; at < sizeof classes / sizeof *classes; at++)
        require(starlark_kind_class(classes[at][0]) == classes[at][1], "a class", classes[at][0]);
    for (uint32_t kind = 0; kind < 1000; kind++)
        require((starlark_kind_class(kind) == 0) == (starlark_kind_name(kind) == NULL),
                "a class of no kind", kind);
}

/* Each pointer with a length of 0 may be NULL. */
static void try_null(void)
{
    starlark_outcome outcome;
    starlark_recovered recovered;
    starlark_text_place place = {1, 1, 1};
    require(starlark_lex(NULL, 0, NULL, 0, NULL, 0, &outcome) == STARLARK_STATUS_FULL
                && outcome.wanted_lexemes == 1 && outcome.wanted_values == 0,
            "starlark_lex of NULL", 0);
    require(starlark_lex_front(NULL, 0, NULL, 0, NULL, 0, &outcome) == STARLARK_STATUS_FULL,
            "starlark_lex_front of NULL", 0);
    require(starlark_lex_uncopied(NULL, 0, NULL, 0, NULL, 0, &outcome) == STARLARK_STATUS_FULL
                && outcome.wanted_lexemes == 1 && outcome.wanted_values == 0,
            "starlark_lex_uncopied of NULL", 0);
    require(starlark_lex_front_uncopied(NULL, 0, NULL, 0, NULL, 0, &outcome)
                == STARLARK_STATUS_FULL,
            "starlark_lex_front_uncopied of NULL", 0);
    require(starlark_lex_recovering(NULL, 0, NULL, 0, NULL, 0, NULL, 0, &recovered)
                    == STARLARK_STATUS_FULL
                && recovered.wanted_lexemes == 1 && recovered.wanted_faults == 0,
            "starlark_lex_recovering of NULL", 0);
    require(!starlark_fault_is_final(NULL, 0, 0), "starlark_fault_is_final of NULL", 0);
    require(starlark_restart(NULL, 0, 0, 0, STARLARK_FAULT_INVALID_INPUT) == 0,
            "starlark_restart of NULL", 0);
    require(starlark_place(NULL, 0, 0, &place) && place.line == 0 && place.utf16_column == 0,
            "starlark_place of NULL", 0);
    require(starlark_move_place(NULL, 0, 0, 0, &place), "starlark_move_place of NULL", 0);
    require(!starlark_move_place(NULL, 0, 0, 1, &place), "starlark_move_place past NULL", 0);
    require(starlark_fault_message(STARLARK_FAULT_INVALID_TAB, NULL, 0, NULL, 0) > 0,
            "starlark_fault_message of NULL", 0);
}

static bool is_same_place(starlark_text_place one, starlark_text_place other)
{
    return one.line == other.line && one.column == other.column
           && one.utf16_column == other.utf16_column;
}

/* A place that is moved from each offset to each other one is the place of that, or stays. */
static void try_moves(const char *source, size_t number)
{
    const uint8_t *text = bytes_of(source);
    size_t len = strlen(source);
    for (size_t from = 0; from <= len; from++) {
        starlark_text_place begin;
        if (!starlark_place(text, len, from, &begin))
            continue;
        for (size_t to = 0; to <= len + 1; to++) {
            starlark_text_place wanted = begin;
            starlark_text_place moved = begin;
            bool has_place = starlark_place(text, len, to, &wanted) && from <= to;
            require(starlark_move_place(text, len, from, to, &moved) == has_place,
                    "a place is moved otherwise", number);
            require(is_same_place(moved, has_place ? wanted : begin), "a moved place", number);
        }
    }
}

/* The number of bytes that two buffers begin with alike. */
static size_t alike(const uint8_t *one, const uint8_t *other)
{
    size_t len = 0;
    while (len < ROOM && one[len] == other[len])
        len++;
    return len;
}

/* Values that had no room begin as those that had, and are as they were after that. */
static void require_kept(const uint8_t *values, const uint8_t *wanted, size_t number)
{
    for (size_t at = alike(values, wanted); at < ROOM; at++)
        require(values[at] == UNTOUCHED, "values of full buffers", number);
}

/* Full buffers keep what they had, after faults too. */
static void try_full(const char *source, size_t number)
{
    static lexed whole, full;
    static starlark_found_fault faults[ROOM];
    static starlark_recovered recovered;
    const uint8_t *text = bytes_of(source);
    size_t len = strlen(source);
    starlark_lex(text, len, whole.lexemes, ROOM, whole.values, ROOM, &whole.outcome);
    for (size_t room = 1; room < whole.outcome.values; room++) {
        memset(full.values, UNTOUCHED, ROOM);
        starlark_lex(text, len, full.lexemes, ROOM, full.values, room, &full.outcome);
        require_kept(full.values, whole.values, number);
    }
    starlark_lex_recovering(text, len, whole.lexemes, ROOM, whole.values, ROOM, faults, ROOM,
                            &recovered);
    for (size_t room = 1; room < recovered.values; room++) {
        starlark_recovered refused;
        memset(full.values, UNTOUCHED, ROOM);
        starlark_lex_recovering(text, len, full.lexemes, ROOM, full.values, room, faults, ROOM,
                                &refused);
        require_kept(full.values, whole.values, number);
    }
}

static void lex_front(const uint8_t *text, size_t len, lexed *into)
{
    starlark_lex_front(text, len, into->lexemes, ROOM, into->values, ROOM, &into->outcome);
}

static bool is_same_outcome(const lexed *one, const lexed *other)
{
    return memcmp(&one->outcome, &other->outcome, sizeof one->outcome) == 0
           && memcmp(one->lexemes, other->lexemes, one->outcome.lexemes * sizeof(starlark_lexeme))
                  == 0
           && memcmp(one->values, other->values, one->outcome.values) == 0;
}

/* Whether the fault of a front without a cut is final. */
static bool is_final(const uint8_t *text, size_t len, const lexed *front)
{
    return front->outcome.status == STARLARK_STATUS_FAULT
           && starlark_fault_is_final(text, len, front->outcome.fault_end);
}

/* What is found up to a final fault of a front is found in each longer one. Returns how many are
 * final. */
static size_t try_final_faults(const char *source, size_t number)
{
    static lexed front, longer;
    const uint8_t *text = bytes_of(source);
    size_t found = 0;
    for (size_t len = 0; len <= strlen(source); len++) {
        lex_front(text, len, &front);
        if (!is_final(text, len, &front))
            continue;
        found++;
        for (size_t more = len; more <= strlen(source); more++) {
            lex_front(text, more, &longer);
            bool is_text = longer.outcome.status != STARLARK_STATUS_NOT_UTF8;
            require(!is_text || is_same_outcome(&front, &longer), "a final fault", number);
        }
    }
    return found;
}

int main(void)
{
    size_t count = sizeof texts / sizeof *texts;
    size_t final = 0;
    require(starlark_lex_version() == STARLARK_LEX_VERSION, "version", starlark_lex_version());
    try_codes();
    try_classes();
    try_null();
    for (size_t number = 0; number < count; number++) {
        try_moves(texts[number], number);
        try_full(texts[number], number);
        final += try_final_faults(texts[number], number);
    }
    require(final > 0, "no fault is final", count);
    printf("codes, classes, empty and full buffers, moved places in %zu texts, %zu final faults\n",
           count, final);
    return 0;
}
