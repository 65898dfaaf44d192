/* Refuses each allocation of a document's calls in turn, and counts what they allocate.
 *
 * It is linked with -Wl,--wrap=malloc,--wrap=realloc,--wrap=free. A call whose allocation is
 * refused has to return STARLARK_STATUS_MEMORY, and to leave the document as it was; the same call
 * with enough memory has to do its work then. Once a document is closed, nothing is allocated. In a
 * long document a call asks for as much memory as some segments need, and not for that of all. */
#include "starlark_lex.h"

#include <stdio.h>
#include <stdlib.h>
#include <string.h>

#define ROOM 4096
#define LONG_LEN ((size_t)1 << 21)
#define MOST_ASKED ((size_t)1 << 19)

void *__real_malloc(size_t size);
void *__real_realloc(void *block, size_t size);
void __real_free(void *block);

static long until_refused = -1;
static bool was_refused;
static long allocated;
static size_t asked;

static bool is_refused(void)
{
    if (until_refused < 0 || until_refused-- > 0)
        return false;
    was_refused = true;
    return true;
}

static void *counted(void *block)
{
    allocated += block != NULL;
    return block;
}

void *__wrap_malloc(size_t size)
{
    asked += size;
    return is_refused() ? NULL : counted(__real_malloc(size));
}

void *__wrap_realloc(void *block, size_t size)
{
    asked += size;
    if (is_refused())
        return NULL;
    return block == NULL ? counted(__real_malloc(size)) : __real_realloc(block, size);
}

void __wrap_free(void *block)
{
    allocated -= block != NULL;
    __real_free(block);
}

typedef struct edit {
    size_t begin;
    size_t end;
    const char *text;
} edit;

static const char *const texts[] = {
    "",
    "x = 1\n",
    "def f(a):\n    return f\"{a!r} b\" + 'c\\n'  # d\n\nx = 0xFFFFFFFFFF\n",
    "x = 'a\nif y:\n  z = 01\n\n$\nf'{b!r} c' + \"\\q\nclass\nd(  # e\n",
};

static const edit edits[] = {
    {0, 0, "y = 2\n"},           {0, 0, "'''"}, {0, 3, ""}, {0, 0, "(\n"},
    {0, 1, "0xFFFFFFFFFFFF + "}, {0, 0, ""},
};

static void stop(const char *what, size_t number)
{
    fprintf(stderr, "refused_documents: %s: %zu\n", what, number);
    exit(1);
}

/* All that a document has: its text, its lexemes with their values, and its faults. */
typedef struct content {
    uint8_t text[ROOM];
    starlark_lexeme lexemes[ROOM];
    uint8_t values[ROOM];
    uint8_t named[ROOM];
    starlark_found_fault faults[ROOM];
} content;

static void read_all(starlark_document *document, content *into)
{
    starlark_recovered outcome;
    memset(into, 0, sizeof *into);
    if (starlark_document_text(document, 0, starlark_document_len(document), into->text, ROOM) != 0
        || starlark_document_lexemes(document, 0, SIZE_MAX, into->lexemes, ROOM, into->values, ROOM,
                                     &outcome)
               != 0
        || starlark_document_faults(document, 0, SIZE_MAX, into->named, ROOM, into->faults, ROOM,
                                    &outcome)
               != 0)
        stop("a document is not read", 0);
}

/* What a call does to a document of a text. */
typedef uint32_t call(starlark_document *document, const edit *made);

static uint32_t make_edit(starlark_document *document, const edit *made)
{
    starlark_change change;
    return starlark_document_edit(document, made->begin, made->end, (const uint8_t *)made->text,
                                  strlen(made->text), &change);
}

static uint32_t read_text(starlark_document *document, const edit *made)
{
    uint8_t text[ROOM];
    return starlark_document_text(document, 0, made->end, text, ROOM);
}

/* Opens a document of a text, whose allocation of a number is refused; none is where that is below
 * 0. */
static starlark_document *open_text(const char *text, long number, uint32_t *status)
{
    was_refused = false;
    until_refused = number;
    starlark_document *document =
        starlark_document_open((const uint8_t *)text, strlen(text), status);
    until_refused = -1;
    return document;
}

/* Refuses each allocation of opening in turn. Returns how many were. */
static long refuse_opening(const char *text)
{
    for (long number = 0;; number++) {
        long before = allocated;
        uint32_t status;
        starlark_document *document = open_text(text, number, &status);
        bool is_open = status == STARLARK_STATUS_WHOLE;
        if ((document != NULL) != is_open || (!is_open && allocated != before))
            stop("what an opening leaves", (size_t)number);
        starlark_document_close(document);
        if (allocated != before)
            stop("a closed document holds memory", (size_t)number);
        if (!was_refused && is_open)
            return number;
        if (!was_refused || (!is_open && status != STARLARK_STATUS_MEMORY))
            stop("another status of opening", (size_t)number);
    }
}

/* Refuses each allocation of a call in turn, on a new document each time. Returns how many were.
 *
 * A call that asks for less where it was refused may do its work all the same. */
static long refuse_each(const char *text, call *work, const edit *made)
{
    static content before, after, now;
    starlark_document *document = open_text(text, -1, NULL);
    read_all(document, &before);
    if (work(document, made) != STARLARK_STATUS_WHOLE)
        stop("a call with enough memory", 0);
    read_all(document, &after);
    starlark_document_close(document);
    for (long number = 0;; number++) {
        long base = allocated;
        document = open_text(text, -1, NULL);
        was_refused = false;
        until_refused = number;
        uint32_t status = work(document, made);
        until_refused = -1;
        read_all(document, &now);
        const content *wanted = status == STARLARK_STATUS_WHOLE ? &after : &before;
        if (memcmp(&now, wanted, sizeof now) != 0)
            stop("what a call leaves", (size_t)number);
        if (status == STARLARK_STATUS_MEMORY && work(document, made) != STARLARK_STATUS_WHOLE)
            stop("a call after one without memory", (size_t)number);
        starlark_document_close(document);
        if (allocated != base)
            stop("a closed document holds memory", (size_t)number);
        if (!was_refused && status == STARLARK_STATUS_WHOLE)
            return number;
        if (!was_refused || (status != STARLARK_STATUS_WHOLE && status != STARLARK_STATUS_MEMORY))
            stop("another status", (size_t)number);
    }
}

/* Edits and reads a long document in its middle, and looks at how much memory that asks for. */
static void touch_long_text(void)
{
    const edit made = {LONG_LEN / 2, LONG_LEN / 2, "y = 2\n"};
    static const char line[] = "x = [1]\n";
    uint8_t part[8];
    uint8_t *text = malloc(LONG_LEN);
    uint32_t status;
    if (text == NULL)
        stop("no memory", 0);
    for (size_t at = 0; at < LONG_LEN; at++)
        text[at] = (uint8_t)line[at % 8];
    starlark_document *document = starlark_document_open(text, LONG_LEN, &status);
    asked = 0;
    if (make_edit(document, &made) != STARLARK_STATUS_WHOLE || asked > MOST_ASKED)
        stop("an edit of a long document", asked);
    asked = 0;
    if (starlark_document_text(document, made.begin, made.begin + sizeof part, part, sizeof part)
            != STARLARK_STATUS_WHOLE
        || asked > MOST_ASKED)
        stop("a part of a long document", asked);
    starlark_document_close(document);
    free(text);
    if (allocated != 0)
        stop("a closed long document holds memory", (size_t)allocated);
}

int main(void)
{
    long refused = 0;
    touch_long_text();
    for (size_t text = 0; text < sizeof texts / sizeof *texts; text++) {
        const edit whole = {0, strlen(texts[text]), ""};
        refused += refuse_opening(texts[text]);
        refused += refuse_each(texts[text], read_text, &whole);
        for (size_t number = 0; number < sizeof edits / sizeof *edits; number++)
            if (edits[number].end <= strlen(texts[text]))
                refused += refuse_each(texts[text], make_edit, &edits[number]);
    }
    printf("%ld allocations of documents refused\n", refused);
    return refused == 0;
}
