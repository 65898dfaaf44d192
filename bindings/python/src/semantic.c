/* The tokens of a document as the Language Server Protocol has them: five numbers for each line. */
#include "library.h"

#include <string.h>

/* A kind that has no type in the protocol. How many bytes of lexemes, and of the text, are taken at
 * once: each time costs as much as the segment, which may be long. Room for the numbers of a token. */
enum { NO_TYPE = 255, WINDOW = 524288, PART = 65536, NUMBERS_LEN = 128 };

enum { BEFORE, INSIDE, AFTER };

/* A line and a column in units of the protocol's encoding, each from 0. */
typedef struct position {
    size_t line;
    size_t column;
} position;

/* A walk over the lines of a document. Here a lone CR ends a line as well. */
typedef struct walk {
    const starlark_document *document;
    const uint8_t *types; /* the type of each kind */
    long unit;            /* 8, 16 or 32 bits */
    size_t at;            /* an offset, and its position */
    position here;
    bool is_after_cr;
    size_t end; /* the last token begins before it */
    size_t len; /* of the text */
    uint8_t part[PART];
    size_t part_begin;
    size_t part_end;
    size_t first; /* the range: its offsets, and whether a token after it was taken */
    size_t last_begin;
    bool has_next;
    position last;    /* where the last token began */
    size_t counts[3]; /* tokens before the range, in it, and after it */
    char *numbers;
    size_t numbers_len;
    size_t numbers_cap;
} walk;

/* Writes a number and a comma. Returns its length. */
static size_t write_number(char *into, size_t number)
{
    char digits[24];
    size_t len = 0, written = 0;
    do
        digits[len++] = (char)('0' + number % 10);
    while ((number /= 10) > 0);
    while (len > 0)
        into[written++] = digits[--len];
    into[written++] = ',';
    return written;
}

/* Writes the five numbers of a token on one line. Returns 0, or -1 with MemoryError set. */
static int write_numbers(walk *of, position begin, size_t len, unsigned type)
{
    if (of->numbers_cap - of->numbers_len < NUMBERS_LEN) {
        size_t cap = 2 * of->numbers_cap + 4096;
        char *numbers = PyMem_Realloc(of->numbers, cap);
        if (numbers == NULL) {
            PyErr_NoMemory();
            return -1;
        }
        of->numbers = numbers;
        of->numbers_cap = cap;
    }
    bool is_same_line = begin.line == of->last.line;
    size_t column = begin.column - (is_same_line ? of->last.column : 0);
    size_t numbers[] = {begin.line - of->last.line, column, len, type, 0};
    for (int index = 0; index < 5; index++)
        of->numbers_len += write_number(of->numbers + of->numbers_len, numbers[index]);
    return 0;
}

/* Takes a token on one line, which is before, in or after the range. */
static int take_line(walk *of, position begin, unsigned type, int side)
{
    if (of->here.column == begin.column)
        return 0;
    if (side == INSIDE && write_numbers(of, begin, of->here.column - begin.column, type) < 0)
        return -1;
    of->counts[side]++;
    of->last = begin;
    return 0;
}

/* How many units a byte adds to the column. */
static size_t units_of(long unit, uint8_t byte)
{
    if (byte < 0x80 || unit == 8)
        return 1;
    if ((byte & 0xC0) == 0x80)
        return 0;
    return unit == 16 && byte >= 0xF0 ? 2 : 1;
}

/* Makes the part of the text have the byte at the offset. Returns 0, or -1 with MemoryError set. */
static int read_on(walk *of)
{
    if (of->at < of->part_end)
        return 0;
    of->part_begin = of->at;
    of->part_end = of->at + read_document_part(of->document, of->at, of->len, of->part, PART);
    if (of->part_end == of->at)
        PyErr_NoMemory();
    return of->part_end == of->at ? -1 : 0;
}

/* Moves on over the printable ASCII of the part, up to an offset. */
static void walk_over_ascii(walk *of, size_t to)
{
    const uint8_t *begin = of->part + (of->at - of->part_begin), *byte = begin;
    const uint8_t *end = of->part + ((to < of->part_end ? to : of->part_end) - of->part_begin);
    while (byte < end && *byte >= ' ' && *byte < 0x80)
        byte++;
    if (byte > begin)
        of->is_after_cr = false;
    of->at += (size_t)(byte - begin);
    of->here.column += (size_t)(byte - begin);
}

/* Moves on to the next line end, or to an offset that is before it. Returns 0, or -1 with an
 * exception set. */
static int walk_in_line(walk *of, size_t to, bool *is_at_end)
{
    *is_at_end = false;
    while (of->at < to) {
        if (read_on(of) < 0)
            return -1;
        walk_over_ascii(of, to);
        if (of->at == to || of->at == of->part_end)
            continue;
        uint8_t byte = of->part[of->at - of->part_begin];
        if (byte == '\r' || (byte == '\n' && !of->is_after_cr)) {
            *is_at_end = true;
            return 0;
        }
        of->is_after_cr = false;
        of->here.column += byte == '\n' ? 0 : units_of(of->unit, byte);
        of->at++;
    }
    return 0;
}

/* Passes a line end. */
static void pass_line_end(walk *of)
{
    of->is_after_cr = of->part[of->at - of->part_begin] == '\r';
    of->here = (position){of->here.line + 1, 0};
    of->at++;
}

/* Moves on to an offset. Returns 0, or -1 with an exception set. */
static int walk_to(walk *of, size_t to)
{
    bool is_at_end = true;
    while (is_at_end) {
        if (walk_in_line(of, to, &is_at_end) < 0)
            return -1;
        if (is_at_end)
            pass_line_end(of);
    }
    return 0;
}

/* Takes a token, line by line. Returns 0, or -1 with an exception set. */
static int take_token(walk *of, const starlark_lexeme *lexeme, int side)
{
    bool is_at_end = true;
    unsigned type = of->types[lexeme->kind];
    if (walk_to(of, lexeme->begin) < 0)
        return -1;
    while (is_at_end) {
        position begin = of->here;
        if (walk_in_line(of, lexeme->end, &is_at_end) < 0 || take_line(of, begin, type, side) < 0)
            return -1;
        if (is_at_end)
            pass_line_end(of);
    }
    return 0;
}

/* On which side of the range a token is. The first one after it counts from another one when the
 * range changes, and so is in it. */
static int side_of(const walk *of, const starlark_lexeme *lexeme)
{
    if (lexeme->end < of->first)
        return BEFORE;
    return lexeme->begin <= of->last_begin || !of->has_next ? INSIDE : AFTER;
}

/* Takes the tokens that begin in a window, and moves its end past the last one. Returns 0, or -1
 * with an exception set. */
static int take_window(walk *of, pieces *found, size_t begin, size_t *end)
{
    size_t window_end = *end;
    if (find_lexemes(of->document, found, begin, window_end) < 0)
        return -1;
    for (size_t index = 0; index < found->lexemes_len; index++) {
        const starlark_lexeme *lexeme = &found->lexemes[index];
        if (lexeme->begin < begin || lexeme->begin >= window_end
            || of->types[lexeme->kind] == NO_TYPE)
            continue;
        size_t inside = of->counts[INSIDE];
        if (take_token(of, lexeme, side_of(of, lexeme)) < 0)
            return -1;
        of->has_next |= lexeme->begin > of->last_begin && of->counts[INSIDE] > inside;
        *end = lexeme->end > *end ? lexeme->end : *end;
    }
    return 0;
}

/* Takes all tokens that begin between two offsets. Returns 0, or -1 with an exception set. */
static int take_tokens(walk *of)
{
    pieces found;
    int taken = 0;
    memset(&found, 0, sizeof found);
    for (size_t begin = of->at; taken == 0 && begin < of->end;) {
        size_t end = of->end - begin > WINDOW ? begin + WINDOW : of->end;
        taken = take_window(of, &found, begin, &end);
        begin = end;
    }
    pieces_end(&found);
    return taken;
}

/* Whether a document has a character boundary at an offset. */
static bool is_boundary(const starlark_document *document, Py_ssize_t at)
{
    starlark_text_place place;
    return at >= 0 && starlark_document_place(document, (size_t)at, &place);
}

PyObject *library_semantic_tokens(PyObject *module, PyObject *arguments)
{
    PyObject *document, *types, *made = NULL;
    Py_ssize_t line, begin, first, last, end;
    int taken;
    walk of;
    memset(&of, 0, sizeof of);
    if (!PyArg_ParseTuple(arguments, "OSlnnnnn:semantic_tokens", &document, &types, &of.unit, &line,
                          &begin, &first, &last, &end))
        return NULL;
    of.document = open_document(module, document);
    if (of.document == NULL)
        return NULL;
    if (PyBytes_Size(types) < KINDS || line < 0 || end < begin
        || !is_boundary(of.document, begin) || !is_boundary(of.document, end))
        return PyErr_Format(PyExc_IndexError, "the range isn't one of the text");
    of.types = (const uint8_t *)PyBytes_AsString(types);
    of.here.line = (size_t)line;
    of.at = of.part_begin = of.part_end = (size_t)begin;
    of.end = (size_t)end;
    of.len = starlark_document_len(of.document);
    of.first = (size_t)first;
    of.last_begin = (size_t)last;
    BEGIN_ALONE(document)
    taken = take_tokens(&of);
    END_ALONE()
    if (taken == 0)
        made = Py_BuildValue("(ny#nn)", (Py_ssize_t)of.counts[BEFORE],
                             of.numbers == NULL ? "" : of.numbers,
                             (Py_ssize_t)(of.numbers_len == 0 ? 0 : of.numbers_len - 1),
                             (Py_ssize_t)of.counts[INSIDE], (Py_ssize_t)of.counts[AFTER]);
    PyMem_Free(of.numbers);
    return made;
}
