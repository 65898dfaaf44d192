/* Makes the tokens and faults of a text, which share places, lines and short texts. */
#include "library.h"

#include <string.h>

enum { TYPE, STRING, START, END, LINE, VALUE, SPAN, TOKEN_FIELDS };
enum { FAULT_TYPE, FAULT_MESSAGE, FAULT_START, FAULT_END, FAULT_LINE, FAULT_SPAN, FAULT_FIELDS };

static PyObject *shared(PyObject *object)
{
    Py_XINCREF(object);
    return object;
}

PyObject *str_of(const uint8_t *bytes, size_t len)
{
    return PyUnicode_DecodeUTF8((const char *)bytes, (Py_ssize_t)len, "strict");
}

/* Stores a new object, or passes on that there is none. Returns 0 or -1. */
static int set_field(PyObject *fields, Py_ssize_t index, PyObject *object)
{
    return object == NULL ? -1 : PyTuple_SetItem(fields, index, object);
}

/* Takes an object out of garbage collection: what it refers to never refers to it. Tokens are many,
 * so it would go over them again and again (a list of tokens takes three times as long). */
static PyObject *untracked(PyObject *object)
{
    if (object != NULL)
        PyObject_GC_UnTrack(object);
    return object;
}

/* A tuple of two numbers. */
static PyObject *pair_of(size_t first, size_t second)
{
    PyObject *pair = untracked(PyTuple_New(2));
    if (pair == NULL)
        return NULL;
    if (set_field(pair, 0, PyLong_FromSize_t(first)) < 0
        || set_field(pair, 1, PyLong_FromSize_t(second)) < 0)
        Py_CLEAR(pair);
    return pair;
}

int maker_begin(maker *begun, const library_state *state, const text *lexed)
{
    cursor first = {.start = lexed->start, .len = lexed->len, .is_wide = lexed->wide != NULL};
    memset(begun, 0, sizeof *begun);
    begun->state = state;
    begun->start = lexed->start;
    begun->len = lexed->len;
    begun->tokens = begun->faults = first;
    begun->fields = untracked(PyTuple_New(TOKEN_FIELDS));
    if (begun->fields == NULL)
        return -1;
    begun->arguments = untracked(PyTuple_Pack(1, begun->fields));
    Py_DECREF(begun->fields);
    if (begun->arguments == NULL)
        return -1;
    begun->known = PyMem_Malloc(KNOWN_TEXTS * sizeof *begun->known);
    if (begun->known == NULL) {
        PyErr_NoMemory();
        return -1;
    }
    memset(begun->known, 0, KNOWN_TEXTS * sizeof *begun->known);
    return 0;
}

void maker_end(maker *ended)
{
    for (size_t slot = 0; ended->known != NULL && slot < KNOWN_TEXTS; slot++)
        Py_XDECREF(ended->known[slot].text);
    PyMem_Free(ended->known);
    ended->known = NULL;
    Py_CLEAR(ended->arguments);
    Py_CLEAR(ended->place);
    Py_CLEAR(ended->line);
}

/* Four bytes as a number. */
static uint32_t four_bytes(const uint8_t *bytes)
{
    uint32_t number;
    memcpy(&number, bytes, sizeof number);
    return number;
}

/* Where a text of these bytes is kept, if it is. */
static size_t slot_of(const uint8_t *bytes, size_t len)
{
    uint32_t mixed = len < 4
        ? bytes[0] | (uint32_t)bytes[len / 2] << 8 | (uint32_t)bytes[len - 1] << 16
        : four_bytes(bytes) * 31 + four_bytes(bytes + (len - 4) / 2) * 7
            + four_bytes(bytes + len - 4);
    return ((mixed + (uint32_t)len) * 2654435761u >> 16) % KNOWN_TEXTS;
}

/* The str of a part of the text. Parts of a few characters are kept, and made once. */
static PyObject *text_part(maker *of, size_t begin, size_t len)
{
    const uint8_t *bytes = of->start + begin;
    if (len < 2 || len > KNOWN_TEXT_LEN)
        return str_of(bytes, len);
    known_text *known = &of->known[slot_of(bytes, len)];
    if (known->text == NULL || known->len != len
        || memcmp(of->start + known->begin, bytes, len) != 0) {
        PyObject *made = str_of(bytes, len);
        if (made == NULL)
            return NULL;
        Py_XDECREF(known->text);
        *known = (known_text){(uint32_t)begin, (uint32_t)len, made};
    }
    return shared(known->text);
}

/* The place of a cursor as Python's tokens have it: lines count from 1. */
static PyObject *place_of(const cursor *at)
{
    return pair_of(at->place.line + 1, at->place.column);
}

/* The place where the tokens' cursor is. Two tokens that touch share it. */
static PyObject *place_here(maker *of)
{
    if (of->place == NULL || of->place_at != of->tokens.at) {
        Py_XDECREF(of->place);
        of->place = place_of(&of->tokens);
        of->place_at = of->tokens.at;
    }
    return shared(of->place);
}

/* The offset after the line end that follows an offset, or the text's end. */
static size_t line_end_after(const maker *of, size_t at)
{
    const uint8_t *newline = memchr(of->start + at, '\n', of->len - at);
    return newline == NULL ? of->len : (size_t)(newline - of->start) + 1;
}

/* The lines from one that begins at an offset up to that of a last byte. Tokens of one share it. */
static PyObject *lines_of(maker *of, size_t line_begin, size_t last)
{
    if (of->line == NULL || of->line_begin != line_begin) {
        size_t end = line_end_after(of, line_begin);
        PyObject *line = str_of(of->start + line_begin, end - line_begin);
        if (line == NULL)
            return NULL;
        Py_XDECREF(of->line);
        of->line = line;
        of->line_begin = line_begin;
        of->line_end = end;
    }
    if (last < of->line_end || last >= of->len)
        return shared(of->line);
    return str_of(of->start + line_begin, line_end_after(of, last) - line_begin);
}

long number_of(const starlark_lexeme *lexeme)
{
    bool is_short = lexeme->kind == STARLARK_KIND_INT && lexeme->value_len == 0;
    return is_short ? lexeme->integer : lexeme->detail;
}

/* A member of an enumeration by its number. */
static PyObject *member(PyObject *const *members, size_t count, unsigned long number)
{
    if (number < count && members[number] != NULL)
        return shared(members[number]);
    return PyErr_Format(PyExc_SystemError, "the library has an unknown number: %lu", number);
}

PyObject *value_of(const library_state *state, unsigned kind, long number, const uint8_t *bytes,
                   size_t len)
{
    switch (kind) {
    case STARLARK_KIND_COMMENT:
    case STARLARK_KIND_IDENTIFIER:
    case STARLARK_KIND_FLOAT:
    case STARLARK_KIND_STRING:
    case STARLARK_KIND_FSTRING_TEXT:
        return str_of(bytes, len);
    case STARLARK_KIND_BYTES:
        return PyBytes_FromStringAndSize((const char *)bytes, (Py_ssize_t)len);
    case STARLARK_KIND_INT:
        if (len == 0)
            return PyLong_FromLong(number);
        return PyObject_CallFunction(state->integer_of_digits, "y#i", bytes, (Py_ssize_t)len,
                                     (int)number);
    case STARLARK_KIND_FSTRING_START:
        return member(state->quotes, QUOTES, (unsigned long)number);
    default:
        return shared(Py_None);
    }
}

/* The value of a lexeme at an offset. It is a part of the text where it is as it is written. */
static PyObject *token_value(maker *of, const pieces *piece, const starlark_lexeme *lexeme,
                             size_t begin)
{
    const uint8_t *bytes = piece->values + lexeme->value_begin;
    size_t len = lexeme->value_len;
    if (lexeme->kind == STARLARK_KIND_IDENTIFIER || lexeme->kind == STARLARK_KIND_STRING) {
        size_t part = begin + (lexeme->kind == STARLARK_KIND_STRING);
        if (len <= of->len - part && memcmp(of->start + part, bytes, len) == 0)
            return text_part(of, part, len);
    }
    return value_of(of->state, lexeme->kind, number_of(lexeme), bytes, len);
}

/* Fills the fields of a place and the text between. Of a token over several lines the line has all
 * of them. */
static int fill_span(maker *of, size_t begin, size_t end)
{
    PyObject *fields = of->fields;
    if (cursor_move(&of->tokens, begin) < 0)
        return -1;
    size_t line_begin = of->tokens.line_begin, first = of->tokens.offset;
    if (set_field(fields, STRING, text_part(of, begin, end - begin)) < 0
        || set_field(fields, START, place_here(of)) < 0)
        return -1;
    if (cursor_move(&of->tokens, end) < 0 || set_field(fields, END, place_here(of)) < 0
        || set_field(fields, SPAN, pair_of(first, of->tokens.offset)) < 0)
        return -1;
    return set_field(fields, LINE, lines_of(of, line_begin, end > begin ? end - 1 : begin));
}

PyObject *maker_token(maker *of, const pieces *piece, const starlark_lexeme *lexeme)
{
    size_t begin = piece->from + lexeme->begin, end = piece->from + lexeme->end;
    if (set_field(of->fields, TYPE, member(of->state->kinds, KINDS, lexeme->kind)) < 0
        || fill_span(of, begin, end) < 0
        || set_field(of->fields, VALUE, token_value(of, piece, lexeme, begin)) < 0)
        return NULL;
    return untracked(
        of->state->tuple_new((PyTypeObject *)of->state->token_class, of->arguments, NULL));
}

/* The message of a fault by its kind and the text that it names. */
static PyObject *message_of(uint32_t kind, const uint8_t *named, size_t len)
{
    uint8_t few[256];
    size_t needed = starlark_fault_message(kind, named, len, few, sizeof few);
    if (needed <= sizeof few)
        return str_of(few, needed);
    uint8_t *message = PyMem_Malloc(needed);
    if (message == NULL)
        return PyErr_NoMemory();
    starlark_fault_message(kind, named, len, message, needed);
    PyObject *made = str_of(message, needed);
    PyMem_Free(message);
    return made;
}

/* Fills the fields of a fault. Its line is the one that it begins on. */
static int fill_fault(PyObject *fields, maker *of, const pieces *piece,
                      const starlark_found_fault *fault)
{
    size_t begin = piece->from + fault->begin, end = piece->from + fault->end;
    const uint8_t *named = piece->values + fault->value_begin;
    if (cursor_move(&of->faults, begin) < 0)
        return -1;
    size_t line_begin = of->faults.line_begin;
    size_t first = of->faults.offset;
    if (set_field(fields, FAULT_TYPE, member(of->state->fault_kinds, FAULT_KINDS, fault->kind)) < 0
        || set_field(fields, FAULT_MESSAGE, message_of(fault->kind, named, fault->value_len)) < 0
        || set_field(fields, FAULT_START, place_of(&of->faults)) < 0
        || set_field(fields, FAULT_LINE, lines_of(of, line_begin, line_begin)) < 0
        || cursor_move(&of->faults, end) < 0
        || set_field(fields, FAULT_SPAN, pair_of(first, of->faults.offset)) < 0)
        return -1;
    return set_field(fields, FAULT_END, place_of(&of->faults));
}

PyObject *maker_fault(maker *of, const pieces *piece, const starlark_found_fault *fault)
{
    PyObject *made = NULL, *arguments = NULL;
    PyObject *fields = PyTuple_New(FAULT_FIELDS);
    if (fields == NULL)
        return NULL;
    if (fill_fault(fields, of, piece, fault) == 0)
        arguments = PyTuple_Pack(1, fields);
    if (arguments != NULL)
        made = of->state->tuple_new((PyTypeObject *)of->state->fault_class, arguments, NULL);
    Py_XDECREF(arguments);
    Py_DECREF(fields);
    return made;
}

int append_new(PyObject *list, PyObject *object)
{
    int appended = object == NULL ? -1 : PyList_Append(list, object);
    Py_XDECREF(object);
    return appended;
}
