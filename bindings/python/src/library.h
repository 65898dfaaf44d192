/* What the files of the extension module share: the module's state, texts, and pieces of them. */
#ifndef STARLARK_LIBRARY_H
#define STARLARK_LIBRARY_H

#define PY_SSIZE_T_CLEAN
/* setup.py defines Py_LIMITED_API, but not for a free-threaded build, which has no limited API. */
#include <Python.h>
#include <stdatomic.h>
#include <stdbool.h>

#include "starlark_lex.h"

enum {
    KINDS = STARLARK_KIND_CLOSING_ROUND + 1,
    FAULT_KINDS = STARLARK_FAULT_UNFINISHED_FSTRING_EXPRESSION + 1,
    QUOTES = STARLARK_QUOTES_TRIPLE_DOUBLE + 1
};

/* The module's state: the classes of the package, and members of its enumerations by number. */
typedef struct library_state {
    PyObject *token_class;
    PyObject *fault_class;
    PyObject *fault_error;
    PyObject *change_class;
    PyObject *integer_of_digits; /* the function for integers of more than 32 bits */
    PyObject *kinds[KINDS];      /* the entry 0 is NULL, as in the two below */
    PyObject *fault_kinds[FAULT_KINDS];
    PyObject *quotes[QUOTES];
    PyObject *tokens_type;
    PyObject *columns_type;
    PyObject *document_type;
    newfunc tuple_new; /* makes an instance of a subclass of tuple */
} library_state;

/* A text: bytes of UTF-8, which `bytes` keeps. Its callers count offsets in characters where it is a
 * str, and in bytes elsewhere. */
typedef struct text {
    PyObject *bytes;
    PyObject *wide; /* the str where it isn't ASCII, else NULL: then a character is a byte */
    const uint8_t *start;
    size_t len;
} text;

/* Opens a str, or what has bytes. Returns 0, or -1 with TypeError, BufferError, UnicodeError or
 * ValueError set. */
int text_open(text *opened, PyObject *source);

/* Drops a text; one of zeros, too. */
void text_close(text *opened);

/* A text that is lexed front by front, with the lexemes and faults of the last piece of it. */
typedef struct pieces {
    const uint8_t *start;
    size_t len;
    bool is_recovering; /* whether lexing goes on after faults */
    bool has_ended;
    size_t next;   /* where the next piece begins */
    size_t window; /* bytes of a front */
    size_t from;   /* where the last piece begins: its offsets count from there */
    starlark_lexeme *lexemes;
    size_t lexemes_cap;
    size_t lexemes_len;
    uint8_t *values;
    size_t values_cap;
    size_t values_len;
    starlark_found_fault *faults;
    size_t faults_cap;
    size_t faults_len;
} pieces;

/* Begins to lex a text, which has to stay. It allocates nothing yet. */
void pieces_begin(pieces *of, const text *lexed, bool is_recovering);

/* Lexes the next piece. Returns 1 where there was one, 0 after the last one, and -1 with
 * MemoryError set. Releases the interpreter's lock while it lexes. */
int pieces_advance(pieces *of);

/* Frees the buffers. */
void pieces_end(pieces *of);

/* Gives the buffers room for a number of items each, and forgets what they have. Returns 0, or -1
 * with MemoryError set. */
int pieces_make_room(pieces *of, size_t lexemes, size_t values, size_t faults);

/* How many characters begin in some bytes of UTF-8. */
size_t characters_in(const uint8_t *bytes, size_t len);

/* A place in a text, which moves on. */
typedef struct cursor {
    const uint8_t *start;
    size_t len;
    size_t at;
    size_t line_begin;
    bool is_wide;  /* whether `offset` counts characters, of which some have several bytes */
    size_t offset; /* `at` as the callers count it */
    starlark_text_place place; /* counts from 0 */
} cursor;

/* Moves a cursor to a later offset. Returns 0, or -1 with SystemError set where it isn't one. */
int cursor_move(cursor *moved, size_t at);

/* A text of a few characters that was made before. */
typedef struct known_text {
    uint32_t begin;
    uint32_t len;
    PyObject *text;
} known_text;

enum { KNOWN_TEXTS = 1024, KNOWN_TEXT_LEN = 40 };

/* Makes tokens and faults of a text, which share what they can. */
typedef struct maker {
    const library_state *state;
    const uint8_t *start;
    size_t len;
    cursor tokens;
    cursor faults;
    PyObject *fields;    /* the fields of the last token */
    PyObject *arguments; /* a tuple of `fields` */
    PyObject *place;     /* the place at `tokens`, or NULL */
    size_t place_at;
    PyObject *line; /* the line from `line_begin` on, or NULL */
    size_t line_begin;
    size_t line_end;
    known_text *known;
} maker;

/* Begins to make tokens of a text. Returns 0, or -1 with MemoryError set. */
int maker_begin(maker *begun, const library_state *state, const text *lexed);

void maker_end(maker *ended);

/* A new token of a lexeme of a piece. NULL with an exception set. */
PyObject *maker_token(maker *of, const pieces *piece, const starlark_lexeme *lexeme);

/* A new fault of a piece. NULL with an exception set. */
PyObject *maker_fault(maker *of, const pieces *piece, const starlark_found_fault *fault);

/* The value of a lexeme by its kind, its number and its bytes. NULL with an exception set. */
PyObject *value_of(const library_state *state, unsigned kind, long number, const uint8_t *bytes,
                   size_t len);

/* A lexeme's value where 32 bits hold it, the base of a longer integer, or quotes. */
long number_of(const starlark_lexeme *lexeme);

/* Around what one thread at a time does with a document, where no lock of the interpreter says so. */
#ifdef Py_GIL_DISABLED
#define BEGIN_ALONE(self) Py_BEGIN_CRITICAL_SECTION(self);
#define END_ALONE() Py_END_CRITICAL_SECTION();
#else
#define BEGIN_ALONE(self) {
#define END_ALONE() }
#endif

/* Reads a part of a document from an offset on, up to a later one, as much as has room. Returns its
 * length: 0 where memory ran out. Both offsets are character boundaries, and the part ends at one.
 * Each call costs as much as the segments that it reads of, which are long in a long literal. */
size_t read_document_part(const starlark_document *document, size_t begin, size_t end,
                          uint8_t *part, size_t part_cap);

/* Finds the lexemes that touch a range of a document, by offsets in bytes. Returns 0, or -1 with an
 * exception set. */
int find_lexemes(const starlark_document *document, pieces *found, size_t begin, size_t end);

/* The document of an object. NULL with TypeError or ValueError set where it is none, or closed. */
starlark_document *open_document(PyObject *module, PyObject *object);

/* The call `semantic_tokens`. */
PyObject *library_semantic_tokens(PyObject *module, PyObject *arguments);

/* An offset of a document, in bytes and in characters. */
typedef struct offset_mark {
    size_t bytes;
    size_t characters;
} offset_mark;

/* Marks of a document, some 4 KB from each other, from its begin to its end. There are none where the
 * callers count bytes, and none before the document has a character of several bytes. */
typedef struct offset_table {
    size_t wide; /* by how much the bytes are more than the characters */
    offset_mark *marks;
    size_t len;
    size_t cap;
} offset_table;

/* An edit: what it replaced, and where that ends in the old text and in the new one. */
typedef struct offset_edit {
    offset_mark begin;
    offset_mark old_end;
    offset_mark new_end;
} offset_edit;

/* Makes the marks of a document, where there are none. Returns false where memory ran out. */
bool offsets_open(offset_table *of, const starlark_document *document);

/* Frees the marks. */
void offsets_close(offset_table *of);

/* An offset in characters, of one in bytes that is a character boundary. STARLARK_NO_OFFSET where
 * memory ran out. */
size_t offset_in_characters(const offset_table *of, const starlark_document *document, size_t at);

/* An offset in bytes, of one in characters that isn't after the end. STARLARK_NO_OFFSET where memory
 * ran out. */
size_t offset_in_bytes(const offset_table *of, const starlark_document *document, size_t at);

/* Moves the marks after an edit that the document has made. */
void offsets_edit(offset_table *of, const starlark_document *document, const offset_edit *edit);

/* Appends a new object to a list, or passes on that there is none. Returns 0 or -1. */
int append_new(PyObject *list, PyObject *object);

/* A new str of UTF-8. NULL with an exception set. */
PyObject *str_of(const uint8_t *bytes, size_t len);

/* The state of a module. */
library_state *state_of(PyObject *module);

/* Raises TypeError: only a call of the library makes an object of its types. */
PyObject *new_refused(PyTypeObject *type, PyObject *arguments, PyObject *keywords);

/* The types of iterators of tokens, of columns, and of documents. NULL with an exception set. */
PyObject *new_tokens_type(void);
PyObject *new_columns_type(void);
PyObject *new_document_type(PyObject *module);

/* An iterator of the tokens of a text. NULL with an exception set. */
PyObject *tokens_new(PyObject *module, PyObject *source, bool is_recovering);

/* A document of a text. NULL with an exception set. */
PyObject *document_new(PyObject *module, PyObject *source);

/* The columns of a text. NULL with an exception set. */
PyObject *columns_new(PyObject *module, PyObject *source, bool is_recovering);

#endif
