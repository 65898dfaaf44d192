/* A text that stays lexed while it is edited. */
#include "library.h"

#include <string.h>

/* It takes no part in garbage collection: it refers to the module alone. The interpreter's lock is
 * held in each call with the document, or the document's own one where the interpreter has none, so
 * that one thread at a time has it. */
typedef struct document_object {
    PyObject_HEAD
    PyObject *module;
    starlark_document *document; /* NULL where it is closed */
    bool counts_characters;      /* it was opened as a str */
    offset_table offsets;
} document_object;

/* Makes of a method one that no other thread runs at the same time for the same document. */
#define ALONE(method) \
    static PyObject *method##_alone(PyObject *self, PyObject *given) \
    { \
        PyObject *made; \
        BEGIN_ALONE(self) \
        made = method(self, given); \
        END_ALONE() \
        return made; \
    }

/* What touches a range of a document, as a piece of the lines that it is on. */
typedef struct part {
    PyObject *bytes;
    text lines;
    size_t begin; /* offset of the lines in the document */
    pieces found;
} part;

/* Sets the exception of a status. Returns NULL. */
static PyObject *refuse(uint32_t status)
{
    switch (status) {
    case STARLARK_STATUS_MEMORY:
        return PyErr_NoMemory();
    case STARLARK_STATUS_CLOSED:
        return PyErr_Format(PyExc_ValueError, "the document is closed");
    case STARLARK_STATUS_BAD_RANGE:
        return PyErr_Format(PyExc_IndexError, "the range isn't one of the text");
    case STARLARK_STATUS_TOO_LONG:
        return PyErr_Format(PyExc_ValueError, "the text has more than 4294967295 bytes");
    default:
        return PyErr_Format(PyExc_SystemError, "the library ended with status %u",
                            (unsigned)status);
    }
}

static starlark_document *document_of(PyObject *self)
{
    return ((document_object *)self)->document;
}

static offset_table *offsets_of(PyObject *self)
{
    return &((document_object *)self)->offsets;
}

/* The length of an open document, as its callers count it. */
static size_t len_of(PyObject *self)
{
    return starlark_document_len(document_of(self)) - offsets_of(self)->wide;
}

/* An offset that a caller gives, in bytes. Returns 0, or -1 with an exception set. */
static int in_bytes(PyObject *self, Py_ssize_t given, size_t *at)
{
    if (given < 0 || (size_t)given > len_of(self)) {
        refuse(STARLARK_STATUS_BAD_RANGE);
        return -1;
    }
    *at = offset_in_bytes(offsets_of(self), document_of(self), (size_t)given);
    if (*at == STARLARK_NO_OFFSET)
        PyErr_NoMemory();
    return *at == STARLARK_NO_OFFSET ? -1 : 0;
}

/* An offset in bytes, as the callers count it. Returns 0, or -1 with an exception set. */
static int for_caller(PyObject *self, size_t at, size_t *offset)
{
    *offset = offset_in_characters(offsets_of(self), document_of(self), at);
    if (*offset == STARLARK_NO_OFFSET)
        PyErr_NoMemory();
    return *offset == STARLARK_NO_OFFSET ? -1 : 0;
}

/* Whether a document is open. Sets ValueError if not. */
static bool is_open(PyObject *self)
{
    if (document_of(self) == NULL)
        refuse(STARLARK_STATUS_CLOSED);
    return document_of(self) != NULL;
}

static void document_dealloc(PyObject *self)
{
    PyTypeObject *type = Py_TYPE(self);
    starlark_document_close(document_of(self));
    offsets_close(offsets_of(self));
    Py_XDECREF(((document_object *)self)->module);
    ((freefunc)PyType_GetSlot(type, Py_tp_free))(self);
    Py_DECREF(type);
}

/* Makes the marks of a document whose characters are as many bytes more. Returns 0, or -1 with
 * MemoryError set. */
static int open_offsets(PyObject *self, size_t wide)
{
    offset_table *offsets = offsets_of(self);
    if (offsets->len > 0 || wide == 0)
        return 0;
    if (offsets_open(offsets, document_of(self)))
        return 0;
    PyErr_NoMemory();
    return -1;
}

/* By how much a text has more bytes than its callers count. */
static size_t wide_of(const document_object *of, const text *opened)
{
    if (!of->counts_characters)
        return 0;
    return opened->len - characters_in(opened->start, opened->len);
}

/* Opens a new document, which no other thread knows yet. Returns 0, or -1 with an exception set. */
static int open_text(document_object *made, PyObject *source)
{
    text opened = {0};
    uint32_t status = STARLARK_STATUS_MEMORY;
    int is_text = text_open(&opened, source);
    if (is_text == 0) {
        made->counts_characters = PyUnicode_Check(source);
        made->offsets.wide = opened.wide == NULL ? 0 : wide_of(made, &opened);
        Py_BEGIN_ALLOW_THREADS
        made->document = starlark_document_open(opened.start, opened.len, &status);
        Py_END_ALLOW_THREADS
        if (status != STARLARK_STATUS_WHOLE)
            refuse(status);
    }
    text_close(&opened);
    if (is_text < 0 || status != STARLARK_STATUS_WHOLE)
        return -1;
    return open_offsets((PyObject *)made, made->offsets.wide);
}

PyObject *document_new(PyObject *module, PyObject *source)
{
    PyTypeObject *type = (PyTypeObject *)state_of(module)->document_type;
    document_object *made = (document_object *)PyType_GenericAlloc(type, 0);
    if (made == NULL)
        return NULL;
    Py_INCREF(module);
    made->module = module;
    if (open_text(made, source) < 0)
        Py_CLEAR(made);
    return (PyObject *)made;
}

/* Makes the object that says what an edit changed. The ends differ by what the edit added. */
static PyObject *change_of(PyObject *self, const starlark_change *change, const offset_edit *edit)
{
    const library_state *state = state_of(((document_object *)self)->module);
    size_t begin, new_end;
    if (for_caller(self, change->begin, &begin) < 0
        || for_caller(self, change->new_end, &new_end) < 0)
        return NULL;
    size_t old_end = new_end - edit->new_end.characters + edit->old_end.characters;
    return PyObject_CallFunction(
        state->change_class, "nnnnnK", (Py_ssize_t)begin, (Py_ssize_t)old_end, (Py_ssize_t)new_end,
        (Py_ssize_t)change->lexed, (Py_ssize_t)change->starts, (unsigned long long)change->reads);
}

/* Finds the offsets of an edit, before it is made. Returns 0, or -1 with an exception set. */
static int place_edit(PyObject *self, Py_ssize_t begin, Py_ssize_t end, const text *inserted,
                      offset_edit *edit)
{
    size_t wide = wide_of((document_object *)self, inserted);
    if (!is_open(self) || open_offsets(self, wide) < 0
        || in_bytes(self, begin, &edit->begin.bytes) < 0
        || in_bytes(self, end, &edit->old_end.bytes) < 0)
        return -1;
    edit->begin.characters = (size_t)begin;
    edit->old_end.characters = (size_t)end;
    edit->new_end.bytes = edit->begin.bytes + inserted->len;
    edit->new_end.characters = edit->begin.characters + inserted->len - wide;
    return 0;
}

/* Makes an edit in a document. NULL with an exception set. */
static PyObject *make_edit(PyObject *self, const text *inserted, offset_edit *edit)
{
    starlark_change change;
    uint32_t status =
        starlark_document_edit(document_of(self), edit->begin.bytes, edit->old_end.bytes,
                               inserted->start, inserted->len, &change);
    if (status != STARLARK_STATUS_WHOLE)
        return refuse(status);
    if (((document_object *)self)->counts_characters)
        offsets_edit(offsets_of(self), document_of(self), edit);
    return change_of(self, &change, edit);
}

static PyObject *document_edit(PyObject *self, PyObject *arguments)
{
    Py_ssize_t begin, end;
    PyObject *source, *made = NULL;
    text opened = {0};
    offset_edit edit;
    if (!PyArg_ParseTuple(arguments, "nnO:edit", &begin, &end, &source))
        return NULL;
    if (text_open(&opened, source) == 0 && place_edit(self, begin, end, &opened, &edit) == 0)
        made = make_edit(self, &opened, &edit);
    text_close(&opened);
    return made;
}

/* Reads the arguments `begin` and `end`, which are all of the text where they aren't given, as
 * offsets in bytes. Returns 0, or -1 with an exception set. */
static int range_of(PyObject *self, PyObject *arguments, const char *form, size_t *begin,
                    size_t *end)
{
    Py_ssize_t given = 0;
    PyObject *last = Py_None;
    if (!PyArg_ParseTuple(arguments, form, &given, &last) || !is_open(self))
        return -1;
    Py_ssize_t until = (Py_ssize_t)len_of(self);
    if (last != Py_None)
        until = PyNumber_AsSsize_t(last, PyExc_IndexError);
    if (until == -1 && PyErr_Occurred())
        return -1;
    return in_bytes(self, given, begin) < 0 ? -1 : in_bytes(self, until, end);
}

/* The bytes of a range, as new bytes. NULL with an exception set. */
static PyObject *bytes_between(PyObject *self, size_t begin, size_t end)
{
    if (end < begin || end > starlark_document_len(document_of(self)))
        return refuse(STARLARK_STATUS_BAD_RANGE);
    PyObject *bytes = PyBytes_FromStringAndSize(NULL, (Py_ssize_t)(end - begin));
    if (bytes == NULL)
        return NULL;
    uint32_t status = starlark_document_text(document_of(self), begin, end,
                                             (uint8_t *)PyBytes_AsString(bytes), end - begin);
    if (status == STARLARK_STATUS_WHOLE)
        return bytes;
    Py_DECREF(bytes);
    return refuse(status);
}

static PyObject *document_text(PyObject *self, PyObject *arguments)
{
    size_t begin, end;
    if (range_of(self, arguments, "|nO:text", &begin, &end) < 0)
        return NULL;
    PyObject *bytes = bytes_between(self, begin, end);
    if (bytes == NULL)
        return NULL;
    PyObject *made = str_of((uint8_t *)PyBytes_AsString(bytes), end - begin);
    Py_DECREF(bytes);
    return made;
}

/* Fills the buffers with what touches a range, once, with the wanted room where they have none.
 * Returns 0, or -1 with an exception set. */
static int fill_part(const starlark_document *document, pieces *found, size_t begin, size_t end,
                     bool has_lexemes)
{
    starlark_recovered outcome;
    size_t lexemes = 512, values = 4096, faults = 16;
    do {
        if (pieces_make_room(found, lexemes, values, faults) < 0)
            return -1;
        if (has_lexemes)
            starlark_document_lexemes(document, begin, end, found->lexemes, found->lexemes_cap,
                                      found->values, found->values_cap, &outcome);
        else
            starlark_document_faults(document, begin, end, found->values, found->values_cap,
                                     found->faults, found->faults_cap, &outcome);
        lexemes = outcome.wanted_lexemes;
        values = outcome.wanted_values;
        faults = outcome.wanted_faults;
    } while (outcome.status == STARLARK_STATUS_FULL);
    found->lexemes_len = outcome.lexemes;
    found->values_len = outcome.values;
    found->faults_len = outcome.faults;
    if (outcome.status != STARLARK_STATUS_WHOLE)
        refuse(outcome.status);
    return outcome.status == STARLARK_STATUS_WHOLE ? 0 : -1;
}

int find_lexemes(const starlark_document *document, pieces *found, size_t begin, size_t end)
{
    return fill_part(document, found, begin, end, true);
}

starlark_document *open_document(PyObject *module, PyObject *object)
{
    if ((PyObject *)Py_TYPE(object) != state_of(module)->document_type) {
        PyErr_SetString(PyExc_TypeError, "this isn't a document");
        return NULL;
    }
    return is_open(object) ? document_of(object) : NULL;
}

/* Finds the lines of some offsets: where they begin and end, and the number of the first one. */
static void find_lines(PyObject *self, size_t *begin, size_t *end, starlark_text_place *first)
{
    starlark_text_place last;
    size_t len = starlark_document_len(document_of(self));
    starlark_document_place(document_of(self), *begin, first);
    starlark_document_place(document_of(self), *end, &last);
    *begin = starlark_document_offset_at_utf16(document_of(self), first->line, 0);
    *end = starlark_document_offset_at_utf16(document_of(self), last.line + 1, 0);
    *end = *end > len ? len : *end;
    first->column = first->utf16_column = 0;
}

/* Makes the offsets of what was found count from where its lines begin. */
static void move_to_lines(part *of)
{
    uint32_t begin = (uint32_t)of->begin;
    for (size_t index = 0; index < of->found.lexemes_len; index++) {
        of->found.lexemes[index].begin -= begin;
        of->found.lexemes[index].end -= begin;
    }
    for (size_t index = 0; index < of->found.faults_len; index++) {
        of->found.faults[index].begin -= begin;
        of->found.faults[index].end -= begin;
    }
}

/* Opens the lines of what was found, and a maker in them. Returns 0, or -1 with an exception set. */
static int open_lines(PyObject *self, part *of, maker *made)
{
    const pieces *found = &of->found;
    starlark_text_place first;
    size_t begin = SIZE_MAX, end = 0;
    for (size_t index = 0; index < found->lexemes_len; index++) {
        begin = found->lexemes[index].begin < begin ? found->lexemes[index].begin : begin;
        end = found->lexemes[index].end > end ? found->lexemes[index].end : end;
    }
    for (size_t index = 0; index < found->faults_len; index++) {
        begin = found->faults[index].begin < begin ? found->faults[index].begin : begin;
        end = found->faults[index].end > end ? found->faults[index].end : end;
    }
    find_lines(self, &begin, &end, &first);
    of->begin = begin;
    of->bytes = bytes_between(self, begin, end);
    if (of->bytes == NULL)
        return -1;
    of->lines.start = (const uint8_t *)PyBytes_AsString(of->bytes);
    of->lines.len = end - begin;
    if (maker_begin(made, state_of(((document_object *)self)->module), &of->lines) < 0)
        return -1;
    made->tokens.is_wide = ((document_object *)self)->counts_characters;
    made->tokens.place = first;
    if (for_caller(self, begin, &made->tokens.offset) < 0)
        return -1;
    made->faults = made->tokens;
    move_to_lines(of);
    return 0;
}

/* Appends what was found to a list. Returns 0, or -1 with an exception set. */
static int append_part(PyObject *list, const part *of, maker *made)
{
    for (size_t index = 0; index < of->found.lexemes_len; index++)
        if (append_new(list, maker_token(made, &of->found, &of->found.lexemes[index])) < 0)
            return -1;
    for (size_t index = 0; index < of->found.faults_len; index++)
        if (append_new(list, maker_fault(made, &of->found, &of->found.faults[index])) < 0)
            return -1;
    return 0;
}

/* A list of the tokens that touch a range, or of the faults. NULL with an exception set. */
static PyObject *list_between(PyObject *self, size_t begin, size_t end, bool has_lexemes)
{
    part of;
    maker made;
    PyObject *list = PyList_New(0);
    memset(&of, 0, sizeof of);
    memset(&made, 0, sizeof made);
    int filled = -1;
    if (list != NULL)
        filled = fill_part(document_of(self), &of.found, begin, end, has_lexemes);
    if (filled == 0 && of.found.lexemes_len + of.found.faults_len > 0)
        filled = open_lines(self, &of, &made) < 0 ? -1 : append_part(list, &of, &made);
    maker_end(&made);
    pieces_end(&of.found);
    Py_XDECREF(of.bytes);
    if (filled < 0)
        Py_CLEAR(list);
    return list;
}

static PyObject *document_tokens(PyObject *self, PyObject *arguments)
{
    size_t begin, end;
    if (range_of(self, arguments, "|nO:tokens", &begin, &end) < 0)
        return NULL;
    return list_between(self, begin, end, true);
}

static PyObject *document_faults(PyObject *self, PyObject *arguments)
{
    size_t begin, end;
    if (range_of(self, arguments, "|nO:faults", &begin, &end) < 0)
        return NULL;
    return list_between(self, begin, end, false);
}

static PyObject *document_place(PyObject *self, PyObject *given)
{
    starlark_text_place place;
    size_t bytes;
    Py_ssize_t at = PyNumber_AsSsize_t(given, PyExc_IndexError);
    if ((at == -1 && PyErr_Occurred()) || !is_open(self))
        return NULL;
    if (at < 0 || (size_t)at > len_of(self))
        Py_RETURN_NONE;
    if (in_bytes(self, at, &bytes) < 0)
        return NULL;
    if (!starlark_document_place(document_of(self), bytes, &place))
        Py_RETURN_NONE;
    return Py_BuildValue("(nnn)", (Py_ssize_t)place.line, (Py_ssize_t)place.column,
                         (Py_ssize_t)place.utf16_column);
}

static PyObject *document_offset_at_utf16(PyObject *self, PyObject *arguments)
{
    Py_ssize_t line, column;
    if (!PyArg_ParseTuple(arguments, "nn:offset_at_utf16", &line, &column) || !is_open(self))
        return NULL;
    size_t at = STARLARK_NO_OFFSET;
    if (line >= 0 && column >= 0)
        at = starlark_document_offset_at_utf16(document_of(self), (size_t)line, (size_t)column);
    if (at == STARLARK_NO_OFFSET)
        Py_RETURN_NONE;
    return for_caller(self, at, &at) < 0 ? NULL : PyLong_FromSize_t(at);
}

static Py_ssize_t document_len(PyObject *self)
{
    Py_ssize_t len;
    BEGIN_ALONE(self)
    len = is_open(self) ? (Py_ssize_t)len_of(self) : -1;
    END_ALONE()
    return len;
}

static PyObject *document_close(PyObject *self, PyObject *Py_UNUSED(none))
{
    starlark_document_close(document_of(self));
    ((document_object *)self)->document = NULL;
    offsets_close(offsets_of(self));
    Py_RETURN_NONE;
}

static PyObject *document_enter(PyObject *self, PyObject *Py_UNUSED(none))
{
    if (!is_open(self))
        return NULL;
    Py_INCREF(self);
    return self;
}

static PyObject *document_exit(PyObject *self, PyObject *Py_UNUSED(arguments))
{
    return document_close(self, NULL);
}

/* Makes a document by the module of its class. */
static PyObject *document_make(PyTypeObject *type, PyObject *arguments, PyObject *keywords)
{
    static char *names[] = {"source", NULL};
    PyObject *source;
    if (!PyArg_ParseTupleAndKeywords(arguments, keywords, "O:Document", names, &source))
        return NULL;
    PyObject *module = PyType_GetModule(type);
    return module == NULL ? NULL : document_new(module, source);
}

ALONE(document_edit)
ALONE(document_tokens)
ALONE(document_faults)
ALONE(document_text)
ALONE(document_place)
ALONE(document_offset_at_utf16)
ALONE(document_close)
ALONE(document_enter)
ALONE(document_exit)

static PyMethodDef methods[] = {
    {"edit", document_edit_alone, METH_VARARGS,
     "edit($self, begin, end, text, /)\n--\n\n"
     "Replaces what is between two offsets by a text, and lexes what that touches.\n\n"
     "Returns the `Change`. `IndexError` says that the range isn't one of the text, or is cut\n"
     "inside of a character: then nothing changes."},
    {"tokens", document_tokens_alone, METH_VARARGS,
     "tokens($self, begin=0, end=None, /)\n--\n\n"
     "The tokens that end at the offset `begin` or later, and begin at `end` or earlier."},
    {"faults", document_faults_alone, METH_VARARGS,
     "faults($self, begin=0, end=None, /)\n--\n\n"
     "The faults that end at the offset `begin` or later, and begin at `end` or earlier."},
    {"text", document_text_alone, METH_VARARGS,
     "text($self, begin=0, end=None, /)\n--\n\nThe text between two offsets, as a str."},
    {"place", document_place_alone, METH_O,
     "place($self, at, /)\n--\n\n"
     "Line, column in characters and column in units of UTF-16 of an offset, each from 0. None\n"
     "where it is no character boundary of the text."},
    {"offset_at_utf16", document_offset_at_utf16_alone, METH_VARARGS,
     "offset_at_utf16($self, line, column, /)\n--\n\n"
     "The offset of a line and a column in units of UTF-16, both from 0. None where no character\n"
     "boundary is there."},
    {"close", document_close_alone, METH_NOARGS, "close($self, /)\n--\n\nFrees the document."},
    {"__enter__", document_enter_alone, METH_NOARGS, "The document itself."},
    {"__exit__", document_exit_alone, METH_VARARGS, "Frees the document."},
    {NULL, NULL, 0, NULL},
};

PyObject *new_document_type(PyObject *module)
{
    static PyType_Slot slots[] = {
        {Py_tp_new, document_make},
        {Py_tp_doc, "Document(source)\n--\n\n"
                    "A text that stays lexed while it is edited. Where it was a str, offsets and\n"
                    "`len` count characters, as in `Token.span`, else bytes. It frees its memory\n"
                    "at the end of a `with` block."},
        {Py_tp_dealloc, document_dealloc},
        {Py_sq_length, document_len},
        {Py_tp_methods, methods},
        {0, NULL},
    };
    static PyType_Spec spec = {
        .name = "starlark_lexer.library.Document",
        .basicsize = sizeof(document_object),
        .flags = Py_TPFLAGS_DEFAULT,
        .slots = slots,
    };
    return PyType_FromModuleAndSpec(module, &spec, NULL);
}
