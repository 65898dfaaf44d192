/* The columns of a text: its lexemes as arrays of numbers, without an object for each. */
#include "library.h"

#include <stddef.h>
#include <string.h>
#include <structmember.h>

enum { BEGIN, END, KIND, NUMBER, VALUE_BEGIN, VALUE_END, VALUES, COLUMNS };

_Static_assert(KINDS <= 256, "a kind fits in a byte");

/* The format of each column's items for `memoryview`, and their size. */
static const struct {
    const char *format;
    size_t size;
} forms[COLUMNS] = {{"I", 4}, {"I", 4}, {"B", 1}, {"i", 4}, {"I", 4}, {"I", 4}, {"B", 1}};

typedef struct columns_object {
    PyObject_HEAD
    PyObject *module;
    text lexed;
    PyObject *buffers[COLUMNS]; /* bytearrays; once they have views they can't be resized */
    PyObject *views[COLUMNS];
    PyObject *faults;
    size_t len;
    size_t values_len;
    size_t cap;        /* items of each column but the values */
    size_t values_cap; /* bytes of values */
    size_t counted;    /* an offset in bytes, and as the columns have it */
    uint32_t offset;
} columns_object;

static void *items(const columns_object *of, int column)
{
    return PyByteArray_AsString(of->buffers[column]);
}

/* A new bytearray. It is made empty, since CPython complains of it where it has no memory for the
 * bytes of one that isn't. NULL with MemoryError set. */
static PyObject *new_buffer(Py_ssize_t len)
{
    PyObject *buffer = PyByteArray_FromStringAndSize(NULL, 0);
    if (buffer != NULL && PyByteArray_Resize(buffer, len) < 0)
        Py_CLEAR(buffer);
    return buffer;
}

/* How large an array has to be for a whole text, of which `done` bytes have `wanted` items. */
static size_t grown(size_t cap, size_t wanted, size_t done, size_t all)
{
    return wanted <= cap ? cap : (size_t)(1.1 * (double)wanted * (double)all / (double)done) + 16;
}

/* Gives the columns room for one more piece. Returns 0, or -1 with an exception set. */
static int make_columns_room(columns_object *of, const pieces *piece)
{
    size_t done = piece->has_ended ? piece->len : piece->next;
    size_t cap = grown(of->cap, of->len + piece->lexemes_len, done + 1, piece->len + 1);
    size_t values_cap =
        grown(of->values_cap, of->values_len + piece->values_len, done + 1, piece->len + 1);
    if (of->values_len + piece->values_len > UINT32_MAX) {
        PyErr_SetString(PyExc_ValueError, "the values have more than 4294967295 bytes");
        return -1;
    }
    for (int column = 0; column < COLUMNS; column++) {
        size_t wanted = column == VALUES ? values_cap : cap * forms[column].size;
        if ((column == VALUES ? values_cap > of->values_cap : cap > of->cap)
            && PyByteArray_Resize(of->buffers[column], (Py_ssize_t)wanted) < 0)
            return -1;
    }
    of->cap = cap;
    of->values_cap = values_cap;
    return 0;
}

/* A later offset than the last one, as the columns have it: in characters of a str. */
static uint32_t later_offset(columns_object *of, size_t at)
{
    const uint8_t *from = of->lexed.start + of->counted;
    size_t len = at - of->counted;
    of->offset += (uint32_t)(of->lexed.wide == NULL ? len : characters_in(from, len));
    of->counted = at;
    return of->offset;
}

/* Appends the lexemes of a piece to columns that have room for them. */
static void append_piece(columns_object *of, const pieces *piece)
{
    uint32_t *begin = items(of, BEGIN), *end = items(of, END);
    uint8_t *kind = items(of, KIND);
    int32_t *number = items(of, NUMBER);
    uint32_t *value_begin = items(of, VALUE_BEGIN), *value_end = items(of, VALUE_END);
    size_t at = of->len;
    uint32_t values = (uint32_t)of->values_len;
    for (size_t index = 0; index < piece->lexemes_len; index++, at++) {
        const starlark_lexeme *lexeme = &piece->lexemes[index];
        begin[at] = later_offset(of, piece->from + lexeme->begin);
        end[at] = later_offset(of, piece->from + lexeme->end);
        kind[at] = (uint8_t)lexeme->kind;
        number[at] = (int32_t)number_of(lexeme);
        value_begin[at] = values + (uint32_t)lexeme->value_begin;
        value_end[at] = values + (uint32_t)(lexeme->value_begin + lexeme->value_len);
    }
    memcpy((uint8_t *)items(of, VALUES) + of->values_len, piece->values, piece->values_len);
    of->len = at;
    of->values_len += piece->values_len;
}

/* Appends the faults of a piece to a list. Returns 0, or -1 with an exception set. */
static int append_faults(PyObject *list, maker *maker, const pieces *piece)
{
    for (size_t index = 0; index < piece->faults_len; index++)
        if (append_new(list, maker_fault(maker, piece, &piece->faults[index])) < 0)
            return -1;
    return 0;
}

/* Lexes a text into the columns. Returns 0, or -1 with an exception set. */
static int read_pieces(columns_object *of, pieces *piece, maker *maker, PyObject *faults)
{
    int found;
    while ((found = pieces_advance(piece)) > 0) {
        if (make_columns_room(of, piece) < 0 || append_faults(faults, maker, piece) < 0)
            return -1;
        append_piece(of, piece);
    }
    return found;
}

/* A read-only view of the first items of a buffer, which has one at least: no empty one is cast. */
static PyObject *view_of(PyObject *buffer, int column, size_t len)
{
    PyObject *bytes = PyMemoryView_FromObject(buffer);
    PyObject *cast =
        bytes == NULL ? NULL : PyObject_CallMethod(bytes, "cast", "s", forms[column].format);
    PyObject *all = cast == NULL ? NULL : PyObject_CallMethod(cast, "toreadonly", NULL);
    PyObject *view = all == NULL ? NULL : PySequence_GetSlice(all, 0, (Py_ssize_t)len);
    Py_XDECREF(bytes);
    Py_XDECREF(cast);
    Py_XDECREF(all);
    return view;
}

/* The bytes of a buffer of a number of items, which has room for one at least. */
static Py_ssize_t buffer_len(int column, size_t len)
{
    return (Py_ssize_t)((len == 0 ? 1 : len) * forms[column].size);
}

/* Makes the views, which have the items that were found and no room after them. */
static int make_views(columns_object *of)
{
    for (int column = 0; column < COLUMNS; column++) {
        size_t len = column == VALUES ? of->values_len : of->len;
        if (PyByteArray_Resize(of->buffers[column], buffer_len(column, len)) < 0)
            return -1;
        of->views[column] = view_of(of->buffers[column], column, len);
        if (of->views[column] == NULL)
            return -1;
    }
    return 0;
}

/* Makes the buffers, which are empty. */
static int make_buffers(columns_object *of)
{
    for (int column = 0; column < COLUMNS; column++) {
        of->buffers[column] = new_buffer(0);
        if (of->buffers[column] == NULL)
            return -1;
    }
    return 0;
}

/* Lexes the text of new columns. Returns 0, or -1 with an exception set. */
static int fill_columns(columns_object *of, bool is_recovering)
{
    pieces piece;
    maker faults;
    PyObject *list = PyList_New(0);
    pieces_begin(&piece, &of->lexed, is_recovering);
    int filled = maker_begin(&faults, state_of(of->module), &of->lexed);
    if (filled == 0 && list != NULL && make_buffers(of) == 0
        && read_pieces(of, &piece, &faults, list) == 0)
        of->faults = PyList_AsTuple(list);
    maker_end(&faults);
    pieces_end(&piece);
    Py_XDECREF(list);
    return of->faults == NULL ? -1 : make_views(of);
}

static void columns_dealloc(PyObject *self)
{
    columns_object *of = (columns_object *)self;
    PyTypeObject *type = Py_TYPE(self);
    for (int column = 0; column < COLUMNS; column++) {
        Py_XDECREF(of->views[column]);
        Py_XDECREF(of->buffers[column]);
    }
    Py_XDECREF(of->faults);
    text_close(&of->lexed);
    Py_XDECREF(of->module);
    ((freefunc)PyType_GetSlot(type, Py_tp_free))(self);
    Py_DECREF(type);
}

PyObject *columns_new(PyObject *module, PyObject *source, bool is_recovering)
{
    PyTypeObject *type = (PyTypeObject *)state_of(module)->columns_type;
    columns_object *made = (columns_object *)PyType_GenericAlloc(type, 0);
    if (made == NULL)
        return NULL;
    Py_INCREF(module);
    made->module = module;
    if (text_open(&made->lexed, source) < 0 || fill_columns(made, is_recovering) < 0)
        Py_CLEAR(made);
    return (PyObject *)made;
}

static Py_ssize_t columns_len(PyObject *self)
{
    return (Py_ssize_t)((columns_object *)self)->len;
}

/* The index of a token that a caller gives, from the end where it is below 0. -1 with an exception
 * set. */
static Py_ssize_t index_of(const columns_object *of, PyObject *given)
{
    Py_ssize_t index = PyNumber_AsSsize_t(given, PyExc_IndexError);
    if (index == -1 && PyErr_Occurred())
        return -1;
    index += index < 0 ? (Py_ssize_t)of->len : 0;
    if (index >= 0 && (size_t)index < of->len)
        return index;
    PyErr_SetString(PyExc_IndexError, "there is no token of this number");
    return -1;
}

/* An offset of a token. */
static uint32_t offset_of(const columns_object *of, int column, Py_ssize_t index)
{
    return ((const uint32_t *)items(of, column))[index];
}

/* The value of a token. The places are read from buffers that a caller may have written to. */
static PyObject *columns_value(PyObject *self, PyObject *given)
{
    const columns_object *of = (columns_object *)self;
    Py_ssize_t index = index_of(of, given);
    if (index < 0)
        return NULL;
    uint32_t begin = offset_of(of, VALUE_BEGIN, index), end = offset_of(of, VALUE_END, index);
    if (begin > end || end > of->values_len)
        return PyErr_Format(PyExc_IndexError, "the columns were changed");
    const uint8_t *bytes = (uint8_t *)items(of, VALUES) + begin;
    return value_of(state_of(of->module), ((uint8_t *)items(of, KIND))[index],
                    ((int32_t *)items(of, NUMBER))[index], bytes, end - begin);
}

/* The text of a token. */
static PyObject *columns_string(PyObject *self, PyObject *given)
{
    const columns_object *of = (columns_object *)self;
    Py_ssize_t index = index_of(of, given);
    if (index < 0)
        return NULL;
    uint32_t begin = offset_of(of, BEGIN, index), end = offset_of(of, END, index);
    PyObject *wide = of->lexed.wide;
    size_t len = wide == NULL ? of->lexed.len : (size_t)PyUnicode_GetLength(wide);
    if (begin > end || end > len)
        return PyErr_Format(PyExc_IndexError, "the columns were changed");
    if (wide != NULL)
        return PyUnicode_Substring(wide, begin, end);
    return str_of(of->lexed.start + begin, end - begin);
}

#define VIEW_AT(column) (offsetof(columns_object, views) + (column) * sizeof(PyObject *))
#define VIEW(name, column, doc) {name, T_OBJECT_EX, VIEW_AT(column), READONLY, doc}

static PyMemberDef members[] = {
    VIEW("begin", BEGIN, "where each token begins: a character of a str, or a byte"),
    VIEW("end", END, "where each token ends"),
    VIEW("kind", KIND, "the number of each token's kind"),
    VIEW("number", NUMBER,
         "an INT of 32 bits, the base of a longer one, an FSTRING_START's quotes, else 0"),
    VIEW("value_begin", VALUE_BEGIN, "where each token's value begins in `values`"),
    VIEW("value_end", VALUE_END, "where each token's value ends in `values`"),
    VIEW("values", VALUES, "the bytes of all values, one after another"),
    {"faults", T_OBJECT_EX, offsetof(columns_object, faults), READONLY, "the faults, in order"},
    {NULL, 0, 0, 0, NULL},
};

static PyMethodDef methods[] = {
    {"value", columns_value, METH_O,
     "value($self, i, /)\n--\n\nThe value of a token, as `Token.value`."},
    {"string", columns_string, METH_O,
     "string($self, i, /)\n--\n\nThe text of a token, as `Token.string`."},
    {NULL, NULL, 0, NULL},
};

PyObject *new_columns_type(void)
{
    static PyType_Slot slots[] = {
        {Py_tp_new, new_refused},
        {Py_tp_doc,
         "The tokens of a text as columns of numbers. `len` is how many tokens there are."},
        {Py_tp_dealloc, columns_dealloc},
        {Py_sq_length, columns_len},
        {Py_tp_members, members},
        {Py_tp_methods, methods},
        {0, NULL},
    };
    static PyType_Spec spec = {
        .name = "starlark_lexer.library.Columns",
        .basicsize = sizeof(columns_object),
        .flags = Py_TPFLAGS_DEFAULT,
        .slots = slots,
    };
    return PyType_FromSpec(&spec);
}
