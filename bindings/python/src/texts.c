/* Texts of Python as bytes of UTF-8, and places in them. */
#include "library.h"

/* Sets UnicodeDecodeError for bytes that are not UTF-8. */
static int refuse_bytes(const text *opened)
{
    PyObject *decoded =
        PyUnicode_DecodeUTF8((const char *)opened->start, (Py_ssize_t)opened->len, "strict");
    if (decoded != NULL) {
        Py_DECREF(decoded);
        PyErr_SetString(PyExc_SystemError, "the library takes UTF-8 for something else");
    }
    return -1;
}

/* Whether the bytes of a text are UTF-8. */
static bool is_utf8(const text *opened)
{
    starlark_text_place end;
    bool is_text;
    Py_BEGIN_ALLOW_THREADS
    is_text = starlark_place(opened->start, opened->len, opened->len, &end);
    Py_END_ALLOW_THREADS
    return is_text;
}

/* A copy of the bytes of an object that others may write to, as of a bytearray. NULL with an
 * exception set. */
static PyObject *copied_bytes(PyObject *source)
{
    PyObject *view = PyMemoryView_FromObject(source);
    if (view == NULL) {
        if (PyErr_ExceptionMatches(PyExc_TypeError))
            PyErr_Format(PyExc_TypeError, "a text is str, or has bytes, unlike %R",
                         (PyObject *)Py_TYPE(source));
        return NULL;
    }
    PyObject *bytes = PyBytes_FromObject(view);
    Py_DECREF(view);
    return bytes;
}

/* The bytes of a text, as new plain bytes or a new reference to them. NULL with an exception set. */
static PyObject *bytes_of(PyObject *source)
{
    if (PyUnicode_Check(source))
        return PyUnicode_AsUTF8String(source);
    if (PyBytes_CheckExact(source)) {
        Py_INCREF(source);
        return source;
    }
    return copied_bytes(source);
}

int text_open(text *opened, PyObject *source)
{
    char *start;
    Py_ssize_t len;
    opened->wide = NULL;
    opened->bytes = bytes_of(source);
    if (opened->bytes == NULL || PyBytes_AsStringAndSize(opened->bytes, &start, &len) < 0)
        return -1;
    opened->start = (const uint8_t *)start;
    opened->len = (size_t)len;
    if (opened->len > UINT32_MAX) {
        PyErr_SetString(PyExc_ValueError, "the text has more than 4294967295 bytes");
        return -1;
    }
    if (!PyUnicode_Check(source))
        return is_utf8(opened) ? 0 : refuse_bytes(opened);
    if (PyUnicode_GetLength(source) != len) {
        Py_INCREF(source);
        opened->wide = source;
    }
    return 0;
}

void text_close(text *opened)
{
    Py_CLEAR(opened->bytes);
    Py_CLEAR(opened->wide);
}

size_t characters_in(const uint8_t *bytes, size_t len)
{
    size_t characters = 0;
    for (size_t at = 0; at < len; at++)
        characters += (bytes[at] & 0xC0) != 0x80;
    return characters;
}

int cursor_move(cursor *moved, size_t at)
{
    size_t line = moved->place.line;
    if (!starlark_move_place(moved->start, moved->len, moved->at, at, &moved->place)) {
        PyErr_SetString(PyExc_SystemError, "the library's offsets are out of order");
        return -1;
    }
    moved->offset +=
        moved->is_wide ? characters_in(moved->start + moved->at, at - moved->at) : at - moved->at;
    moved->at = at;
    if (moved->place.line == line)
        return 0;
    for (moved->line_begin = at; moved->start[moved->line_begin - 1] != '\n'; moved->line_begin--)
        ;
    return 0;
}
