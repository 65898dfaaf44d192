/* The module `starlark_lexer.library`: what Python calls of the proved lexer. */
#include "library.h"

#include <stdlib.h>
#include <string.h>

library_state *state_of(PyObject *module)
{
    return PyModule_GetState(module);
}

PyObject *new_refused(PyTypeObject *type, PyObject *Py_UNUSED(arguments),
                      PyObject *Py_UNUSED(keywords))
{
    return PyErr_Format(PyExc_TypeError, "%R is made by the calls of starlark_lexer alone",
                        (PyObject *)type);
}

/* Reads the arguments `source` and, where that is not NULL, `recover`. Returns the borrowed source,
 * or NULL with an exception set. */
static PyObject *source_of(PyObject *arguments, PyObject *keywords, const char *form, int *recover)
{
    static char *names[] = {"source", "recover", NULL};
    static char *first[] = {"source", NULL};
    PyObject *source = NULL;
    if (recover == NULL)
        PyArg_ParseTupleAndKeywords(arguments, keywords, form, first, &source);
    else
        PyArg_ParseTupleAndKeywords(arguments, keywords, form, names, &source, recover);
    return PyErr_Occurred() ? NULL : source;
}

/* The lists that a call makes of a text. One that isn't wanted is NULL; both may be one list. */
typedef struct lists {
    PyObject *tokens;
    PyObject *faults;
} lists;

/* A text that is lexed into lists. */
typedef struct scan {
    text lexed;
    pieces pieces;
    maker maker;
    lists into;
} scan;

/* Appends the tokens and faults of the last piece in their order. Returns 0, or -1 with an
 * exception set. */
static int append_piece(scan *of)
{
    const pieces *piece = &of->pieces;
    size_t fault = 0;
    for (size_t index = 0; index <= piece->lexemes_len; index++) {
        for (; fault < piece->faults_len && piece->faults[fault].lexemes_before == index; fault++)
            if (append_new(of->into.faults, maker_fault(&of->maker, piece, &piece->faults[fault]))
                < 0)
                return -1;
        if (index < piece->lexemes_len && of->into.tokens != NULL
            && append_new(of->into.tokens, maker_token(&of->maker, piece, &piece->lexemes[index]))
                < 0)
            return -1;
    }
    return 0;
}

/* Lexes a text into lists. Returns 0, or -1 with an exception set. */
static int scan_text(scan *of, PyObject *module, PyObject *source, bool is_recovering)
{
    int found;
    if (text_open(&of->lexed, source) < 0
        || maker_begin(&of->maker, state_of(module), &of->lexed) < 0)
        return -1;
    pieces_begin(&of->pieces, &of->lexed, is_recovering);
    while ((found = pieces_advance(&of->pieces)) > 0)
        if (append_piece(of) < 0)
            return -1;
    return found;
}

/* Lexes a text into lists, which may be NULL where memory ran out for them. Returns 0, or -1 with
 * an exception set. */
static int lex_into(lists into, PyObject *module, PyObject *source, bool is_recovering)
{
    scan of;
    memset(&of, 0, sizeof of);
    of.into = into;
    int scanned = into.faults == NULL ? -1 : scan_text(&of, module, source, is_recovering);
    pieces_end(&of.pieces);
    maker_end(&of.maker);
    text_close(&of.lexed);
    return scanned;
}

static PyObject *library_tokenize(PyObject *module, PyObject *arguments, PyObject *keywords)
{
    int recover = 0;
    PyObject *source = source_of(arguments, keywords, "O|p:tokenize", &recover);
    return source == NULL ? NULL : tokens_new(module, source, recover);
}

/* The lists of tokens and faults of a text, up to its first fault or on after all. */
static PyObject *two_lists(PyObject *module, PyObject *source, bool is_recovering)
{
    PyObject *both = NULL;
    lists into = {.tokens = PyList_New(0)};
    into.faults = into.tokens == NULL ? NULL : PyList_New(0);
    if (lex_into(into, module, source, is_recovering) == 0)
        both = PyTuple_Pack(2, into.tokens, into.faults);
    Py_XDECREF(into.tokens);
    Py_XDECREF(into.faults);
    return both;
}

static PyObject *library_lex(PyObject *module, PyObject *arguments, PyObject *keywords)
{
    PyObject *source = source_of(arguments, keywords, "O:lex", NULL);
    PyObject *both = source == NULL ? NULL : two_lists(module, source, false);
    if (both == NULL)
        return NULL;
    PyObject *faults = PyTuple_GetItem(both, 1);
    PyObject *first = PyList_Size(faults) == 0 ? Py_None : PyList_GetItem(faults, 0);
    PyObject *found = PyTuple_Pack(2, PyTuple_GetItem(both, 0), first);
    Py_DECREF(both);
    return found;
}

static PyObject *library_lex_all(PyObject *module, PyObject *arguments, PyObject *keywords)
{
    PyObject *source = source_of(arguments, keywords, "O:lex_all", NULL);
    return source == NULL ? NULL : two_lists(module, source, true);
}

/* A list of the faults of a text, or of its tokens and faults. */
static PyObject *one_list(PyObject *module, PyObject *source, bool has_tokens)
{
    PyObject *list = PyList_New(0);
    lists into = {.tokens = has_tokens ? list : NULL, .faults = list};
    if (lex_into(into, module, source, true) < 0)
        Py_CLEAR(list);
    return list;
}

static PyObject *library_faults(PyObject *module, PyObject *arguments, PyObject *keywords)
{
    PyObject *source = source_of(arguments, keywords, "O:faults", NULL);
    return source == NULL ? NULL : one_list(module, source, false);
}

static PyObject *library_lex_items(PyObject *module, PyObject *arguments, PyObject *keywords)
{
    PyObject *source = source_of(arguments, keywords, "O:lex_items", NULL);
    return source == NULL ? NULL : one_list(module, source, true);
}

static PyObject *library_lex_columns(PyObject *module, PyObject *arguments, PyObject *keywords)
{
    int recover = 0;
    PyObject *source = source_of(arguments, keywords, "O|p:lex_columns", &recover);
    return source == NULL ? NULL : columns_new(module, source, recover);
}

static PyObject *library_kind_name(PyObject *Py_UNUSED(module), PyObject *kind)
{
    unsigned long number = PyLong_AsUnsignedLong(kind);
    if (number == (unsigned long)-1 && PyErr_Occurred())
        return NULL;
    const char *name = number > UINT32_MAX ? NULL : starlark_kind_name((uint32_t)number);
    return PyUnicode_FromString(name == NULL ? "" : name);
}

static PyObject *library_kind_class(PyObject *Py_UNUSED(module), PyObject *kind)
{
    unsigned long number = PyLong_AsUnsignedLong(kind);
    if (number == (unsigned long)-1 && PyErr_Occurred())
        return NULL;
    return PyLong_FromUnsignedLong(number > UINT32_MAX ? 0 : starlark_kind_class((uint32_t)number));
}

static PyObject *library_fault_code(PyObject *Py_UNUSED(module), PyObject *kind)
{
    unsigned long number = PyLong_AsUnsignedLong(kind);
    if (number == (unsigned long)-1 && PyErr_Occurred())
        return NULL;
    const char *code = number > UINT32_MAX ? NULL : starlark_fault_code((uint32_t)number);
    return PyUnicode_FromString(code == NULL ? "" : code);
}

static PyObject *library_version(PyObject *Py_UNUSED(module), PyObject *Py_UNUSED(none))
{
    unsigned version = starlark_lex_version();
    return PyUnicode_FromFormat("%u.%u.%u", version / 1000000, version / 1000 % 1000,
                                version % 1000);
}

static PyObject *library_place_of(PyObject *Py_UNUSED(module), PyObject *arguments)
{
    const char *source;
    Py_ssize_t len, at;
    starlark_text_place place;
    if (!PyArg_ParseTuple(arguments, "y#n:place_of", &source, &len, &at))
        return NULL;
    if (at < 0 || !starlark_place((const uint8_t *)source, (size_t)len, (size_t)at, &place))
        Py_RETURN_NONE;
    return Py_BuildValue("(nnn)", (Py_ssize_t)place.line, (Py_ssize_t)place.column,
                         (Py_ssize_t)place.utf16_column);
}

#define KEYWORDS(call) ((PyCFunction)(void (*)(void))(call))
#define CALL(name, doc) {#name, KEYWORDS(library_##name), METH_VARARGS | METH_KEYWORDS, doc}

static PyMethodDef methods[] = {
    CALL(tokenize,
         "tokenize(source, recover=False)\n--\n\n"
         "The tokens of a text, in order: an iterator.\n\n"
         "It raises `StarlarkFault` after the tokens before the first fault. With `recover` it\n"
         "raises no fault. A reserved word, an integer with a leading 0, a character that\n"
         "begins no token, and a tab in code keep their lines: it goes on after them, with all\n"
         "brackets, f-strings and blocks open, and so it does after a literal with a bad escape,\n"
         "and at the line end that stops an open quote, where the brackets in it count. A token\n"
         "stands for such a word, integer or literal. After any other fault it begins again at\n"
         "the next line, with the blocks alone open.\n\n"
         "The call itself raises `TypeError` for what neither is a `str` nor has bytes,\n"
         "`UnicodeError` for what isn't UTF-8, and `ValueError` for more than 4294967295 bytes."),
    CALL(lex,
         "lex(source)\n--\n\n"
         "All tokens of a text and None, or the tokens before its first fault and that fault."),
    CALL(lex_all,
         "lex_all(source)\n--\n\n"
         "All tokens and all faults of a text, in two lists.\n\n"
         "Lexing goes on after each fault as that of `tokenize` does with `recover`."),
    CALL(faults,
         "faults(source)\n--\n\n"
         "All faults of a text, in order.\n\n"
         "Lexing goes on after each one as that of `tokenize` does with `recover`."),
    CALL(lex_items,
         "lex_items(source)\n--\n\n"
         "All tokens and all faults of a text in one list, in order."),
    CALL(lex_columns,
         "lex_columns(source, recover=False)\n--\n\n"
         "The tokens of a text as columns of numbers, up to its first fault, or on after faults."),
    {"kind_name", library_kind_name, METH_O,
     "kind_name(kind, /)\n--\n\n"
     "The name of a kind, as `Identifier`; empty where no kind has the number."},
    {"kind_class", library_kind_class, METH_O,
     "kind_class(kind, /)\n--\n\n"
     "The number of the class of a kind; 0 where no kind has the number."},
    {"fault_code", library_fault_code, METH_O,
     "fault_code(kind, /)\n--\n\n"
     "The code of a fault's kind, as `SL008`; empty where no fault has the number."},
    {"semantic_tokens", library_semantic_tokens, METH_VARARGS,
     "semantic_tokens(document, types, unit, line, begin, first, last, end, /)\n--\n\n"
     "The tokens that begin from byte `begin`, where a line does, to byte `end`.\n\n"
     "Returns how many end before byte `first`, the numbers of those that touch `first` to\n"
     "`last`, and of the one after them, as text; how many these are, and how many follow. A token is\n"
     "counted once for each of its lines, which LF, CR LF or CR end. Its numbers are those of the\n"
     "Language Server Protocol: by how many lines and columns it begins after the one before it,\n"
     "its length, its type, and 0. A column is a unit of UTF-8, 16 or 32. `types` has the type of\n"
     "each kind, or 255."},
    {"version", library_version, METH_NOARGS, "version()\n--\n\nThe version of the library."},
    {"place_of", library_place_of, METH_VARARGS,
     "place_of(source, at, /)\n--\n\n"
     "Line, column in characters and column in units of UTF-16 of an offset, each from 0.\n\n"
     "None where the offset is past the end of the text, or inside a character."},
    {NULL, NULL, 0, NULL},
};

/* Fetches an attribute of a module of the package. Returns 0, or -1 with an exception set. */
static int fetch(PyObject **into, const char *module_name, const char *name)
{
    PyObject *module = PyImport_ImportModule(module_name);
    if (module == NULL)
        return -1;
    *into = PyObject_GetAttrString(module, name);
    Py_DECREF(module);
    return *into == NULL ? -1 : 0;
}

/* Fetches the members of an enumeration by their numbers, from 1 on. */
static int fetch_members(PyObject **members, int count, const char *name)
{
    PyObject *enumeration = NULL;
    int fetched = fetch(&enumeration, "starlark_lexer.kinds", name);
    for (int number = 1; fetched == 0 && number < count; number++) {
        members[number] = PyObject_CallFunction(enumeration, "i", number);
        fetched = members[number] == NULL ? -1 : 0;
    }
    Py_XDECREF(enumeration);
    return fetched;
}

/* Finds the function that makes instances of subclasses of tuple. Before Python 3.10 only classes
 * made at run time tell their functions. */
static int fetch_tuple_new(library_state *state)
{
    PyObject *subclass =
        PyObject_CallFunction((PyObject *)&PyType_Type, "s(O){}", "Fields", &PyTuple_Type);
    if (subclass == NULL)
        return -1;
    state->tuple_new = (newfunc)PyType_GetSlot((PyTypeObject *)subclass, Py_tp_new);
    Py_DECREF(subclass);
    return state->tuple_new == NULL ? -1 : 0;
}

/* Whether the library is that of the header. Sets ImportError if not. */
static bool is_usable(void)
{
    if (starlark_lex_version() != STARLARK_LEX_VERSION) {
        PyErr_SetString(PyExc_ImportError, "the library has another version than its header");
        return false;
    }
    return true;
}

/* Adds a type to the module. Returns 0, or -1 with an exception set. */
static int add_type(PyObject *module, const char *name, PyObject *type)
{
    Py_INCREF(type);
    if (PyModule_AddObject(module, name, type) == 0)
        return 0;
    Py_DECREF(type);
    return -1;
}

static int library_exec(PyObject *module)
{
    static const char tokens[] = "starlark_lexer.tokens";
    library_state *state = state_of(module);
    if (!is_usable() || fetch_members(state->kinds, KINDS, "Kind") < 0
        || fetch_members(state->quotes, QUOTES, "Quotes") < 0
        || fetch_members(state->fault_kinds, FAULT_KINDS, "FaultKind") < 0
        || fetch(&state->token_class, tokens, "Token") < 0
        || fetch(&state->fault_class, tokens, "Fault") < 0
        || fetch(&state->fault_error, tokens, "StarlarkFault") < 0
        || fetch(&state->change_class, tokens, "Change") < 0
        || fetch(&state->integer_of_digits, tokens, "integer_of_digits") < 0
        || fetch_tuple_new(state) < 0)
        return -1;
    state->tokens_type = new_tokens_type();
    state->columns_type = state->tokens_type == NULL ? NULL : new_columns_type();
    state->document_type = state->columns_type == NULL ? NULL : new_document_type(module);
    if (state->document_type == NULL || add_type(module, "Columns", state->columns_type) < 0)
        return -1;
    return add_type(module, "Document", state->document_type);
}

/* Calls a function for each object of the state, and returns its first result that isn't 0. */
static int visit_members(PyObject *const *members, int count, visitproc visit, void *arg)
{
    for (int number = 0; number < count; number++)
        Py_VISIT(members[number]);
    return 0;
}

static int library_traverse(PyObject *module, visitproc visit, void *arg)
{
    library_state *state = state_of(module);
    if (state == NULL)
        return 0;
    Py_VISIT(state->token_class);
    Py_VISIT(state->fault_class);
    Py_VISIT(state->fault_error);
    Py_VISIT(state->integer_of_digits);
    Py_VISIT(state->tokens_type);
    Py_VISIT(state->columns_type);
    Py_VISIT(state->document_type);
    Py_VISIT(state->change_class);
    int stopped = visit_members(state->kinds, KINDS, visit, arg);
    if (stopped == 0)
        stopped = visit_members(state->fault_kinds, FAULT_KINDS, visit, arg);
    return stopped != 0 ? stopped : visit_members(state->quotes, QUOTES, visit, arg);
}

static int library_clear(PyObject *module)
{
    library_state *state = state_of(module);
    if (state == NULL)
        return 0;
    Py_CLEAR(state->token_class);
    Py_CLEAR(state->fault_class);
    Py_CLEAR(state->fault_error);
    Py_CLEAR(state->integer_of_digits);
    Py_CLEAR(state->tokens_type);
    Py_CLEAR(state->columns_type);
    Py_CLEAR(state->document_type);
    Py_CLEAR(state->change_class);
    for (int number = 0; number < KINDS; number++)
        Py_CLEAR(state->kinds[number]);
    for (int number = 0; number < FAULT_KINDS; number++)
        Py_CLEAR(state->fault_kinds[number]);
    for (int number = 0; number < QUOTES; number++)
        Py_CLEAR(state->quotes[number]);
    return 0;
}

static void library_free(void *module)
{
    library_clear(module);
}

/* Slots that the limited API of 3.9 lacks: an interpreter with a lock of its own may import the
 * module (3.12), and one without any lock (3.13). */
enum { MULTIPLE_INTERPRETERS = 3, GIL = 4 };
#define PER_INTERPRETER_GIL ((void *)2)
#define GIL_NOT_USED ((void *)1)

static PyModuleDef_Slot slots[] = {
    {Py_mod_exec, library_exec},
    {0, NULL},
};

static PyModuleDef_Slot slots_of_3_12[] = {
    {Py_mod_exec, library_exec},
    {MULTIPLE_INTERPRETERS, PER_INTERPRETER_GIL},
    {0, NULL},
};

static PyModuleDef_Slot slots_of_3_13[] = {
    {Py_mod_exec, library_exec},
    {MULTIPLE_INTERPRETERS, PER_INTERPRETER_GIL},
    {GIL, GIL_NOT_USED},
    {0, NULL},
};

#define DEFINITION(its_slots) \
    { \
        PyModuleDef_HEAD_INIT, \
        .m_name = "starlark_lexer.library", \
        .m_doc = "The proved lexer of Starlark, called from Python.", \
        .m_size = sizeof(library_state), .m_methods = methods, .m_slots = its_slots, \
        .m_traverse = library_traverse, .m_clear = library_clear, .m_free = library_free \
    }

static PyModuleDef definition = DEFINITION(slots);
static PyModuleDef definition_of_3_12 = DEFINITION(slots_of_3_12);
static PyModuleDef definition_of_3_13 = DEFINITION(slots_of_3_13);

/* The module for the running interpreter: an older one refuses slots that it doesn't know. */
PyMODINIT_FUNC PyInit_library(void)
{
    char *end;
    long major = strtol(Py_GetVersion(), &end, 10);
    long minor = strtol(end + 1, NULL, 10);
    if (major == 3 && minor < 12)
        return PyModuleDef_Init(&definition);
    return PyModuleDef_Init(major == 3 && minor == 12 ? &definition_of_3_12 : &definition_of_3_13);
}
