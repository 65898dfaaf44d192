/* The iterator of the tokens of a text. */
#include "library.h"

#include <string.h>

/* It takes no part in garbage collection: what it refers to never refers to it. The module keeps
 * the state alive, and bytes the text. */
typedef struct tokens_object {
    PyObject_HEAD
    PyObject *module;
    text lexed;
    pieces pieces;
    maker maker;
    size_t next;         /* the next lexeme of the piece */
    atomic_bool is_busy; /* a thread makes a token, or a finalizer runs while one is made */
} tokens_object;

/* Frees all but the module. No token follows. */
static void tokens_end(tokens_object *of)
{
    pieces_end(&of->pieces);
    maker_end(&of->maker);
    text_close(&of->lexed);
    of->next = 0;
}

static void tokens_dealloc(PyObject *self)
{
    tokens_object *of = (tokens_object *)self;
    PyTypeObject *type = Py_TYPE(self);
    tokens_end(of);
    Py_XDECREF(of->module);
    ((freefunc)PyType_GetSlot(type, Py_tp_free))(self);
    Py_DECREF(type);
}

PyObject *tokens_new(PyObject *module, PyObject *source, bool is_recovering)
{
    const library_state *state = state_of(module);
    tokens_object *made =
        (tokens_object *)PyType_GenericAlloc((PyTypeObject *)state->tokens_type, 0);
    if (made == NULL)
        return NULL;
    Py_INCREF(module);
    made->module = module;
    made->pieces.has_ended = true;
    if (text_open(&made->lexed, source) < 0 || maker_begin(&made->maker, state, &made->lexed) < 0) {
        Py_DECREF(made);
        return NULL;
    }
    pieces_begin(&made->pieces, &made->lexed, is_recovering);
    return (PyObject *)made;
}

/* Raises the fault at which the last piece ends, if it does and lexing doesn't go on. */
static void raise_fault(tokens_object *of)
{
    const library_state *state = of->maker.state;
    if (of->pieces.is_recovering || of->pieces.faults_len == 0)
        return;
    PyObject *fault = maker_fault(&of->maker, &of->pieces, &of->pieces.faults[0]);
    if (fault == NULL)
        return;
    PyObject *error = PyObject_CallFunctionObjArgs(state->fault_error, fault, NULL);
    if (error != NULL)
        PyErr_SetObject(state->fault_error, error);
    Py_XDECREF(error);
    Py_DECREF(fault);
}

/* The next token. NULL at the end, with an exception set where the text ends in a fault. */
static PyObject *next_token(tokens_object *of)
{
    while (of->next == of->pieces.lexemes_len) {
        bool has_ended = of->pieces.has_ended;
        if (has_ended)
            raise_fault(of);
        if (has_ended || pieces_advance(&of->pieces) < 0)
            return NULL;
        of->next = 0;
    }
    return maker_token(&of->maker, &of->pieces, &of->pieces.lexemes[of->next++]);
}

static PyObject *tokens_next(PyObject *self)
{
    tokens_object *of = (tokens_object *)self;
    if (atomic_exchange(&of->is_busy, true)) {
        PyErr_SetString(PyExc_ValueError, "the next token is being made already");
        return NULL;
    }
    PyObject *token = next_token(of);
    if (token == NULL)
        tokens_end(of);
    atomic_store(&of->is_busy, false);
    return token;
}

PyObject *new_tokens_type(void)
{
    static PyType_Slot slots[] = {
        {Py_tp_new, new_refused},
        {Py_tp_doc, "The tokens of a text, in order. After an exception it has ended."},
        {Py_tp_dealloc, tokens_dealloc},
        {Py_tp_iter, PyObject_SelfIter},
        {Py_tp_iternext, tokens_next},
        {0, NULL},
    };
    static PyType_Spec spec = {
        .name = "starlark_lexer.library.Tokens",
        .basicsize = sizeof(tokens_object),
        .flags = Py_TPFLAGS_DEFAULT,
        .slots = slots,
    };
    return PyType_FromSpec(&spec);
}
