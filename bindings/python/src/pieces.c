/* Pieces of a text: fronts up to a clean cut, and then the rest. */
#include "library.h"

#include <string.h>

enum { FIRST_WINDOW = 32768 };

void pieces_begin(pieces *of, const text *lexed, bool is_recovering)
{
    memset(of, 0, sizeof *of);
    of->start = lexed->start;
    of->len = lexed->len;
    of->is_recovering = is_recovering;
    of->window = FIRST_WINDOW;
}

void pieces_end(pieces *of)
{
    PyMem_Free(of->lexemes);
    PyMem_Free(of->values);
    PyMem_Free(of->faults);
    of->lexemes = NULL;
    of->values = NULL;
    of->faults = NULL;
    of->lexemes_cap = of->values_cap = of->faults_cap = 0;
    of->lexemes_len = of->values_len = of->faults_len = 0;
    of->has_ended = true;
}

/* Gives a buffer room for a number of items, and forgets what it has. Returns 0, or -1 with
 * MemoryError set. */
static int make_room(void **buffer, size_t *cap, size_t wanted, size_t item)
{
    if (wanted <= *cap)
        return 0;
    PyMem_Free(*buffer);
    *cap = 0;
    *buffer = wanted > (size_t)PY_SSIZE_T_MAX / item ? NULL : PyMem_Malloc(wanted * item);
    if (*buffer == NULL) {
        PyErr_NoMemory();
        return -1;
    }
    *cap = wanted;
    return 0;
}

int pieces_make_room(pieces *of, size_t lexemes, size_t values, size_t faults)
{
    of->lexemes_len = of->values_len = of->faults_len = 0;
    if (make_room((void **)&of->lexemes, &of->lexemes_cap, lexemes, sizeof *of->lexemes) < 0
        || make_room((void **)&of->values, &of->values_cap, values, sizeof *of->values) < 0)
        return -1;
    return make_room((void **)&of->faults, &of->faults_cap, faults, sizeof *of->faults);
}

/* The length of the next front: at most the window, up to a line end or else a whole character. */
static size_t front_len(const pieces *of)
{
    const uint8_t *front = of->start + of->next;
    size_t left = of->len - of->next;
    if (left <= of->window)
        return left;
    size_t len = of->window;
    while (len > 0 && front[len - 1] != '\n')
        len--;
    if (len > 0)
        return len;
    for (len = of->window; (front[len] & 0xC0) == 0x80; len--)
        ;
    return len;
}

/* Copies what an outcome says of a fault into the buffer of faults. */
static void take_fault(pieces *of, const starlark_outcome *outcome)
{
    starlark_found_fault *fault = &of->faults[0];
    memset(fault, 0, sizeof *fault);
    fault->kind = outcome->fault_kind;
    fault->begin = outcome->fault_begin;
    fault->end = outcome->fault_end;
    fault->lexemes_before = outcome->lexemes;
    fault->value_begin = outcome->fault_value_begin;
    fault->value_len = outcome->fault_value_len;
    of->faults_len = 1;
}

/* How a call ended, and what it wants where the buffers are full. */
typedef struct ending {
    uint32_t status;
    size_t next;
    size_t wanted_lexemes;
    size_t wanted_values;
    size_t wanted_faults;
} ending;

/* Lexes a front, or the rest up to its first fault. */
static ending lex_to_fault(pieces *of, size_t len, bool is_rest)
{
    starlark_outcome outcome;
    const uint8_t *front = of->start + of->next;
    Py_BEGIN_ALLOW_THREADS
    (is_rest ? starlark_lex : starlark_lex_front)(front, len, of->lexemes, of->lexemes_cap,
                                                  of->values, of->values_cap, &outcome);
    Py_END_ALLOW_THREADS
    of->lexemes_len = outcome.lexemes;
    of->values_len = outcome.values;
    if (outcome.status == STARLARK_STATUS_FAULT)
        take_fault(of, &outcome);
    return (ending){outcome.status, outcome.next, outcome.wanted_lexemes, outcome.wanted_values, 1};
}

/* Lexes the rest on after its faults. */
static ending lex_recovering(pieces *of, size_t len)
{
    starlark_recovered outcome;
    const uint8_t *rest = of->start + of->next;
    Py_BEGIN_ALLOW_THREADS
    starlark_lex_recovering(rest, len, of->lexemes, of->lexemes_cap, of->values, of->values_cap,
                            of->faults, of->faults_cap, &outcome);
    Py_END_ALLOW_THREADS
    of->lexemes_len = outcome.lexemes;
    of->values_len = outcome.values;
    of->faults_len = outcome.faults;
    return (ending){outcome.status, 0, outcome.wanted_lexemes, outcome.wanted_values,
                    outcome.wanted_faults};
}

/* Sets the exception of a status that ends lexing. */
static int refuse(uint32_t status)
{
    if (status == STARLARK_STATUS_MEMORY)
        PyErr_NoMemory();
    else
        PyErr_Format(PyExc_SystemError, "the library ended with status %u", (unsigned)status);
    return -1;
}

/* Gives the buffers the room that a call wants. Returns 0, or -1 with an exception set. */
static int make_wanted_room(pieces *of, const ending *ended)
{
    if (ended->wanted_lexemes <= of->lexemes_cap && ended->wanted_values <= of->values_cap
        && ended->wanted_faults <= of->faults_cap)
        return refuse(ended->status);
    return pieces_make_room(of, ended->wanted_lexemes, ended->wanted_values, ended->wanted_faults);
}

/* Whether lexing ends at the fault of a front, whatever follows the front. */
static bool is_final(const pieces *of, size_t len)
{
    return !of->is_recovering && of->faults_len > 0
        && starlark_fault_is_final(of->start + of->next, len, of->faults[0].end);
}

/* Lexes as much as a front, or all that is left. Returns 1 where that gave a piece, 0 where more
 * room or a longer front is wanted, and -1 with an exception set. */
static int try_piece(pieces *of, size_t len)
{
    bool is_rest = len == of->len - of->next;
    size_t faults = is_rest && of->is_recovering ? len / 64 + 16 : 1;
    if (pieces_make_room(of, len / 2 + 16, len + 16, faults) < 0)
        return -1;
    ending ended =
        is_rest && of->is_recovering ? lex_recovering(of, len) : lex_to_fault(of, len, is_rest);
    if (ended.status == STARLARK_STATUS_FULL && ended.next == 0)
        return make_wanted_room(of, &ended);
    of->from = of->next;
    if (ended.status == STARLARK_STATUS_FULL) {
        of->next += ended.next;
        return 1;
    }
    if (ended.status > STARLARK_STATUS_FAULT)
        return refuse(ended.status);
    of->has_ended = is_rest || is_final(of, len);
    if (!of->has_ended)
        of->window *= 4;
    return of->has_ended;
}

int pieces_advance(pieces *of)
{
    int found = 0;
    if (of->has_ended)
        return 0;
    while (found == 0)
        found = try_piece(of, front_len(of));
    return found;
}
