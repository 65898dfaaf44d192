/* Refuses each allocation of a call of starlark_lex or starlark_lex_recovering in turn, and looks
 * at what the call tells.
 *
 * It is linked with -Wl,--wrap=malloc,--wrap=realloc. Where an allocation was refused the status
 * has to be STARLARK_STATUS_MEMORY, with the first lexemes and faults of the text in the buffers;
 * else all is as it is with enough memory. Half of the calls have buffers that are too small. */
#include "starlark_lex.h"

#include <stdbool.h>
#include <stdio.h>
#include <stdlib.h>
#include <string.h>

#define ROOM 256

void *__real_malloc(size_t size);
void *__real_realloc(void *block, size_t size);

static long until_refused = -1;
static bool was_refused;

static bool is_refused(void)
{
    if (until_refused < 0 || until_refused-- > 0)
        return false;
    was_refused = true;
    return true;
}

void *__wrap_malloc(size_t size)
{
    return is_refused() ? NULL : __real_malloc(size);
}

void *__wrap_realloc(void *block, size_t size)
{
    return is_refused() ? NULL : __real_realloc(block, size);
}

static const char *const texts[] = {
    "",
    "x\n",
    "def f(a):\n    return f\"{a!r} b\" + 'c\\n'  # d\n\nx = 0xFFFFFFFFFF\n",
    "a = [\n  1,\n  2.5,\n]\nb = '''c\nd'''\n",
    "if x:\n  if y:\n    z\nx = 012\n",
    "x\n$\n",
    "x = 'a\nif y:\n  z = 01\n\n$\nf'{b!r} c' + \"\\q\nclass\nd(  # e\n",
};

typedef struct call {
    starlark_lexeme lexemes[ROOM];
    uint8_t values[ROOM];
    starlark_outcome outcome;
} call;

/* A call whose allocation of a number, from 0, is refused; none is where that is below 0. */
static void lex(call *into, const char *text, size_t lexemes, long refused)
{
    memset(into, 0, sizeof *into);
    was_refused = false;
    until_refused = refused;
    starlark_lex((const uint8_t *)text, strlen(text), into->lexemes, lexemes, into->values, ROOM,
                 &into->outcome);
    until_refused = -1;
}

/* Whether what a call has in its buffers begins what another has. */
static bool begins(const call *one, const call *other)
{
    return memcmp(one->lexemes, other->lexemes, one->outcome.lexemes * sizeof(starlark_lexeme)) == 0
           && memcmp(one->values, other->values, one->outcome.values) == 0;
}

/* Refuses each allocation in turn. Returns how many were, or -1 where a call told something wrong.
 */
static long refuse_each(const char *text, size_t lexemes)
{
    static call whole, with_memory, without;
    lex(&whole, text, ROOM, -1);
    lex(&with_memory, text, lexemes, -1);
    for (long number = 0;; number++) {
        lex(&without, text, lexemes, number);
        if (!was_refused)
            return memcmp(&without, &with_memory, sizeof without) == 0 ? number : -1;
        if (without.outcome.status != STARLARK_STATUS_MEMORY || !begins(&without, &whole))
            return -1;
    }
}

typedef struct recovery {
    starlark_lexeme lexemes[ROOM];
    uint8_t values[ROOM];
    starlark_found_fault faults[ROOM];
    starlark_recovered outcome;
} recovery;

/* A call of starlark_lex_recovering whose allocation of a number, from 0, is refused; none is where
 * that is below 0. */
static void lex_recovering(recovery *into, const char *text, size_t lexemes, size_t faults,
                           long refused)
{
    memset(into, 0, sizeof *into);
    was_refused = false;
    until_refused = refused;
    starlark_lex_recovering((const uint8_t *)text, strlen(text), into->lexemes, lexemes,
                            into->values, ROOM, into->faults, faults, &into->outcome);
    until_refused = -1;
}

/* Whether some bytes are those of another buffer up to an offset, and 0 after it. */
static bool begins_and_ends(const void *one, const void *other, size_t end, size_t len)
{
    const uint8_t *bytes = one;
    for (size_t at = end; at < len; at++)
        if (bytes[at] != 0)
            return false;
    return end <= len && memcmp(one, other, end) == 0;
}

/* Whether a call without memory tells the first of what one with enough of it found, and wrote
 * nothing else. */
static bool begins_recovered(const recovery *one, const recovery *other)
{
    const starlark_recovered *told = &one->outcome;
    return told->status == STARLARK_STATUS_MEMORY && told->next == 0 && told->wanted_lexemes == 0
           && told->wanted_values == 0 && told->wanted_faults == 0
           && told->lexemes <= other->outcome.lexemes && told->values <= other->outcome.values
           && told->faults <= other->outcome.faults
           && begins_and_ends(one->lexemes, other->lexemes, told->lexemes * sizeof(starlark_lexeme),
                              sizeof one->lexemes)
           && begins_and_ends(one->values, other->values, told->values, sizeof one->values)
           && begins_and_ends(one->faults, other->faults,
                              told->faults * sizeof(starlark_found_fault), sizeof one->faults);
}

/* Whether two calls did the same. Their outcomes are compared without the bytes between fields. */
static bool is_same(const recovery *one, const recovery *other)
{
    const starlark_recovered *told = &one->outcome;
    const starlark_recovered *wanted = &other->outcome;
    size_t counts = offsetof(starlark_recovered, lexemes);
    return memcmp(one, other, offsetof(recovery, outcome)) == 0 && told->status == wanted->status
           && memcmp((const uint8_t *)told + counts, (const uint8_t *)wanted + counts,
                     sizeof *told - counts)
                  == 0;
}

/* Refuses each allocation of starlark_lex_recovering in turn. Returns how many were, or -1 where a
 * call told something wrong. */
static long refuse_each_recovering(const char *text, size_t lexemes, size_t faults)
{
    static recovery whole, with_memory, without;
    lex_recovering(&whole, text, ROOM, ROOM, -1);
    lex_recovering(&with_memory, text, lexemes, faults, -1);
    if (whole.outcome.status != STARLARK_STATUS_WHOLE)
        return -1;
    for (long number = 0;; number++) {
        lex_recovering(&without, text, lexemes, faults, number);
        if (!was_refused)
            return is_same(&without, &with_memory) ? number : -1;
        if (!begins_recovered(&without, &whole))
            return -1;
    }
}

/* The sum of two numbers of refused allocations, each -1 where a call told something wrong. */
static long sum(long one, long other)
{
    return one < 0 || other < 0 ? -1 : one + other;
}

int main(void)
{
    long refused = 0;
    for (size_t at = 0; at < sizeof texts / sizeof *texts; at++) {
        for (size_t lexemes = 0; lexemes <= 40; lexemes++) {
            size_t room = lexemes == 40 ? ROOM : lexemes;
            long found = sum(refuse_each_recovering(texts[at], room, ROOM),
                             refuse_each_recovering(texts[at], ROOM, room));
            found = sum(found, refuse_each(texts[at], room));
            if (found < 0) {
                fprintf(stderr, "refused_memory: text %zu, with %zu records\n", at, lexemes);
                return 1;
            }
            refused += found;
        }
    }
    printf("%ld allocations refused\n", refused);
    return refused == 0;
}
