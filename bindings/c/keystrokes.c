/* Times keystrokes in the middle of a document, as `starlark_bench --keystrokes` does.
 *
 *     keystrokes COUNT <TEXT
 *
 * It types COUNT characters into the middle half of a document, each at another place, and deletes
 * each again. It prints one line: the text's bytes, and in nanoseconds what making the document
 * took, a keystroke at the median and at 99 %, and lexing the whole text by
 * starlark_lex_recovering. */
#define _POSIX_C_SOURCE 199309L
#include "starlark_lex.h"

#include <stdio.h>
#include <stdlib.h>
#include <time.h>

static const char typed[] = "a_x =1,se.";

static long long now(void)
{
    struct timespec time;
    clock_gettime(CLOCK_MONOTONIC, &time);
    return time.tv_sec * 1000000000LL + time.tv_nsec;
}

static int order(const void *one, const void *other)
{
    long long left = *(const long long *)one;
    long long right = *(const long long *)other;
    return (left > right) - (left < right);
}

/* All of standard input, with its length. */
static uint8_t *read_all(size_t *len)
{
    size_t room = 1 << 20;
    uint8_t *text = malloc(room);
    *len = 0;
    while (text != NULL) {
        size_t more = fread(text + *len, 1, room - *len, stdin);
        *len += more;
        if (more == 0)
            return text;
        if (*len == room)
            text = realloc(text, room *= 2);
    }
    return NULL;
}

/* Nanoseconds of an edit, or -1 where it is refused. */
static long long timed_edit(starlark_document *document, size_t begin, size_t end, const char *text,
                            size_t len)
{
    starlark_change change;
    long long start = now();
    uint32_t status =
        starlark_document_edit(document, begin, end, (const uint8_t *)text, len, &change);
    long long taken = now() - start;
    return status == STARLARK_STATUS_WHOLE ? taken : -1;
}

/* Types and deletes characters, and notes how long each took. Returns whether all was done. */
static bool type_all(starlark_document *document, size_t count, long long *times)
{
    uint64_t number = 1;
    for (size_t stroke = 0; stroke < count; stroke++) {
        number = number * 6364136223846793005U + 1442695040888963407U;
        size_t quarter = starlark_document_len(document) / 4;
        size_t at = quarter + (size_t)(number >> 33) % (quarter * 2 + (quarter == 0));
        starlark_text_place place;
        at = starlark_document_place(document, at, &place) ? at : 0;
        times[2 * stroke] = timed_edit(document, at, at, &typed[stroke % 10], 1);
        times[2 * stroke + 1] = timed_edit(document, at, at + 1, "", 0);
        if (times[2 * stroke] < 0 || times[2 * stroke + 1] < 0)
            return false;
    }
    return true;
}

/* Nanoseconds of lexing the whole text, or -1 where that fails. */
static long long lex_all(const uint8_t *text, size_t len)
{
    starlark_lexeme *lexemes = malloc((2 * len + 1) * sizeof *lexemes);
    uint8_t *values = malloc(len + 1);
    starlark_found_fault *faults = malloc((len + 1) * sizeof *faults);
    starlark_recovered outcome = {.status = STARLARK_STATUS_MEMORY};
    long long start = now();
    if (lexemes != NULL && values != NULL && faults != NULL)
        starlark_lex_recovering(text, len, lexemes, 2 * len + 1, values, len, faults, len,
                                &outcome);
    long long taken = now() - start;
    free(lexemes);
    free(values);
    free(faults);
    return outcome.status == STARLARK_STATUS_WHOLE ? taken : -1;
}

int main(int argc, char **argv)
{
    size_t len;
    size_t count = argc == 2 ? (size_t)strtoul(argv[1], NULL, 10) : 0;
    uint8_t *text = read_all(&len);
    long long *times = malloc(2 * count * sizeof *times + 1);
    if (count == 0 || text == NULL || times == NULL)
        return 2;
    long long start = now();
    starlark_document *document = starlark_document_open(text, len, NULL);
    if (document == NULL)
        return 2;
    long long made = now() - start;
    if (!type_all(document, count, times))
        return 2;
    starlark_document_close(document);
    qsort(times, 2 * count, sizeof *times, order);
    printf("%zu %lld %lld %lld %lld\n", len, made, times[count], times[2 * count * 99 / 100],
           lex_all(text, len));
    free(times);
    free(text);
    return 0;
}
