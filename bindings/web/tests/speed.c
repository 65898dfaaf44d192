/* Lexes a text by the library for C, some times, and prints how long the fastest took.
 *
 *     speed ROUNDS FILE
 *
 * The buffers are allocated once. A line has the bytes, the lexemes, and the nanoseconds. */
#define _POSIX_C_SOURCE 199309L
#include "starlark_lex.h"

#include <stdio.h>
#include <stdlib.h>
#include <time.h>

static long long now(void)
{
    struct timespec time;
    clock_gettime(CLOCK_MONOTONIC, &time);
    return time.tv_sec * 1000000000LL + time.tv_nsec;
}

int main(int count, char **words)
{
    FILE *file = count == 3 ? fopen(words[2], "rb") : NULL;
    if (file == NULL || fseek(file, 0, SEEK_END) != 0)
        return 2;
    size_t len = (size_t)ftell(file);
    size_t cap = len + 16;
    rewind(file);
    uint8_t *text = malloc(cap);
    uint8_t *values = malloc(cap);
    starlark_lexeme *lexemes = malloc(cap * sizeof *lexemes);
    if (text == NULL || values == NULL || lexemes == NULL || fread(text, 1, len, file) != len)
        return 2;
    starlark_outcome outcome;
    long long fastest = -1;
    for (long round = atol(words[1]); round > 0; round--) {
        long long begin = now();
        if (starlark_lex(text, len, lexemes, cap, values, cap, &outcome) != STARLARK_STATUS_WHOLE)
            return 2;
        long long taken = now() - begin;
        if (fastest < 0 || taken < fastest)
            fastest = taken;
    }
    printf("%zu %zu %lld\n", len, outcome.lexemes, fastest);
    return 0;
}
