/* Prints the tokens and the faults of standard input, in order. A first call without buffers tells
 * how much room they need. The exit status is 0 without a fault, 1 with one or more, and 2 where
 * the text can't be lexed.
 */
#include "starlark_lex.h"

#include <stdio.h>
#include <stdlib.h>

/* The whole of standard input. NULL where it can't be read. */
static uint8_t *read_input(size_t *len)
{
    size_t room = 4096;
    uint8_t *text = malloc(room);
    *len = 0;
    while (text != NULL) {
        *len += fread(text + *len, 1, room - *len, stdin);
        if (*len < room)
            break;
        uint8_t *larger = realloc(text, room *= 2);
        if (larger == NULL)
            free(text);
        text = larger;
    }
    return text != NULL && ferror(stdin) == 0 ? text : NULL;
}

static void print_token(const starlark_lexeme *lexeme, const uint8_t *values)
{
    printf("%u-%u %s", (unsigned)lexeme->begin, (unsigned)lexeme->end,
           starlark_kind_name(lexeme->kind));
    if (lexeme->value_len > 0) {
        putchar(' ');
        fwrite(values + lexeme->value_begin, 1, lexeme->value_len, stdout);
    } else if (lexeme->kind == STARLARK_KIND_INT) {
        printf(" %d", (int)lexeme->integer);
    }
    putchar('\n');
}

/* Prints a fault with its message, or without it where there is no memory. */
static void print_fault(const starlark_found_fault *fault, const uint8_t *values)
{
    const uint8_t *named = values + fault->value_begin;
    size_t len = starlark_fault_message(fault->kind, named, fault->value_len, NULL, 0);
    uint8_t *message = malloc(len);
    printf("fault %u-%u ", (unsigned)fault->begin, (unsigned)fault->end);
    if (message != NULL) {
        starlark_fault_message(fault->kind, named, fault->value_len, message, len);
        fwrite(message, 1, len, stdout);
    }
    putchar('\n');
    free(message);
}

/* Prints all lexemes, and each fault after those that are before it. */
static void print_found(const starlark_recovered *found, const starlark_lexeme *lexemes,
                        const uint8_t *values, const starlark_found_fault *faults)
{
    size_t at = 0;
    for (size_t fault = 0; fault < found->faults; fault++) {
        for (; at < faults[fault].lexemes_before; at++)
            print_token(&lexemes[at], values);
        print_fault(&faults[fault], values);
    }
    for (; at < found->lexemes; at++)
        print_token(&lexemes[at], values);
}

/* Lexes a text, prints what is found, and returns the exit status. */
static int print_tokens(const uint8_t *text, size_t len)
{
    starlark_recovered found;
    starlark_lex_recovering(text, len, NULL, 0, NULL, 0, NULL, 0, &found);
    if (found.status != STARLARK_STATUS_FULL)
        return 2;
    /* A byte more than is wanted, so that no size is 0. */
    starlark_lexeme *lexemes = malloc(found.wanted_lexemes * sizeof *lexemes + 1);
    uint8_t *values = malloc(found.wanted_values + 1);
    starlark_found_fault *faults = malloc(found.wanted_faults * sizeof *faults + 1);
    if (lexemes != NULL && values != NULL && faults != NULL)
        starlark_lex_recovering(text, len, lexemes, found.wanted_lexemes, values,
                                found.wanted_values, faults, found.wanted_faults, &found);
    if (found.status == STARLARK_STATUS_WHOLE)
        print_found(&found, lexemes, values, faults);
    free(lexemes);
    free(values);
    free(faults);
    return found.status != STARLARK_STATUS_WHOLE ? 2 : found.faults > 0;
}

int main(void)
{
    size_t len;
    uint8_t *text = read_input(&len);
    int status = text != NULL ? print_tokens(text, len) : 2;
    free(text);
    return status;
}
