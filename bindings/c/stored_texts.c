/* Lexes the stored texts through the header, and compares with what the programs print of them.
 *
 *     stored_texts STDIN STDOUT
 *
 * The files are those of crates/starlark_rows. Their parts `texts` are texts, and the lines that
 * are printed of each. Of a record that isn't a plain text (its fronts, a repetition, an edit)
 * nothing is compared. Each text of at most 64 bytes is also lexed in pieces, with buffers of each
 * smaller size: the pieces joined have to be the whole, what a call says it wants has to be enough
 * for the next one, and nothing may be written outside of what a call tells. Each text is also
 * lexed front by front, a short one with fronts of each length. The calls without copies have to do
 * the same, and to copy the values that the text doesn't have. Up to the first fault of each text
 * starlark_lex_recovering has to find what starlark_lex finds. After each of its faults, where a
 * caller begins anew there, starlark_restart has to return the next line.
 *
 * Their parts `recovered` are texts that are lexed on after their faults by
 * starlark_lex_recovering, with buffers of several sizes. Up to the first fault starlark_lex has to
 * find the same, with buffers of each size from 0 to what the whole text needs. A function with a
 * reserved word on each line has to have the layout and the other lexemes of one with names there.
 */
#include "starlark_lex.h"

#include <inttypes.h>
#include <stdbool.h>
#include <stdio.h>
#include <stdlib.h>
#include <string.h>

#define SMALL_TEXT 64
#define GUARD 16
#define UNTOUCHED 0xA5
#define RESERVED_WORDS 8000

_Static_assert(sizeof(size_t) != 8 || sizeof(starlark_lexeme) == 32, "a lexeme has 32 bytes");
_Static_assert(sizeof(size_t) != 8 || sizeof(starlark_found_fault) == 40,
               "a found fault has 40 bytes");

typedef struct bytes {
    uint8_t *at;
    size_t len;
} bytes;

/* A text in the making. */
typedef struct text {
    char *at;
    size_t len;
    size_t room;
} text;

static void stop(const char *why)
{
    fprintf(stderr, "stored_texts: %s\n", why);
    exit(2);
}

static void *room_for(size_t len)
{
    void *at = malloc(len == 0 ? 1 : len);
    if (at == NULL)
        stop("out of memory");
    return at;
}

/* The bytes of a file, with a zero after them. */
static bytes read_file(const char *name)
{
    FILE *file = fopen(name, "rb");
    if (file == NULL || fseek(file, 0, SEEK_END) != 0)
        stop(name);
    long len = ftell(file);
    if (len < 0 || fseek(file, 0, SEEK_SET) != 0)
        stop(name);
    bytes all = {room_for((size_t)len + 1), (size_t)len};
    if (fread(all.at, 1, all.len, file) != all.len)
        stop(name);
    all.at[all.len] = 0;
    fclose(file);
    return all;
}

static void add(text *line, const void *from, size_t len)
{
    if (line->room - line->len < len) {
        line->room = 2 * (line->len + len);
        line->at = realloc(line->at, line->room);
        if (line->at == NULL)
            stop("out of memory");
    }
    memcpy(line->at + line->len, from, len);
    line->len += len;
}

static void add_word(text *line, const char *word)
{
    add(line, word, strlen(word));
}

static void add_number(text *line, uint64_t number)
{
    char digits[32];
    snprintf(digits, sizeof digits, "%" PRIu64, number);
    add_word(line, digits);
}

static void add_hex(text *line, const uint8_t *from, size_t len)
{
    char digits[3];
    for (size_t at = 0; at < len; at++) {
        snprintf(digits, sizeof digits, "%02x", from[at]);
        add(line, digits, 2);
    }
}

static starlark_text_place place_of(bytes source, size_t at)
{
    starlark_text_place place;
    if (!starlark_place(source.at, source.len, at, &place))
        stop("an offset without a place");
    return place;
}

static void add_place(text *line, bytes source, size_t begin, size_t end)
{
    starlark_text_place from = place_of(source, begin);
    starlark_text_place to = place_of(source, end);
    add_number(line, from.line + 1);
    add_word(line, ":");
    add_number(line, from.column + 1);
    if (from.line == to.line && from.column == to.column)
        return;
    add_word(line, "-");
    if (from.line != to.line) {
        add_number(line, to.line + 1);
        add_word(line, ":");
    }
    add_number(line, to.column + 1);
}

static void add_value(text *line, const starlark_lexeme *lexeme, const uint8_t *value)
{
    static const char *const quotes[] = {"", "Single", "Double", "TripleSingle", "TripleDouble"};
    char digits[16];
    switch (lexeme->kind) {
    case STARLARK_KIND_COMMENT:
    case STARLARK_KIND_IDENTIFIER:
    case STARLARK_KIND_FLOAT:
        add_word(line, " ");
        add(line, value, lexeme->value_len);
        break;
    case STARLARK_KIND_INT:
        add_word(line, " ");
        if (lexeme->value_len == 0) {
            snprintf(digits, sizeof digits, "%" PRId32, lexeme->integer);
            add_word(line, digits);
            break;
        }
        add(line, value, lexeme->value_len);
        if (lexeme->detail != 10) {
            add_word(line, " (base ");
            add_number(line, lexeme->detail);
            add_word(line, ")");
        }
        break;
    case STARLARK_KIND_STRING:
    case STARLARK_KIND_BYTES:
    case STARLARK_KIND_FSTRING_TEXT:
        add_word(line, " ");
        add_hex(line, value, lexeme->value_len);
        break;
    case STARLARK_KIND_FSTRING_START:
        add_word(line, " ");
        add_word(line, quotes[lexeme->detail]);
        break;
    default:
        break;
    }
}

/* Appends the line of a lexeme of the text from an offset on. */
static void add_lexeme(text *line, bytes source, size_t from, const starlark_lexeme *lexeme,
                       const uint8_t *values)
{
    const char *name = starlark_kind_name(lexeme->kind);
    if (name == NULL)
        stop("a kind without a name");
    add_number(line, from + lexeme->begin);
    add_word(line, "-");
    add_number(line, from + lexeme->end);
    add_word(line, " ");
    add_place(line, source, from + lexeme->begin, from + lexeme->end);
    add_word(line, " ");
    add_word(line, name);
    add_value(line, lexeme, values + lexeme->value_begin);
    add_word(line, "\n");
}

/* The fault of an outcome. */
static starlark_found_fault fault_of(const starlark_outcome *outcome)
{
    return (starlark_found_fault){
        .kind = outcome->fault_kind,
        .begin = outcome->fault_begin,
        .end = outcome->fault_end,
        .lexemes_before = outcome->lexemes,
        .value_begin = outcome->fault_value_begin,
        .value_len = outcome->fault_value_len,
    };
}

/* Appends the line of a fault of the text from an offset on. */
static void add_fault(text *line, bytes source, size_t from, const starlark_found_fault *fault,
                      const uint8_t *values)
{
    const uint8_t *named = values + fault->value_begin;
    size_t len =
        starlark_fault_message(fault->kind, named, fault->value_len, (uint8_t *)line->at, 0);
    uint8_t *message = room_for(len);
    if (len == 0
        || starlark_fault_message(fault->kind, named, fault->value_len, message, len) != len)
        stop("a fault without a message");
    add_word(line, "fault ");
    add_number(line, from + fault->begin);
    add_word(line, "-");
    add_number(line, from + fault->end);
    add_word(line, " <stdin>:");
    add_place(line, source, from + fault->begin, from + fault->end);
    add_word(line, " ");
    add(line, message, len);
    add_word(line, "\n");
    free(message);
}

/* Appends the lines of what a call found in the text from an offset on. */
static void add_found(text *line, bytes source, size_t from, const starlark_outcome *outcome,
                      const starlark_lexeme *lexemes, const uint8_t *values)
{
    for (size_t at = 0; at < outcome->lexemes; at++)
        add_lexeme(line, source, from, &lexemes[at], values);
    if (outcome->status == STARLARK_STATUS_FAULT) {
        starlark_found_fault fault = fault_of(outcome);
        add_fault(line, source, from, &fault, values);
    }
}

/* The lines that starlark_lex prints of a lexed text, after one with its number and status. */
static void add_lines(text *line, size_t number, bytes source, const starlark_outcome *outcome,
                      const starlark_lexeme *lexemes, const uint8_t *values)
{
    static const char *const said[] = {"clean",    "fault", "full", "input is not UTF-8",
                                       "too long", "memory"};
    add_word(line, "text ");
    add_number(line, number);
    add_word(line, ": ");
    add_word(line, said[outcome->status]);
    add_word(line, "\n");
    add_found(line, source, 0, outcome, lexemes, values);
}

static bool is_untouched(const void *from, size_t len)
{
    const uint8_t *bytes = from;
    for (size_t at = 0; at < len; at++)
        if (bytes[at] != UNTOUCHED)
            return false;
    return true;
}

/* The buffers of a call, with a guard after each. */
typedef struct buffers {
    starlark_lexeme *lexemes;
    size_t lexemes_cap;
    uint8_t *values;
    size_t values_cap;
} buffers;

static buffers buffers_of(size_t lexemes, size_t values)
{
    buffers made = {room_for((lexemes + GUARD) * sizeof(starlark_lexeme)), lexemes,
                    room_for(values + GUARD), values};
    memset(made.lexemes, UNTOUCHED, (lexemes + GUARD) * sizeof(starlark_lexeme));
    memset(made.values, UNTOUCHED, values + GUARD);
    return made;
}

static void release(buffers given)
{
    free(given.lexemes);
    free(given.values);
}

/* starlark_lex or starlark_lex_front, or one of them without copies. */
typedef uint32_t lex_call(const uint8_t *, size_t, starlark_lexeme *, size_t, uint8_t *, size_t,
                          starlark_outcome *);

static starlark_outcome lex_by(lex_call *call, bytes source, buffers into)
{
    starlark_outcome outcome;
    memset(&outcome, UNTOUCHED, sizeof outcome);
    uint32_t status = call(source.at, source.len, into.lexemes, into.lexemes_cap, into.values,
                           into.values_cap, &outcome);
    if (status != outcome.status)
        stop("another status was returned than told");
    return outcome;
}

static starlark_outcome lex(bytes source, buffers into)
{
    return lex_by(starlark_lex, source, into);
}

/* Whether nothing is written after what an outcome counts, or after the buffers where they are
 * full. */
static bool is_kept(buffers into, const starlark_outcome *outcome)
{
    bool is_full = outcome->status == STARLARK_STATUS_FULL;
    size_t lexemes = is_full ? into.lexemes_cap : outcome->lexemes;
    size_t values = is_full ? into.values_cap : outcome->values;
    return is_untouched(into.lexemes + lexemes,
                        (into.lexemes_cap + GUARD - lexemes) * sizeof(starlark_lexeme))
           && is_untouched(into.values + values, into.values_cap + GUARD - values);
}

/* A text that was lexed at once: what a call that had room for it did. */
typedef struct lexed {
    bytes source;
    buffers into;
    starlark_outcome outcome;
} lexed;

/* Whether a record of a piece that begins at an offset is the record of the whole text. */
static bool is_same(const lexed *whole, size_t index, size_t from, const starlark_lexeme *lexeme,
                    const uint8_t *values)
{
    const starlark_lexeme *wanted = &whole->into.lexemes[index];
    uint16_t detail = lexeme->detail == STARLARK_IN_TEXT ? 0 : lexeme->detail;
    return lexeme->begin + from == wanted->begin && lexeme->end + from == wanted->end
           && lexeme->kind == wanted->kind && detail == wanted->detail
           && lexeme->integer == wanted->integer && lexeme->value_len == wanted->value_len
           && memcmp(STARLARK_VALUE(lexeme, whole->source.at + from, values),
                     whole->into.values + wanted->value_begin, wanted->value_len)
                  == 0;
}

/* Whether a text has some bytes before the last ones of a lexeme, of which there are so many. */
static bool has_before(const uint8_t *source, const starlark_lexeme *lexeme, size_t last,
                       const uint8_t *value)
{
    size_t len = lexeme->value_len;
    return lexeme->begin + len + last <= lexeme->end
           && memcmp(source + lexeme->end - last - len, value, len) == 0;
}

/* Whether a text has the value of a lexeme: at its end, or before the quotes that close it. */
static bool has_value(const uint8_t *source, const starlark_lexeme *lexeme, const uint8_t *value)
{
    switch (lexeme->kind) {
    case STARLARK_KIND_COMMENT:
    case STARLARK_KIND_IDENTIFIER:
    case STARLARK_KIND_FLOAT:
    case STARLARK_KIND_FSTRING_TEXT:
        return has_before(source, lexeme, 0, value);
    case STARLARK_KIND_STRING:
    case STARLARK_KIND_BYTES:
        return has_before(source, lexeme, 1, value) || has_before(source, lexeme, 3, value);
    default:
        return false;
    }
}

/* Whether the values that a call copied are one after another: all, or of a call without copies
 * those that the text doesn't have. */
static bool are_copied(lex_call *call, const uint8_t *source, const starlark_outcome *outcome,
                       buffers into)
{
    bool copies_all = call == starlark_lex || call == starlark_lex_front;
    size_t copied = 0;
    for (size_t at = 0; at < outcome->lexemes; at++) {
        const starlark_lexeme *lexeme = &into.lexemes[at];
        bool is_in_text = lexeme->detail == STARLARK_IN_TEXT;
        const uint8_t *value = STARLARK_VALUE(lexeme, source, into.values);
        if (is_in_text != (!copies_all && has_value(source, lexeme, value)))
            return false;
        if (is_in_text
            && (value < source + lexeme->begin || value + lexeme->value_len > source + lexeme->end))
            return false;
        if (!is_in_text && lexeme->value_begin != copied)
            return false;
        copied += is_in_text ? 0 : lexeme->value_len;
    }
    return copied + outcome->fault_value_len == outcome->values
           && (outcome->fault_value_len == 0 || outcome->fault_value_begin == copied);
}

/* Whether the fault of the last piece, which begins at an offset, is that of the whole text. */
static bool is_same_fault(const lexed *whole, size_t from, const starlark_outcome *last,
                          const uint8_t *values)
{
    const starlark_outcome *wanted = &whole->outcome;
    if (wanted->status != STARLARK_STATUS_FAULT)
        return last->fault_kind == 0;
    return last->fault_kind == wanted->fault_kind && last->fault_begin + from == wanted->fault_begin
           && last->fault_end + from == wanted->fault_end
           && last->fault_value_len == wanted->fault_value_len
           && memcmp(values + last->fault_value_begin,
                     whole->into.values + wanted->fault_value_begin, wanted->fault_value_len)
                  == 0;
}

/* Whether a call's records are those of the whole text from an index on. */
static bool are_next(lex_call *call, const lexed *whole, size_t index, size_t from,
                     const starlark_outcome *outcome, buffers into)
{
    if (!is_kept(into, outcome) || outcome->lexemes > into.lexemes_cap
        || outcome->values > into.values_cap || index + outcome->lexemes > whole->outcome.lexemes
        || !are_copied(call, whole->source.at + from, outcome, into))
        return false;
    for (size_t at = 0; at < outcome->lexemes; at++)
        if (!is_same(whole, index + at, from, &into.lexemes[at], into.values))
            return false;
    return true;
}

/* Whether the pieces of a text by a call, with buffers of a size, are the whole text. Where a piece
 * needs more, it gets what it wants. Adds to the number of calls. */
static bool are_pieces(lex_call *call, const lexed *whole, size_t lexemes, size_t values,
                       size_t *calls)
{
    buffers into = buffers_of(lexemes, values);
    size_t from = 0;
    size_t index = 0;
    bool is_larger = false;
    for (;;) {
        starlark_outcome outcome =
            lex_by(call, (bytes){whole->source.at + from, whole->source.len - from}, into);
        ++*calls;
        bool is_right = are_next(call, whole, index, from, &outcome, into);
        index += outcome.lexemes;
        if (outcome.status != STARLARK_STATUS_FULL) {
            is_right = is_right && outcome.status == whole->outcome.status
                       && index == whole->outcome.lexemes
                       && is_same_fault(whole, from, &outcome, into.values);
            release(into);
            return is_right;
        }
        bool has_room =
            outcome.wanted_lexemes <= into.lexemes_cap && outcome.wanted_values <= into.values_cap;
        is_right = is_right && (outcome.next == 0) == !has_room && !(is_larger && outcome.next == 0)
                   && (outcome.next == 0 || whole->source.at[from + outcome.next - 1] == '\n');
        is_larger = outcome.next == 0;
        from += outcome.next;
        release(into);
        if (!is_right)
            return false;
        into = is_larger ? buffers_of(outcome.wanted_lexemes, outcome.wanted_values)
                         : buffers_of(lexemes, values);
    }
}

/* Whether the pieces of a text by a call, with buffers of each smaller size, are the whole text. */
static bool are_all_pieces(lex_call *call, const lexed *whole, size_t *calls)
{
    for (size_t lexemes = 0; lexemes <= whole->outcome.lexemes; lexemes++)
        if (!are_pieces(call, whole, lexemes, whole->outcome.values, calls))
            return false;
    for (size_t values = 0; values <= whole->outcome.values; values++)
        if (!are_pieces(call, whole, whole->outcome.lexemes, values, calls)
            || !are_pieces(call, whole, values + 1, values, calls))
            return false;
    return true;
}

/* The front of a text of at least some bytes, which ends at a character boundary. */
static bytes front_of(bytes source, size_t len)
{
    if (len > source.len)
        len = source.len;
    while (len < source.len && (source.at[len] & 0xC0) == 0x80)
        len++;
    return (bytes){source.at, len};
}

/* Whether a text that is lexed front by front is the whole text. A front has some bytes, and more
 * where it has no cut. Adds to the numbers of calls and of cuts. */
static bool are_fronts(lex_call *call, const lexed *whole, size_t len, size_t *calls, size_t *cuts)
{
    size_t from = 0;
    size_t index = 0;
    size_t window = len;
    for (;;) {
        bytes rest = {whole->source.at + from, whole->source.len - from};
        bytes front = front_of(rest, window);
        buffers into = buffers_of(2 * front.len + 1, 2 * front.len);
        starlark_outcome outcome = lex_by(call, front, into);
        ++*calls;
        bool is_cut = outcome.status == STARLARK_STATUS_FULL;
        bool is_last = !is_cut && front.len == rest.len;
        bool is_right = is_cut || is_last ? are_next(call, whole, index, from, &outcome, into)
                                          : is_kept(into, &outcome);
        if (is_cut)
            is_right = is_right && outcome.next > 0 && outcome.next < front.len
                       && front.at[outcome.next - 1] == '\n';
        if (is_last)
            is_right = is_right && outcome.status == whole->outcome.status
                       && index + outcome.lexemes == whole->outcome.lexemes
                       && is_same_fault(whole, from, &outcome, into.values);
        release(into);
        if (!is_right || is_last)
            return is_right;
        if (is_cut)
            ++*cuts;
        index += is_cut ? outcome.lexemes : 0;
        from += is_cut ? outcome.next : 0;
        window = is_cut ? len : 2 * window + 1;
    }
}

/* Whether a text that is lexed by fronts of each length, or of some lengths, is the whole text. */
static bool are_all_fronts(const lexed *whole, size_t *calls, size_t *cuts)
{
    size_t step = whole->source.len <= SMALL_TEXT ? 1 : whole->source.len / 3;
    for (size_t len = 0; len <= whole->source.len; len += step)
        if (!are_fronts(starlark_lex_front, whole, len, calls, cuts)
            || !are_fronts(starlark_lex_front_uncopied, whole, len, calls, cuts))
            return false;
    return true;
}

/* How much room buffers have, or how much a text needs. */
typedef struct sizes {
    size_t lexemes;
    size_t values;
    size_t faults;
} sizes;

/* A call of starlark_lex_recovering: its buffers, with a guard after each, and its outcome. */
typedef struct recovery {
    buffers into;
    starlark_found_fault *faults;
    size_t faults_cap;
    starlark_recovered outcome;
} recovery;

static recovery recover(bytes source, sizes room)
{
    size_t faults_len = (room.faults + GUARD) * sizeof(starlark_found_fault);
    recovery call = {.into = buffers_of(room.lexemes, room.values),
                     .faults = room_for(faults_len),
                     .faults_cap = room.faults};
    memset(call.faults, UNTOUCHED, faults_len);
    memset(&call.outcome, UNTOUCHED, sizeof call.outcome);
    uint32_t status = starlark_lex_recovering(source.at, source.len, call.into.lexemes,
                                              room.lexemes, call.into.values, room.values,
                                              call.faults, room.faults, &call.outcome);
    if (status != call.outcome.status)
        stop("another status was returned than told");
    return call;
}

static void release_recovery(recovery call)
{
    release(call.into);
    free(call.faults);
}

/* Whether nothing is written after the first records and bytes of the buffers. */
static bool is_written_up_to(const recovery *call, sizes written)
{
    return written.lexemes <= call->into.lexemes_cap && written.values <= call->into.values_cap
           && written.faults <= call->faults_cap
           && is_untouched(call->into.lexemes + written.lexemes,
                           (call->into.lexemes_cap + GUARD - written.lexemes)
                               * sizeof(starlark_lexeme))
           && is_untouched(call->into.values + written.values,
                           call->into.values_cap + GUARD - written.values)
           && is_untouched(call->faults + written.faults,
                           (call->faults_cap + GUARD - written.faults)
                               * sizeof(starlark_found_fault));
}

/* Whether nothing is written after the buffers. */
static bool is_guarded(const recovery *call)
{
    return is_written_up_to(
        call, (sizes){call->into.lexemes_cap, call->into.values_cap, call->faults_cap});
}

/* Whether a call tells these counts, and that it wants so much. */
static bool tells(const starlark_recovered *outcome, sizes counts, sizes wanted)
{
    return outcome->lexemes == counts.lexemes && outcome->values == counts.values
           && outcome->faults == counts.faults && outcome->wanted_lexemes == wanted.lexemes
           && outcome->wanted_values == wanted.values && outcome->wanted_faults == wanted.faults;
}

static const sizes nothing = {0, 0, 0};

/* Whether a call found all of a text, with these counts, and wrote nothing else. Its values have to
 * be one after another in the order of the text. */
static bool is_whole(const recovery *call, bytes source, sizes counts)
{
    const starlark_recovered *outcome = &call->outcome;
    if (outcome->status != STARLARK_STATUS_WHOLE || outcome->next != source.len
        || !tells(outcome, counts, nothing) || !is_written_up_to(call, counts))
        return false;
    size_t value = 0;
    size_t fault = 0;
    for (size_t at = 0; at <= counts.lexemes; at++) {
        for (; fault < counts.faults && call->faults[fault].lexemes_before == at; fault++) {
            if (call->faults[fault].reserved != 0 || call->faults[fault].value_begin != value)
                return false;
            value += call->faults[fault].value_len;
        }
        if (at < counts.lexemes && call->into.lexemes[at].value_begin != value)
            return false;
        value += at < counts.lexemes ? call->into.lexemes[at].value_len : 0;
    }
    return fault == counts.faults && value == counts.values;
}

/* Whether a call with buffers that are too small tells what the text wants, and nothing else. */
static bool is_full(bytes source, sizes room, sizes wanted)
{
    recovery call = recover(source, room);
    bool is_right = call.outcome.status == STARLARK_STATUS_FULL && call.outcome.next == 0
                    && tells(&call.outcome, nothing, wanted) && is_guarded(&call);
    release_recovery(call);
    return is_right;
}

/* Whether each size of a buffer that is less than what a text wants is too small. */
static bool are_all_full(bytes source, sizes wanted)
{
    bool is_right = is_full(source, nothing, wanted);
    for (size_t less = 0; less < wanted.lexemes; less++)
        is_right = is_right && is_full(source, (sizes){less, wanted.values, wanted.faults}, wanted);
    for (size_t less = 0; less < wanted.values; less++)
        is_right =
            is_right && is_full(source, (sizes){wanted.lexemes, less, wanted.faults}, wanted);
    for (size_t less = 0; less < wanted.faults; less++)
        is_right =
            is_right && is_full(source, (sizes){wanted.lexemes, wanted.values, less}, wanted);
    return is_right;
}

/* Whether a call tells of bytes that are not UTF-8 where the first of them is, and writes nothing.
 */
static bool is_not_utf8(bytes source, size_t first)
{
    recovery call = recover(source, (sizes){source.len + 1, source.len, source.len});
    bool is_right = call.outcome.status == STARLARK_STATUS_NOT_UTF8 && call.outcome.next == first
                    && tells(&call.outcome, nothing, nothing) && is_written_up_to(&call, nothing);
    release_recovery(call);
    return is_right;
}

/* How much room a text wants, which a call with empty buffers tells. */
static sizes wanted_by(bytes source)
{
    recovery call = recover(source, nothing);
    sizes wanted = {call.outcome.wanted_lexemes, call.outcome.wanted_values,
                    call.outcome.wanted_faults};
    release_recovery(call);
    return wanted;
}

/* Whether two faults are the same. */
static bool is_fault(const starlark_found_fault *one, const starlark_found_fault *other)
{
    return one->kind == other->kind && one->begin == other->begin && one->end == other->end
           && one->lexemes_before == other->lexemes_before && one->value_begin == other->value_begin
           && one->value_len == other->value_len;
}

/* Whether starlark_lex_recovering finds of a text what starlark_lex found, and then what comes
 * after the fault, if there is one. */
static bool is_recovered(const lexed *whole)
{
    const starlark_outcome *found = &whole->outcome;
    if (found->status == STARLARK_STATUS_NOT_UTF8)
        return is_not_utf8(whole->source, found->next);
    sizes wanted = wanted_by(whole->source);
    recovery call = recover(whole->source, wanted);
    bool has_fault = found->status == STARLARK_STATUS_FAULT;
    starlark_found_fault fault = fault_of(found);
    bool is_right =
        is_whole(&call, whole->source, wanted)
        && (has_fault ? wanted.faults > 0 && wanted.lexemes >= found->lexemes
                            && wanted.values >= found->values
                      : wanted.faults == 0 && wanted.lexemes == found->lexemes
                            && wanted.values == found->values)
        && memcmp(call.into.lexemes, whole->into.lexemes, found->lexemes * sizeof(starlark_lexeme))
               == 0
        && memcmp(call.into.values, whole->into.values, found->values) == 0
        && (!has_fault || is_fault(&call.faults[0], &fault));
    release_recovery(call);
    return is_right;
}

/* The end of the line at an offset. */
static size_t line_end(bytes from, size_t at)
{
    const uint8_t *end = memchr(from.at + at, '\n', from.len - at);
    if (end == NULL)
        stop("a last line without its end");
    return (size_t)(end - from.at) + 1;
}

/* Whether the line at an offset has nothing but a comment. */
static bool is_comment_only(bytes source, size_t at)
{
    while (at < source.len
           && (source.at[at] == ' ' || source.at[at] == '\t' || source.at[at] == '\r'))
        at++;
    return at < source.len && source.at[at] == '#';
}

/* The offset of the tab of a fault that begins at an offset. In a margin it comes after a line end
 * and comment-only lines. */
static size_t tab_of(bytes source, size_t begin)
{
    if (begin > 0 && source.at[begin] == '\t')
        return begin;
    size_t line = begin + (source.at[begin] == '\r');
    line += source.at[line] == '\n';
    while (is_comment_only(source, line))
        line = line_end(source, line);
    const uint8_t *tab = memchr(source.at + line, '\t', source.len - line);
    if (tab == NULL)
        stop("the fault of a tab without a tab");
    return (size_t)(tab - source.at);
}

/* Where a caller begins anew after the fault of an outcome. It has to be the next line: after the
 * first LF from the fault's last byte on, or from the tab on; or the end of the text. */
static size_t restart_of(bytes source, const starlark_outcome *outcome)
{
    size_t last = outcome->fault_begin;
    if (outcome->fault_kind == STARLARK_FAULT_INVALID_TAB)
        last = tab_of(source, last);
    else if (outcome->fault_end > last)
        last = outcome->fault_end - 1;
    const uint8_t *lf = memchr(source.at + last, '\n', source.len - last);
    size_t wanted = lf == NULL ? source.len : (size_t)(lf - source.at) + 1;
    if (starlark_restart(source.at, source.len, outcome->fault_begin, outcome->fault_end,
                         outcome->fault_kind)
        != wanted)
        stop("a caller begins anew at another offset than the next line");
    return wanted;
}

/* Begins anew after each fault of a text. Returns how many there are. */
static size_t begin_anew(bytes source)
{
    size_t from = 0;
    for (size_t faults = 0;; faults++) {
        bytes rest = {source.at + from, source.len - from};
        buffers into = buffers_of(2 * rest.len + 1, 2 * rest.len);
        starlark_outcome outcome = lex(rest, into);
        release(into);
        if (outcome.status == STARLARK_STATUS_WHOLE
            || (from == 0 && outcome.status == STARLARK_STATUS_NOT_UTF8))
            return faults;
        if (outcome.status != STARLARK_STATUS_FAULT)
            stop("a text is lexed to no end after a fault");
        from += restart_of(rest, &outcome);
    }
}

/* The counts of what was compared. */
typedef struct tally {
    size_t texts;
    size_t lexemes;
    size_t calls;
    size_t cuts;
    size_t faults;
} tally;

/* Lexes a text, and returns the end of its lines in what has to be printed. */
static size_t compare(bytes source, size_t number, bytes printed, size_t at, tally *counts)
{
    buffers into = buffers_of(2 * source.len + 1, 2 * source.len);
    starlark_outcome outcome = lex(source, into);
    text line = {NULL, 0, 0};
    if (outcome.status == STARLARK_STATUS_FULL || outcome.status == STARLARK_STATUS_MEMORY
        || !is_kept(into, &outcome))
        stop("a call didn't do what it has to");
    add_lines(&line, number, source, &outcome, into.lexemes, into.values);
    if (printed.len - at < line.len || memcmp(printed.at + at, line.at, line.len) != 0) {
        fprintf(stderr, "stored_texts: text %zu is lexed otherwise:\n%.*s", number, (int)line.len,
                line.at);
        exit(1);
    }
    counts->texts++;
    counts->lexemes += outcome.lexemes;
    counts->faults += begin_anew(source);
    lexed whole = {source, into, outcome};
    if (outcome.status <= STARLARK_STATUS_FAULT
        && !are_pieces(starlark_lex_uncopied, &whole, 2 * source.len + 1, source.len,
                       &counts->calls)) {
        fprintf(stderr, "stored_texts: text %zu is lexed otherwise without copies\n", number);
        exit(1);
    }
    if (source.len <= SMALL_TEXT && outcome.status <= STARLARK_STATUS_FAULT
        && (!are_all_pieces(starlark_lex, &whole, &counts->calls)
            || !are_all_pieces(starlark_lex_uncopied, &whole, &counts->calls))) {
        fprintf(stderr,
                "stored_texts: the pieces of text %zu, with small buffers, are not the whole\n",
                number);
        exit(1);
    }
    if (outcome.status <= STARLARK_STATUS_FAULT
        && !are_all_fronts(&whole, &counts->calls, &counts->cuts)) {
        fprintf(stderr, "stored_texts: the fronts of text %zu are not the whole\n", number);
        exit(1);
    }
    if (!is_recovered(&whole)) {
        fprintf(stderr, "stored_texts: text %zu is lexed otherwise by starlark_lex_recovering\n",
                number);
        exit(1);
    }
    release(into);
    free(line.at);
    return at + line.len;
}

/* The offset of the first line of a later record. */
static size_t skip_record(bytes printed, size_t at, size_t number)
{
    while (at < printed.len) {
        const char *line = (const char *)printed.at + at;
        if (strncmp(line, "text ", 5) == 0 && strtoul(line + 5, NULL, 10) > number)
            break;
        at = line_end(printed, at);
    }
    return at;
}

/* Appends the lines of a text up to its first fault, by buffers of a size. Where a piece needs
 * more, it gets what it wants. Returns whether the text has no fault, and adds to the number of
 * calls. */
static bool add_up_to_fault(text *line, bytes source, size_t lexemes, size_t values, size_t *calls)
{
    size_t from = 0;
    uint32_t status = STARLARK_STATUS_FULL;
    buffers into = buffers_of(lexemes, values);
    while (status == STARLARK_STATUS_FULL) {
        starlark_outcome outcome = lex((bytes){source.at + from, source.len - from}, into);
        status = outcome.status;
        ++*calls;
        add_found(line, source, from, &outcome, into.lexemes, into.values);
        from += outcome.next;
        bool is_larger = status == STARLARK_STATUS_FULL && outcome.next == 0;
        release(into);
        into = is_larger ? buffers_of(outcome.wanted_lexemes, outcome.wanted_values)
                         : buffers_of(lexemes, values);
    }
    release(into);
    if (status != STARLARK_STATUS_WHOLE && status != STARLARK_STATUS_FAULT)
        stop("a text is lexed to no end");
    return status == STARLARK_STATUS_WHOLE;
}

/* The first line of a text with a number. */
static text numbered(size_t number)
{
    text line = {NULL, 0, 0};
    add_word(&line, "text ");
    add_number(&line, number);
    add_word(&line, "\n");
    return line;
}

/* Returns the end of the lines of a text in what has to be printed, where they have to be. */
static size_t compare_lines(text line, size_t number, bytes printed, size_t at)
{
    if (printed.len - at < line.len || memcmp(printed.at + at, line.at, line.len) != 0) {
        fprintf(stderr, "stored_texts: text %zu is lexed on otherwise:\n%.*s", number,
                (int)line.len, line.at);
        exit(1);
    }
    free(line.at);
    return at + line.len;
}

/* Lexes a text up to its first fault by buffers of a size. Its lines have to be the first of those
 * that have to be printed, and all of them only without a fault. */
static void compare_up_to_fault(bytes source, size_t number, bytes printed, size_t lexemes,
                                size_t values, size_t *calls)
{
    text line = numbered(number);
    bool is_all = add_up_to_fault(&line, source, lexemes, values, calls);
    if ((compare_lines(line, number, printed, 0) == printed.len) != is_all)
        stop("a text is lexed on after a fault, or not to its end");
}

/* Appends the lines of all lexemes and all faults that a call found. */
static void add_all(text *line, bytes source, const recovery *call)
{
    size_t fault = 0;
    for (size_t at = 0; at <= call->outcome.lexemes; at++) {
        for (; fault < call->outcome.faults && call->faults[fault].lexemes_before == at; fault++)
            add_fault(line, source, 0, &call->faults[fault], call->into.values);
        if (at < call->outcome.lexemes)
            add_lexeme(line, source, 0, &call->into.lexemes[at], call->into.values);
    }
}

/* Lexes a text on after its faults by one call with buffers of some sizes, and returns the end of
 * its lines in what has to be printed. */
static size_t compare_one_call(bytes source, size_t number, bytes printed, size_t at, sizes room,
                               sizes wanted)
{
    recovery call = recover(source, room);
    text line = numbered(number);
    if (!is_whole(&call, source, wanted)) {
        fprintf(stderr, "stored_texts: text %zu isn't lexed on to its end by one call\n", number);
        exit(1);
    }
    add_all(&line, source, &call);
    release_recovery(call);
    return compare_lines(line, number, printed, at);
}

/* Lexes a text on after its faults by starlark_lex_recovering: with the room that it wants, with
 * more and with less, and with bytes after it that are not UTF-8. Returns the end of its lines in
 * what has to be printed. */
static size_t compare_recovering(bytes source, size_t number, bytes printed, size_t at)
{
    sizes wanted = wanted_by(source);
    sizes more = {2 * source.len + 1, 2 * source.len, source.len};
    size_t end = compare_one_call(source, number, printed, at, wanted, wanted);
    bool is_right = compare_one_call(source, number, printed, at, more, wanted) == end;
    bytes longer = {room_for(source.len + 2), source.len + 2};
    memcpy(longer.at, source.at, source.len);
    memcpy(longer.at + source.len, "\xe2\x82", 2);
    if (!is_right || !are_all_full(source, wanted) || !is_not_utf8(longer, source.len)) {
        fprintf(stderr,
                "stored_texts: a call tells something wrong of text %zu, with small buffers or not "
                "UTF-8\n",
                number);
        exit(1);
    }
    free(longer.at);
    return end;
}

/* Compares all texts that are lexed on after their faults. */
static void compare_all_recovered(bytes stored, bytes printed)
{
    tally counts = {0, 0, 0, 0, 0};
    size_t out = 0;
    for (size_t at = 0; at < stored.len; counts.texts++) {
        size_t begin = line_end(stored, at);
        bytes source = {stored.at + begin, strtoul((char *)stored.at + at, NULL, 10)};
        size_t end = compare_recovering(source, counts.texts + 1, printed, out);
        bytes lines = {printed.at + out, end - out};
        size_t most = 2 * source.len + 1;
        for (size_t room = 0; room <= most; room++) {
            compare_up_to_fault(source, counts.texts + 1, lines, room, most, &counts.calls);
            compare_up_to_fault(source, counts.texts + 1, lines, most, room, &counts.calls);
        }
        counts.faults += begin_anew(source);
        out = end;
        at = begin + source.len + 1;
    }
    if (out != printed.len)
        stop("there are more lines of faults than texts");
    printf("%zu texts lexed on after faults, %zu calls up to the first, %zu faults after which a "
           "caller begins anew\n",
           counts.texts, counts.calls, counts.faults);
}

/* A function that calls another one, of a name, on each of its lines. */
static text calls_of(const char *name)
{
    text body = {NULL, 0, 0};
    add_word(&body, "def f():\n");
    for (size_t line = 0; line < RESERVED_WORDS; line++) {
        add_word(&body, "    ");
        add_word(&body, name);
        add_word(&body, "(x)\n");
    }
    return body;
}

/* Whether a fault is that of a reserved word, and lies where a lexeme is a name. */
static bool is_reserved(const starlark_found_fault *fault, const uint8_t *values, const char *word,
                        const starlark_lexeme *name)
{
    return fault->kind == STARLARK_FAULT_RESERVED_KEYWORD && fault->value_len == strlen(word)
           && memcmp(values + fault->value_begin, word, fault->value_len) == 0
           && name->kind == STARLARK_KIND_IDENTIFIER && fault->begin == name->begin
           && fault->end == name->end;
}

/* Whether one call finds the lexemes of another, and its faults are reserved words for which names
 * stand. */
static bool has_reserved(const recovery *call, const char *word, const recovery *names)
{
    if (call->outcome.lexemes != names->outcome.lexemes)
        return false;
    for (size_t at = 0; at < names->outcome.lexemes; at++) {
        const starlark_lexeme *found = &call->into.lexemes[at];
        const starlark_lexeme *wanted = &names->into.lexemes[at];
        if (found->kind != wanted->kind || found->begin != wanted->begin
            || found->end != wanted->end)
            return false;
    }
    for (size_t at = 0; at < call->outcome.faults; at++) {
        const starlark_found_fault *fault = &call->faults[at];
        const starlark_lexeme *name = &call->into.lexemes[fault->lexemes_before];
        if (!is_reserved(fault, call->into.values, word, name))
            return false;
    }
    return true;
}

/* Lexes a function with a reserved word on each line, which costs nothing but its fault: all lexemes
 * are those of the function with names. */
static void pass_reserved_words(void)
{
    text words = calls_of("assert");
    text names = calls_of("asserx");
    sizes room = {2 * words.len + 1, words.len, words.len};
    recovery call = recover((bytes){(uint8_t *)words.at, words.len}, room);
    recovery wanted = recover((bytes){(uint8_t *)names.at, names.len}, room);
    if (wanted.outcome.faults != 0 || call.outcome.faults != RESERVED_WORDS
        || !has_reserved(&call, "assert", &wanted))
        stop("a reserved word costs more than itself");
    printf("%zu reserved words as names\n", call.outcome.faults);
    release_recovery(call);
    release_recovery(wanted);
    free(words.at);
    free(names.at);
}

/* Whether there is nowhere to begin again after a fault of these numbers. */
static bool is_no_restart(const char *source, uint32_t begin, uint32_t end, uint32_t kind)
{
    return starlark_restart((const uint8_t *)source, strlen(source), begin, end, kind)
           == STARLARK_NO_RESTART;
}

/* Calls with numbers of no fault. */
static void refuse_numbers(void)
{
    const char *source = "\xc3\xa9 ?\nx\n";
    bool is_right = starlark_restart((const uint8_t *)source, strlen(source), 3, 4,
                                     STARLARK_FAULT_INVALID_INPUT)
                        == 5
                    && is_no_restart(source, 3, 4, 0) && is_no_restart(source, 3, 4, 10)
                    && is_no_restart(source, 3, 4, UINT32_MAX)
                    && is_no_restart(source, 4, 3, STARLARK_FAULT_INVALID_INPUT)
                    && is_no_restart(source, 1, 4, STARLARK_FAULT_INVALID_INPUT)
                    && is_no_restart(source, 0, 1, STARLARK_FAULT_INVALID_INPUT)
                    && is_no_restart(source, 3, 8, STARLARK_FAULT_INVALID_INPUT)
                    && is_no_restart(source, UINT32_MAX, UINT32_MAX, STARLARK_FAULT_INVALID_INPUT)
                    && is_no_restart("?\xff", 0, 1, STARLARK_FAULT_INVALID_INPUT)
                    && is_no_restart("", 0, 1, STARLARK_FAULT_INVALID_INPUT);
    if (!is_right)
        stop("numbers of no fault have a place to begin again");
}

/* Where starlark_lex_front cuts a front, and 0 where it doesn't. */
static size_t cut_of(const char *front)
{
    bytes source = {(uint8_t *)front, strlen(front)};
    buffers into = buffers_of(2 * source.len + 1, 2 * source.len);
    starlark_outcome outcome = lex_by(starlark_lex_front, source, into);
    release(into);
    return outcome.status == STARLARK_STATUS_FULL ? outcome.next : 0;
}

/* Calls with fronts of which the last cut is known. */
static void cut_fronts(void)
{
    static const struct {
        const char *front;
        size_t cut;
    } fronts[] = {
        {"", 0},
        {"a", 0},
        {"a\n", 0},
        {"a\nb", 2},
        {"a\nb\nc", 4},
        {"a\nb\n\n# c\nd", 9},
        {"f(\n  a,\n)\nb", 10},
        {"if a:\n  b\nc", 0},
        {"if a:\n  b\nc\nd", 12},
        {"a\n'''b\n", 2},
        {"a\nb\n\tc", 2},
        {"a\n$\nb", 2},
    };
    for (size_t at = 0; at < sizeof fronts / sizeof fronts[0]; at++)
        if (cut_of(fronts[at].front) != fronts[at].cut) {
            fprintf(stderr, "stored_texts: front %zu is cut at %zu\n", at,
                    cut_of(fronts[at].front));
            exit(1);
        }
}

/* Compares all texts. */
static void compare_all(bytes stored, bytes printed)
{
    tally counts = {0, 0, 0, 0, 0};
    size_t at = 0;
    size_t out = 0;
    for (size_t number = 1; at < stored.len; number++) {
        size_t begin = line_end(stored, at);
        char *word = NULL;
        size_t len = strtoul((char *)stored.at + at, &word, 10);
        if (*word == '\n')
            out = compare((bytes){stored.at + begin, len}, number, printed, out, &counts);
        else
            out = skip_record(printed, out, number);
        at = begin + len + 1;
    }
    if (out != printed.len)
        stop("there are more lines than texts");
    printf("%zu texts, %zu lexemes, %zu calls with small buffers and fronts, %zu cuts, %zu faults "
           "after which a caller begins anew\n",
           counts.texts, counts.lexemes, counts.calls, counts.cuts, counts.faults);
}

/* The part of a name in a file, which is a list of parts: a line `part NAME LEN`, and LEN bytes. */
static bytes part_of(bytes file, const char *name)
{
    size_t at = 0;
    while (at < file.len) {
        size_t begin = line_end(file, at);
        char found[16];
        size_t len;
        if (sscanf((const char *)file.at + at, "part %15s %zu", found, &len) != 2
            || len > file.len - begin)
            stop("a file that is no list of parts");
        if (strcmp(found, name) == 0)
            return (bytes){file.at + begin, len};
        at = begin + len;
    }
    stop("a file without a part of texts");
    return file;
}

int main(int count, char **words)
{
    if (count != 3)
        stop("usage: stored_texts STDIN STDOUT");
    bytes stored = read_file(words[1]);
    bytes printed = read_file(words[2]);
    compare_all(part_of(stored, "texts"), part_of(printed, "texts"));
    refuse_numbers();
    cut_fronts();
    compare_all_recovered(part_of(stored, "recovered"), part_of(printed, "recovered"));
    pass_reserved_words();
    free(stored.at);
    free(printed.at);
    return 0;
}
