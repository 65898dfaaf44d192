/* Edits documents at random, and compares each with lexing its whole text by
 * starlark_lex_recovering.
 *
 *     edited_documents [EDITS]
 *
 * After each of EDITS (20000) edits, the text, the lexemes, their values and the faults of the
 * document have to be those of its text; so has a list of lexemes of which only those are replaced
 * that touch the range of the change. Ranges, small buffers, places and edits that are refused are
 * tried at random. Texts are made of pieces that open and close literals, brackets and blocks. */
#include "starlark_lex.h"

#include <stdio.h>
#include <stdlib.h>
#include <string.h>

#define ROOM 16384
#define UNTOUCHED 0xA5

static const char *const pieces[] = {
    "x = 1\n",
    "def f(a, b):\n    return a\n",
    "    y\n",
    "\n",
    "(",
    ")",
    "[1, 2.5, 0xFFFFFFFFFF]\n",
    "'a'",
    "\"\"\"",
    "'''\n",
    "f'{a!r} b{'",
    "}'",
    "# \xc3\xa9\xf0\x9f\x94\xac\n",
    "b'\\x00\\n'",
    "\t",
    " ",
    "$",
    "\\",
    "'\\q'\n",
    "class\n",
    "012",
    "if x:\n  if y:\n    z\n",
    "\xe6\xb1\x89",
    "\r\n",
    "a_name = other_name + \"text\"  # comment\n",
};
#define PIECES (sizeof pieces / sizeof *pieces)

/* What is found in a text or a part of it. */
typedef struct found {
    starlark_lexeme lexemes[ROOM];
    uint8_t values[ROOM];
    starlark_found_fault faults[ROOM];
    uint8_t named[ROOM];
    size_t lexeme_count;
    size_t fault_count;
} found;

static uint8_t text[ROOM];
static size_t text_len;
static size_t edits_done;
static uint64_t state = 88172645463325252U;

static size_t below(size_t count)
{
    state ^= state << 13;
    state ^= state >> 7;
    state ^= state << 17;
    return (size_t)(state % count);
}

static void require(bool is_right, const char *what)
{
    if (is_right)
        return;
    fprintf(stderr, "edited_documents: %s, after %zu edits\n", what, edits_done);
    exit(1);
}

/* An offset in the text that is a character boundary. */
static size_t boundary(void)
{
    size_t at = below(text_len + 1);
    while (at < text_len && (text[at] & 0xC0) == 0x80)
        at++;
    return at;
}

static void find_whole(found *into)
{
    static found both;
    starlark_recovered outcome;
    uint32_t status = starlark_lex_recovering(text, text_len, into->lexemes, ROOM, both.values,
                                              ROOM, into->faults, ROOM, &outcome);
    require(status == STARLARK_STATUS_WHOLE, "a text is not lexed");
    memcpy(into->values, both.values, outcome.values);
    memcpy(into->named, both.values, outcome.values);
    into->lexeme_count = outcome.lexemes;
    into->fault_count = outcome.faults;
}

static void find_touching(starlark_document *document, size_t begin, size_t end, found *into)
{
    starlark_recovered outcome;
    uint32_t status = starlark_document_lexemes(document, begin, end, into->lexemes, ROOM,
                                                into->values, ROOM, &outcome);
    require(status == STARLARK_STATUS_WHOLE && outcome.faults == 0, "lexemes are not told");
    into->lexeme_count = outcome.lexemes;
    status = starlark_document_faults(document, begin, end, into->named, ROOM, into->faults, ROOM,
                                      &outcome);
    require(status == STARLARK_STATUS_WHOLE && outcome.lexemes == 0, "faults are not told");
    into->fault_count = outcome.faults;
}

static bool is_same_lexeme(const starlark_lexeme *one, const uint8_t *one_values,
                           const starlark_lexeme *other, const uint8_t *other_values)
{
    return one->begin == other->begin && one->end == other->end && one->kind == other->kind
           && one->detail == other->detail && one->integer == other->integer
           && one->value_len == other->value_len
           && memcmp(one_values + one->value_begin, other_values + other->value_begin,
                     one->value_len)
                  == 0;
}

static bool is_same_fault(const starlark_found_fault *one, const uint8_t *one_named,
                          const starlark_found_fault *other, const uint8_t *other_named)
{
    return one->begin == other->begin && one->end == other->end && one->kind == other->kind
           && one->value_len == other->value_len
           && memcmp(one_named + one->value_begin, other_named + other->value_begin, one->value_len)
                  == 0;
}

static bool touches(size_t begin, size_t end, uint32_t from, uint32_t to)
{
    return begin <= to && from <= end;
}

/* Whether what was found in a range is what the whole text has there. */
static void compare(const found *whole, const found *part, size_t begin, size_t end)
{
    size_t count = 0;
    for (size_t at = 0; at < whole->lexeme_count; at++) {
        const starlark_lexeme *lexeme = &whole->lexemes[at];
        if (!touches(begin, end, lexeme->begin, lexeme->end))
            continue;
        require(count < part->lexeme_count
                    && is_same_lexeme(lexeme, whole->values, &part->lexemes[count], part->values),
                "another lexeme");
        count++;
    }
    require(count == part->lexeme_count, "lexemes of another number");
    count = 0;
    for (size_t at = 0; at < whole->fault_count; at++) {
        const starlark_found_fault *fault = &whole->faults[at];
        if (!touches(begin, end, fault->begin, fault->end))
            continue;
        require(count < part->fault_count
                    && is_same_fault(fault, whole->named, &part->faults[count], part->named)
                    && part->faults[count].lexemes_before == 0,
                "another fault");
        count++;
    }
    require(count == part->fault_count, "faults of another number");
}

/* Replaces the lexemes that touched the old range of a change by those that touch the new one. */
static void replace_touching(found *list, starlark_document *document,
                             const starlark_change *change)
{
    static found part, next;
    size_t at = 0;
    find_touching(document, change->begin, change->new_end, &part);
    next.lexeme_count = 0;
    while (at < list->lexeme_count && list->lexemes[at].end < change->begin)
        next.lexemes[next.lexeme_count++] = list->lexemes[at++];
    while (at < list->lexeme_count && list->lexemes[at].begin <= change->old_end)
        at++;
    for (size_t added = 0; added < part.lexeme_count; added++)
        next.lexemes[next.lexeme_count++] = part.lexemes[added];
    for (; at < list->lexeme_count; at++) {
        starlark_lexeme moved = list->lexemes[at];
        moved.begin += (uint32_t)(change->new_end - change->old_end);
        moved.end += (uint32_t)(change->new_end - change->old_end);
        next.lexemes[next.lexeme_count++] = moved;
    }
    memcpy(list->lexemes, next.lexemes, next.lexeme_count * sizeof(starlark_lexeme));
    list->lexeme_count = next.lexeme_count;
}

static void compare_list(const found *whole, const found *list)
{
    require(whole->lexeme_count == list->lexeme_count, "the replaced lexemes have another number");
    for (size_t at = 0; at < list->lexeme_count; at++)
        require(whole->lexemes[at].begin == list->lexemes[at].begin
                    && whole->lexemes[at].end == list->lexemes[at].end
                    && whole->lexemes[at].kind == list->lexemes[at].kind,
                "another lexeme after a change");
}

/* Buffers that are too small have the first lexemes, and are told how much is wanted. */
static void try_small_buffers(starlark_document *document, const found *whole)
{
    static starlark_lexeme lexemes[ROOM];
    static uint8_t values[ROOM];
    starlark_recovered outcome;
    size_t wanted_values = 0;
    for (size_t at = 0; at < whole->lexeme_count; at++)
        wanted_values += whole->lexemes[at].value_len;
    size_t room = below(whole->lexeme_count);
    size_t room_values = below(2) == 0 ? ROOM : below(wanted_values + 1);
    memset(lexemes, UNTOUCHED, sizeof lexemes);
    uint32_t status = starlark_document_lexemes(document, 0, SIZE_MAX, lexemes, room, values,
                                                room_values, &outcome);
    require(status == STARLARK_STATUS_FULL && outcome.wanted_lexemes == whole->lexeme_count
                && outcome.wanted_values == wanted_values && outcome.wanted_faults == 0,
            "what is wanted");
    for (size_t at = 0; at < room && lexemes[at].begin != 0xA5A5A5A5U; at++)
        require(is_same_lexeme(&whole->lexemes[at], whole->values, &lexemes[at], values),
                "another lexeme in small buffers");
    require(lexemes[room].begin == 0xA5A5A5A5U, "a record after the buffer");
}

static void try_places(starlark_document *document)
{
    starlark_text_place wanted = {7, 7, 7};
    starlark_text_place told = {7, 7, 7};
    size_t at = below(text_len + 3);
    bool is_boundary = at == text_len || (at < text_len && (text[at] & 0xC0) != 0x80);
    require(starlark_document_place(document, at, &told) == is_boundary,
            "a place that isn't there");
    if (is_boundary) {
        require(starlark_place(text, text_len, at, &wanted), "a place");
        require(starlark_document_offset_at_utf16(document, told.line, told.utf16_column) == at,
                "an offset at a place");
    }
    require(told.line == wanted.line && told.column == wanted.column
                && told.utf16_column == wanted.utf16_column,
            "another place");
    require(starlark_document_offset_at_utf16(document, text_len + 1, 0) == STARLARK_NO_OFFSET,
            "an offset on no line");
}

static void compare_text(starlark_document *document)
{
    static uint8_t copy[ROOM];
    size_t begin = boundary();
    size_t end = boundary();
    require(starlark_document_len(document) == text_len, "another length");
    memset(copy, UNTOUCHED, sizeof copy);
    if (end < begin) {
        require(starlark_document_text(document, begin, end, copy, ROOM)
                    == STARLARK_STATUS_BAD_RANGE,
                "a range backwards");
        return;
    }
    if (begin < end)
        require(starlark_document_text(document, begin, end, copy, end - begin - 1)
                        == STARLARK_STATUS_FULL
                    && copy[0] == UNTOUCHED,
                "a part without room");
    require(starlark_document_text(document, begin, end, copy, ROOM) == STARLARK_STATUS_WHOLE
                && memcmp(copy, text + begin, end - begin) == 0 && copy[end - begin] == UNTOUCHED,
            "another part");
}

/* Edits that are refused leave the document and the record as they were. */
static void try_refused(starlark_document *document)
{
    starlark_change change;
    starlark_change untouched;
    memset(&change, UNTOUCHED, sizeof change);
    memset(&untouched, UNTOUCHED, sizeof untouched);
    size_t at = boundary();
    require(starlark_document_edit(document, at, at, (const uint8_t *)"\xff", 1, &change)
                == STARLARK_STATUS_NOT_UTF8,
            "bytes that are not UTF-8");
    require(starlark_document_edit(document, at + 1, at, NULL, 0, &change)
                == STARLARK_STATUS_BAD_RANGE,
            "a range backwards");
    require(starlark_document_edit(document, at, text_len + 1, NULL, 0, &change)
                == STARLARK_STATUS_BAD_RANGE,
            "a range past the end");
    for (size_t inner = 0; inner < text_len; inner++)
        if ((text[inner] & 0xC0) == 0x80) {
            require(starlark_document_edit(document, inner, inner, NULL, 0, &change)
                        == STARLARK_STATUS_BAD_RANGE,
                    "an offset inside of a character");
            break;
        }
    require(memcmp(&change, &untouched, sizeof change) == 0, "a record of a refused edit");
}

/* A text of some pieces, or a part of one that ends at a character. Returns its length. */
static size_t make_text(uint8_t *into, size_t count)
{
    size_t len = 0;
    for (size_t number = 0; number < count; number++) {
        const char *piece = pieces[below(PIECES)];
        size_t piece_len = strlen(piece);
        if ((piece[0] & 0x80) == 0 && strlen(piece) > 3 && (piece[1] & 0x80) == 0 && below(4) == 0)
            piece_len = 1;
        memcpy(into + len, piece, piece_len);
        len += piece_len;
    }
    return len;
}

/* Edits the document and the text at random. */
static starlark_change edit(starlark_document *document)
{
    static uint8_t inserted[ROOM];
    starlark_change change;
    size_t begin = boundary();
    size_t end = begin;
    size_t len = make_text(inserted, below(4));
    if (below(2) == 0 || text_len > 4000) {
        end = begin + below(below(3) == 0 ? text_len - begin + 1 : 8);
        end = end > text_len ? text_len : end;
        while (end < text_len && (text[end] & 0xC0) == 0x80)
            end++;
    }
    require(starlark_document_edit(document, begin, end, inserted, len, &change)
                == STARLARK_STATUS_WHOLE,
            "an edit is refused");
    memmove(text + begin + len, text + end, text_len - end);
    memcpy(text + begin, inserted, len);
    text_len = text_len - (end - begin) + len;
    require(change.begin <= begin && change.begin <= change.new_end && change.new_end <= text_len
                && begin + len <= change.new_end
                && change.reads <= 16 * (change.lexed + change.starts),
            "another change");
    return change;
}

/* Opens a document, edits it some times, and closes it. */
static void try_document(size_t edits)
{
    static found whole, part, list;
    uint32_t status;
    text_len = make_text(text, below(8) == 0 ? 400 : below(60));
    starlark_document *document = starlark_document_open(text, text_len, &status);
    require(document != NULL && status == STARLARK_STATUS_WHOLE, "no document is opened");
    find_touching(document, 0, SIZE_MAX, &list);
    for (size_t number = 0; number < edits; number++) {
        starlark_change change = edit(document);
        edits_done++;
        find_whole(&whole);
        find_touching(document, 0, SIZE_MAX, &part);
        compare(&whole, &part, 0, SIZE_MAX);
        replace_touching(&list, document, &change);
        compare_list(&whole, &list);
        size_t begin = below(text_len + 1);
        size_t end = begin + below(40);
        find_touching(document, begin, end, &part);
        compare(&whole, &part, begin, end);
        compare_text(document);
        try_places(document);
        try_small_buffers(document, &whole);
        if (number % 16 == 0)
            try_refused(document);
    }
    starlark_document_close(document);
}

/* No call does anything with NULL. */
static void try_closed(void)
{
    static found none;
    uint32_t status;
    starlark_change change;
    starlark_recovered outcome;
    starlark_text_place place;
    starlark_document_close(NULL);
    require(starlark_document_edit(NULL, 0, 0, NULL, 0, &change) == STARLARK_STATUS_CLOSED
                && starlark_document_text(NULL, 0, 0, NULL, 0) == STARLARK_STATUS_CLOSED
                && starlark_document_lexemes(NULL, 0, 0, NULL, 0, NULL, 0, &outcome)
                       == STARLARK_STATUS_CLOSED
                && starlark_document_faults(NULL, 0, 0, none.named, 0, NULL, 0, &outcome)
                       == STARLARK_STATUS_CLOSED
                && starlark_document_len(NULL) == 0 && !starlark_document_place(NULL, 0, &place)
                && starlark_document_offset_at_utf16(NULL, 0, 0) == STARLARK_NO_OFFSET
                && starlark_document_open((const uint8_t *)"\xff", 1, &status) == NULL
                && status == STARLARK_STATUS_NOT_UTF8
                && starlark_document_open((const uint8_t *)"\xff", 1, NULL) == NULL,
            "a call on no document");
}

int main(int argc, char **argv)
{
    size_t edits = argc > 1 ? (size_t)strtoul(argv[1], NULL, 10) : 20000;
    size_t documents = 0;
    try_closed();
    while (edits_done < edits) {
        size_t left = edits - edits_done;
        try_document(left < 100 ? left : 100);
        documents++;
    }
    printf("%zu edits of %zu documents\n", edits_done, documents);
    return 0;
}
