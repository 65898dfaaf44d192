/* Offsets of a document in characters, where it was opened as a str: a table of marks. */
#include "library.h"

#include <string.h>

/* How far marks are from each other, and how much is read at once to make them. */
enum { STRIDE = 4096, MOST_READ = 64 * STRIDE };

size_t read_document_part(const starlark_document *document, size_t begin, size_t end,
                          uint8_t *part, size_t part_cap)
{
    uint32_t status = STARLARK_STATUS_BAD_RANGE;
    size_t last = end - begin > part_cap ? begin + part_cap + 1 : end + 1;
    while (status == STARLARK_STATUS_BAD_RANGE && --last > begin)
        status = starlark_document_text(document, begin, last, part, part_cap);
    return status == STARLARK_STATUS_WHOLE ? last - begin : 0;
}

/* Gives a table room for some more marks. Returns whether it has it. */
static bool reserve_marks(offset_table *of, size_t more)
{
    if (of->cap - of->len >= more)
        return true;
    size_t cap = 2 * of->len + more;
    offset_mark *marks = PyMem_Realloc(of->marks, cap * sizeof *marks);
    if (marks == NULL)
        return false;
    of->marks = marks;
    of->cap = cap;
    return true;
}

/* The last mark but the one at the end which is at an offset in bytes or before it. */
static size_t mark_before(const offset_table *of, size_t at)
{
    size_t first = 0, last = of->len - 1;
    while (last - first > 1) {
        size_t middle = first + (last - first) / 2;
        if (of->marks[middle].bytes <= at)
            first = middle;
        else
            last = middle;
    }
    return first;
}

/* The last mark but the one at the end which is at an offset in characters or before it. */
static size_t mark_before_character(const offset_table *of, size_t at)
{
    size_t first = 0, last = of->len - 1;
    while (last - first > 1) {
        size_t middle = first + (last - first) / 2;
        if (of->marks[middle].characters <= at)
            first = middle;
        else
            last = middle;
    }
    return first;
}

/* Makes marks of a part of the text that begins at one. Returns how many. */
static size_t make_marks(const uint8_t *part, size_t len, offset_mark mark, offset_mark *made)
{
    size_t count = 0;
    for (size_t at = 0; at < len;) {
        size_t next = len - at > STRIDE ? at + STRIDE : len;
        while (next < len && (part[next] & 0xC0) == 0x80)
            next++;
        mark.bytes += next - at;
        mark.characters += characters_in(part + at, next - at);
        made[count++] = mark;
        at = next;
    }
    return count;
}

/* Adds marks after one, where the next one is too far away. Without memory it adds none: then offsets
 * are only slower to find. */
static void add_marks(offset_table *of, const starlark_document *document, size_t after)
{
    size_t end = of->marks[after + 1].bytes, len = end - of->marks[after].bytes, added = 0;
    size_t most = len / STRIDE + len / (MOST_READ - 3) + 2;
    uint8_t *part = len <= 2 * STRIDE ? NULL : PyMem_Malloc(MOST_READ);
    if (part != NULL && reserve_marks(of, most)) {
        offset_mark *next = of->marks + after + 1, mark = of->marks[after];
        memmove(next + most, next, (of->len - after - 1) * sizeof *next);
        while ((len = read_document_part(document, mark.bytes, end, part, MOST_READ)) > 0) {
            added += make_marks(part, len, mark, next + added);
            mark = next[added - 1];
        }
        added -= added > 0 && mark.bytes == end;
        memmove(next + added, next + most, (of->len - after - 1) * sizeof *next);
        of->len += added;
    }
    PyMem_Free(part);
}

bool offsets_open(offset_table *of, const starlark_document *document)
{
    size_t len = starlark_document_len(document);
    if (of->len > 0)
        return true;
    if (!reserve_marks(of, 2))
        return false;
    of->marks[0] = (offset_mark){0, 0};
    of->marks[1] = (offset_mark){len, len - of->wide};
    of->len = 2;
    add_marks(of, document, 0);
    return true;
}

void offsets_close(offset_table *of)
{
    PyMem_Free(of->marks);
    memset(of, 0, sizeof *of);
}

size_t offset_in_characters(const offset_table *of, const starlark_document *document, size_t at)
{
    uint8_t part[STRIDE];
    if (of->wide == 0)
        return at;
    offset_mark mark = of->marks[mark_before(of, at)];
    while (mark.bytes < at) {
        size_t len = read_document_part(document, mark.bytes, at, part, STRIDE);
        if (len == 0)
            return STARLARK_NO_OFFSET;
        mark.bytes += len;
        mark.characters += characters_in(part, len);
    }
    return mark.characters;
}

/* The offset of the character of a number in a part, or the part's length. */
static size_t character_in(const uint8_t *part, size_t len, size_t number)
{
    size_t at = 0;
    for (; at < len; at++)
        if ((part[at] & 0xC0) != 0x80 && number-- == 0)
            break;
    return at;
}

size_t offset_in_bytes(const offset_table *of, const starlark_document *document, size_t at)
{
    uint8_t part[STRIDE];
    size_t end = starlark_document_len(document);
    if (of->wide == 0)
        return at;
    offset_mark mark = of->marks[mark_before_character(of, at)];
    while (mark.characters < at) {
        size_t len = read_document_part(document, mark.bytes, end, part, STRIDE);
        if (len == 0)
            return STARLARK_NO_OFFSET;
        size_t found = character_in(part, len, at - mark.characters);
        mark.bytes += found;
        mark.characters += characters_in(part, found);
    }
    return mark.bytes;
}

void offsets_edit(offset_table *of, const starlark_document *document, const offset_edit *edit)
{
    of->wide += (edit->new_end.bytes - edit->new_end.characters);
    of->wide -= (edit->old_end.bytes - edit->old_end.characters);
    if (of->len == 0)
        return;
    size_t before = mark_before(of, edit->begin.bytes), kept = before + 1;
    for (size_t index = before + 1; index < of->len; index++) {
        offset_mark mark = of->marks[index];
        if (mark.bytes <= edit->old_end.bytes && index < of->len - 1)
            continue;
        mark.bytes += edit->new_end.bytes - edit->old_end.bytes;
        mark.characters += edit->new_end.characters - edit->old_end.characters;
        of->marks[kept++] = mark;
    }
    of->len = kept;
    add_marks(of, document, before);
}
