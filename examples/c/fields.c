/* Reads a table of stand cards in one call: a line is a card, and its fields have tabs between them. Prints each field under the name that
 * the first line gives it: what its items are, or what is wrong with it. Report mode, comments left out.
 *
 *     fields FILE
 */
#include <inttypes.h>
#include <stdio.h>
#include <stdlib.h>

#include "file.h"
#include "mihadrena.h"

typedef struct table {
    const uint8_t *source;
    size_t length;
    uint32_t *ends;
    size_t parts;
    size_t columns;
    mihadrena_row *rows;
    mihadrena_record *records;
    uint8_t *text;
    uint64_t values[MIHADRENA_FIELDS_VALUES];
} table;

static void fail(const char *what, uint64_t value)
{
    fprintf(stderr, "fields: %s %" PRIu64 "\n", what, value);
    exit(EXIT_FAILURE);
}

/* Memory for `count` things, at least one: a slice's pointer must not be NULL. */
static void *memory(size_t count, size_t size)
{
    void *got = calloc(count + 1, size);
    if (got == NULL)
        fail("no memory for", count);
    return got;
}

/* A part is a field with the tab or newline behind it, which is a blank and makes no item. */
static void cut(table *t)
{
    t->ends = memory(t->length, sizeof *t->ends);
    for (size_t at = 0; at < t->length; at++) {
        if (t->source[at] == '\t' || t->source[at] == '\n')
            t->ends[t->parts++] = (uint32_t)(at + 1);
        if (t->source[at] == '\n' && t->columns == 0)
            t->columns = t->parts;
    }
}

/* All parts together never have more items than the source has bytes, nor more text. */
static void read_all(table *t)
{
    t->rows = memory(t->parts, sizeof *t->rows);
    t->records = memory(t->length, sizeof *t->records);
    t->text = memory(t->length, 1);
    uint32_t answer = mihadrena_read_fields(t->source, t->length, t->ends, t->parts, MIHADRENA_REPORT, true, (uint32_t *)t->rows,
                                            t->parts * MIHADRENA_ROW_WORDS, (uint32_t *)t->records,
                                            t->length * MIHADRENA_RECORD_WORDS, t->text, t->length, t->values, MIHADRENA_FIELDS_VALUES);
    if (answer != MIHADRENA_SERVED)
        fail("refusal", answer);
}

/* An item of a part: its text, or its bytes; of an error its place in the part. */
static void print_item(const mihadrena_record *record, const uint8_t *part, size_t length, const uint8_t *text, size_t bytes)
{
    if (record->kind > MIHADRENA_FIRST_ERROR) {
        printf(" [error at %" PRIu32 "..%" PRIu32 "]", record->place_start, record->place_end);
        return;
    }
    const uint8_t *own = mihadrena_text(record, part, length, text, bytes);
    if (own != NULL)
        printf(" %.*s", (int)(record->text_end - record->text_start), (const char *)own);
    else
        printf(" %.*s", (int)(record->end - record->start), (const char *)part + record->start);
}

static void print_part(const table *t, size_t i)
{
    size_t from = i == 0 ? 0 : t->ends[i - 1];
    const mihadrena_row *row = &t->rows[i];
    bool last = i + 1 == t->parts;
    size_t past = last ? t->values[0] : t->rows[i + 1].first_record;
    size_t end = last ? t->values[1] : t->rows[i + 1].first_byte;
    if (row->mark == MIHADRENA_NOT_UTF8)
        printf(" [not UTF-8 at %" PRIu32 "]", row->place);
    for (size_t record = row->first_record; record < past; record++)
        print_item(&t->records[record], t->source + from, t->ends[i] - from, t->text + row->first_byte, end - row->first_byte);
    printf("\n");
}

int main(int count, char **words)
{
    table t = {0};
    if (count != 2)
        fail("usage: fields FILE, not words", (uint64_t)count);
    t.source = file_bytes(words[1], &t.length);
    if (t.source == NULL)
        fail("cannot read the file", 0);
    cut(&t);
    read_all(&t);
    for (size_t i = t.columns; i < t.parts; i++) {
        size_t column = i % t.columns, from = column == 0 ? 0 : t.ends[column - 1];
        printf("%s%.*s:", column == 0 && i > t.columns ? "\n" : "", (int)(t.ends[column] - 1 - from), (const char *)t.source + from);
        print_part(&t, i);
    }
    return EXIT_SUCCESS;
}
