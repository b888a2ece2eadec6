/* An office edits a plan: it renames a species in all stands and sets the volume of the first one.
 *
 *     write FILE
 *
 * First the plan is written back whole, without its comments. Then only what changed is written, each item by itself, and put between the
 * parts of the old plan, so that every comment and blank stays: the lines that differ are printed, the old one and the new one.
 */
#include <inttypes.h>
#include <stdio.h>
#include <stdlib.h>
#include <string.h>

#include "file.h"
#include "mihadrena.h"

/* What is changed: a name in the lists of species, and the first number behind `volume`. */
static const char OLD_NAME[] = "spruce";
static const char NEW_NAME[] = "Norway spruce";
static const char NEW_VOLUME[] = "398.0";

typedef struct plan {
    uint8_t *source;
    size_t length;
    uint8_t *text;
    size_t text_length;
    mihadrena_record *records;
    size_t count;
} plan;

static void fail(const char *what, uint64_t value)
{
    fprintf(stderr, "write: %s %" PRIu64 "\n", what, value);
    exit(EXIT_FAILURE);
}

/* Memory for `count` things, at least one: a slice's pointer must not be NULL. */
static void *memory(size_t count, size_t size)
{
    void *got = calloc(count + 1, size);
    if (got == NULL)
        fail("no memory for", count);
    return got;
}

/* The items of a text in report mode, comments left out. There is room behind the texts for the new name. */
static plan read_plan(uint8_t *source, size_t length)
{
    uint64_t values[MIHADRENA_READ_VALUES];
    plan p = {source, length, memory(length + sizeof NEW_NAME, 1), 0, memory(length, sizeof(mihadrena_record)), 0};
    uint32_t answer = mihadrena_read(source, length, MIHADRENA_REPORT, true, (uint32_t *)p.records, length * MIHADRENA_RECORD_WORDS,
                                     p.text, length, values, MIHADRENA_READ_VALUES);
    if (answer != MIHADRENA_SERVED)
        fail("mihadrena_read: refusal", answer);
    p.count = values[0];
    p.text_length = values[1];
    return p;
}

/* The text of some records of a plan. Lent no memory, the call tells how much it needs. */
static uint8_t *written(const plan *p, const mihadrena_record *records, size_t count, size_t *length)
{
    uint64_t values[MIHADRENA_WRITE_VALUES];
    uint8_t *out = memory(0, 1);
    uint32_t answer = mihadrena_write((const uint32_t *)records, count * MIHADRENA_RECORD_WORDS, p->source, p->length, p->text,
                                      p->text_length, out, 0, values, MIHADRENA_WRITE_VALUES);
    if (answer == MIHADRENA_TOO_FEW) {
        *length = values[0];
        free(out);
        out = memory(*length, 1);
        answer = mihadrena_write((const uint32_t *)records, count * MIHADRENA_RECORD_WORDS, p->source, p->length, p->text,
                                 p->text_length, out, *length, values, MIHADRENA_WRITE_VALUES);
    }
    if (answer != MIHADRENA_SERVED) {
        fprintf(stderr, "write: refusal %" PRIu32 ", ", answer);
        fail("record", values[0]);
    }
    *length = values[0];
    return out;
}

/* Whether an item is an identifier with this text. */
static bool is_named(const plan *p, const mihadrena_record *item, const char *name)
{
    const uint8_t *text = mihadrena_text(item, p->source, p->length, p->text, p->text_length);
    size_t length = item->text_end - item->text_start;
    return item->kind == MIHADRENA_IDENTIFIER && text != NULL && length == strlen(name) && memcmp(text, name, length) == 0;
}

/* Whether an item opens a list of this name. */
static bool is_list_of(const plan *p, size_t item, const char *name)
{
    return item + 1 < p->count && p->records[item].kind == MIHADRENA_OPEN_PAREN && is_named(p, &p->records[item + 1], name);
}

/* A name is changed by a text in the text memory: the new one is put behind the texts that are there, once, and the records say so. */
static void rename_species(plan *p)
{
    uint32_t start = (uint32_t)p->text_length;
    memcpy(p->text + start, NEW_NAME, sizeof NEW_NAME - 1);
    p->text_length += sizeof NEW_NAME - 1;
    for (size_t list = 0; list < p->count; list++) {
        if (!is_list_of(p, list, "species"))
            continue;
        for (mihadrena_record *item = p->records + list + 2; item < p->records + p->count && item->kind == MIHADRENA_IDENTIFIER; item++)
            if (is_named(p, item, OLD_NAME)) {
                item->text_source = MIHADRENA_IN_MEMORY;
                item->text_start = start;
                item->text_end = (uint32_t)p->text_length;
            }
    }
}

/* A number is the bytes of its extent, so the new one is put behind the source, and the record's extent is there. */
static void set_volume(plan *p)
{
    uint32_t start = (uint32_t)p->length;
    p->source = realloc(p->source, p->length + sizeof NEW_VOLUME);
    if (p->source == NULL)
        fail("no memory for", p->length);
    memcpy(p->source + start, NEW_VOLUME, sizeof NEW_VOLUME - 1);
    p->length += sizeof NEW_VOLUME - 1;
    for (size_t list = 0; list + 2 < p->count; list++) {
        mihadrena_record *item = p->records + list + 2;
        if (is_list_of(p, list, "volume") && item->kind == MIHADRENA_NUMBER) {
            item->start = start;
            item->end = (uint32_t)p->length;
            return;
        }
    }
}

/* Whether two readings have the same kinds, details and texts; of items without a text the bytes of their extents. */
static bool same_items(const plan *a, const plan *b)
{
    bool same = a->count == b->count;
    for (size_t i = 0; same && i < a->count; i++) {
        size_t first_length, second_length;
        uint8_t *first = written(a, a->records + i, 1, &first_length);
        uint8_t *second = written(b, b->records + i, 1, &second_length);
        same = a->records[i].kind == b->records[i].kind && a->records[i].detail == b->records[i].detail &&
               first_length == second_length && memcmp(first, second, first_length) == 0;
        free(first);
        free(second);
    }
    return same;
}

/* The old source with each item that is another now written by itself in the place of the old one. */
static uint8_t *spliced(const plan *old, const plan *new, size_t *length)
{
    uint8_t *out = NULL;
    size_t at = 0;
    *length = 0;
    for (size_t i = 0; i <= old->count; i++) {
        bool last = i == old->count;
        if (!last && memcmp(&old->records[i], &new->records[i], sizeof *old->records) == 0)
            continue;
        size_t end = last ? old->length : old->records[i].start, word_length = 0;
        uint8_t *word = last ? memory(0, 1) : written(new, new->records + i, 1, &word_length);
        out = realloc(out, *length + (end - at) + word_length + 1);
        if (out == NULL)
            fail("no memory for", *length);
        memcpy(out + *length, old->source + at, end - at);
        memcpy(out + *length + (end - at), word, word_length);
        *length += (end - at) + word_length;
        at = last ? end : old->records[i].end;
        free(word);
    }
    return out;
}

/* Prints the lines in which two texts differ, one of each; they have the same number of lines. */
static void print_difference(const uint8_t *old, size_t old_length, const uint8_t *new, size_t new_length)
{
    for (const uint8_t *a = old, *b = new; a < old + old_length && b < new + new_length;) {
        const uint8_t *a_end = memchr(a, '\n', (size_t)(old + old_length - a)), *b_end = memchr(b, '\n', (size_t)(new + new_length - b));
        a_end = a_end == NULL ? old + old_length : a_end;
        b_end = b_end == NULL ? new + new_length : b_end;
        if (a_end - a != b_end - b || memcmp(a, b, (size_t)(a_end - a)) != 0)
            printf("-%.*s\n+%.*s\n", (int)(a_end - a), (const char *)a, (int)(b_end - b), (const char *)b);
        a = a_end + 1;
        b = b_end + 1;
    }
}

int main(int count, char **words)
{
    if (count != 2)
        fail("usage: write FILE, not words", (uint64_t)count);
    size_t length, new_length;
    uint8_t *source = file_bytes(words[1], &length);
    if (source == NULL)
        fail("cannot read the file", 0);
    uint8_t *copy = memory(length, 1);
    memcpy(copy, source, length);
    plan old = read_plan(source, length), edited = read_plan(copy, length);
    rename_species(&edited);
    set_volume(&edited);

    uint8_t *whole = written(&edited, edited.records, edited.count, &new_length);
    printf("%.*s\n", (int)new_length, (const char *)whole);
    plan back = read_plan(whole, new_length);
    if (!same_items(&edited, &back))
        fail("the written plan has other items than", edited.count);

    uint8_t *kept = spliced(&old, &edited, &new_length);
    back = read_plan(kept, new_length);
    if (!same_items(&edited, &back))
        fail("a new word runs into its neighbour: write the plan whole, not items", edited.count);
    print_difference(source, length, kept, new_length);
    return EXIT_SUCCESS;
}
