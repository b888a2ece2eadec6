/* Prints the items of a plan, a line each: its kind, its extent, and what more it has (a text, a number's parts, an error's place).
 *
 *     items FILE               in report mode, comments kept
 *     items --plain FILE       in plain mode, as Steel reads: to see where the two differ
 *     items --pieces N FILE    the file is read N bytes at a time, and each piece forgotten once it was taken
 */
#include <inttypes.h>
#include <stdio.h>
#include <stdlib.h>
#include <string.h>

#include "file.h"
#include "mihadrena_plan.h"

typedef struct source {
    uint8_t *bytes;
    size_t length;
} source;

static void fail(const char *what)
{
    fprintf(stderr, "items: %s\n", what);
    exit(EXIT_FAILURE);
}

/* Memory for `count` things, at least one: a slice's pointer must not be NULL. */
static void *memory(size_t count, size_t size)
{
    void *got = calloc(count + 1, size);
    if (got == NULL)
        fail("no memory");
    return got;
}

static FILE *opened(const char *path)
{
    FILE *file = fopen(path, "rb");
    if (file == NULL)
        fail("cannot open the file");
    return file;
}

static source whole(const char *path)
{
    source got;
    got.bytes = file_bytes(path, &got.length);
    if (got.bytes == NULL)
        fail("cannot read the file");
    return got;
}

/* A figure: a value, or digits at their places in the number's text. */
static void print_figure(const uint8_t *text, const mihadrena_figure *figure)
{
    if (figure->minus)
        putchar('-');
    if (figure->has == MIHADRENA_VALUE)
        printf("%" PRIu64, figure->first);
    if (figure->has == MIHADRENA_PLACES)
        fwrite(text + figure->first, 1, (size_t)(figure->second - figure->first), stdout);
}

static void print_real(const uint8_t *text, const mihadrena_real *real)
{
    static const char *const FORMS[] = {
        "", "integer", "rational", "decimal", "infinity", "nan", "implied-zero", "implied-one",
    };
    printf(" %s ", FORMS[real->form]);
    print_figure(text, &real->one);
    if (real->form == MIHADRENA_RATIONAL) {
        putchar('/');
        print_figure(text, &real->two);
    }
    if (real->form == MIHADRENA_DECIMAL) {
        putchar('.');
        print_figure(text, &real->two);
        printf(" exponent ");
        print_figure(text, &real->three);
    }
}

/* The parts of the number that a text is. */
static void print_number(const uint8_t *text, size_t length)
{
    mihadrena_parts parts;
    if (mihadrena_number(text, length, (uint64_t *)&parts, MIHADRENA_NUMBER_WORDS) != MIHADRENA_A_NUMBER)
        fail("an item of kind number is a number");
    print_real(text, &parts.one);
    if (parts.form != MIHADRENA_REAL)
        print_real(text, &parts.two);
}

/* An item. `from` is the source; read in pieces there is none, and every text, a number's too, lies in the text memory. */
static void print_item(const mihadrena_record *record, source from, const uint8_t *text, size_t text_length)
{
    if (mihadrena_is_error(record->kind)) {
        printf("error %s %" PRIu32 "..%" PRIu32, mihadrena_kind_name(record->kind), record->start, record->end);
        printf(" detail %" PRIu32 " place %" PRIu32 "..%" PRIu32 "\n", record->detail, record->place_start, record->place_end);
        return;
    }
    printf("%s %" PRIu32 "..%" PRIu32, mihadrena_kind_name(record->kind), record->start, record->end);
    const uint8_t *part = mihadrena_text(record, from.bytes, from.length, text, text_length);
    if (record->kind == MIHADRENA_NUMBER) {
        print_number(part != NULL ? part : from.bytes + record->start, record->end - record->start);
    } else if (part != NULL) {
        printf(" text ");
        fwrite(part, 1, record->text_end - record->text_start, stdout);
    } else if (record->detail != 0) {
        printf(" detail %" PRIu32, record->detail);
    }
    putchar('\n');
}

static void print_refusal(uint32_t answer, uint64_t place)
{
    printf("refused %" PRIu32 " %" PRIu64 ": %s\n", answer, place, mihadrena_message(answer));
}

/* Reads the whole text: a first call without memory says how much the second one needs. */
static void print_whole(source from, uint32_t mode)
{
    mihadrena_plan plan = {0};
    plan.source = from.bytes;
    plan.source_length = from.length;
    uint32_t answer = mihadrena_read_all(&plan, mode, false);
    if (answer != MIHADRENA_SERVED && answer != MIHADRENA_TOO_FEW) {
        print_refusal(answer, plan.place);
        return;
    }
    plan.records_room = plan.items;
    plan.text_room = plan.text_bytes;
    plan.records = memory(plan.records_room, sizeof *plan.records);
    plan.text = memory(plan.text_room, 1);
    if (mihadrena_read_all(&plan, mode, false) != MIHADRENA_SERVED)
        fail("the memory that was asked for is enough");
    for (size_t i = 0; i < plan.items; i++)
        print_item(&plan.records[i], from, plan.text, plan.text_bytes);
    printf("end %zu\n", plan.items);
    free(plan.records);
    free(plan.text);
}

/* Prints the items that steps give, until they give none; a refusal ends the listing. `piece` is NULL at the end of the text. */
static void print_steps(mihadrena_reading *now, const uint8_t *piece, size_t length, size_t *items)
{
    static uint8_t nothing[1];
    static const source NO_SOURCE = {nothing, 0};
    for (;;) {
        uint32_t answer = piece != NULL ? mihadrena_reading_step(now, &piece, &length) : mihadrena_reading_end(now);
        if (answer == MIHADRENA_MORE || answer == MIHADRENA_FINISHED)
            return;
        if (answer != MIHADRENA_ITEM) {
            print_refusal(answer, now->place);
            exit(EXIT_SUCCESS);
        }
        print_item(&now->record, NO_SOURCE, now->text, sizeof now->text);
        ++*items;
    }
}

/* Reads the file `size` bytes at a time. */
static void print_pieces(const char *path, uint32_t mode, size_t size)
{
    static mihadrena_reading now;
    size_t items = 0;
    if (mihadrena_reading_open(&now, mode, false) != MIHADRENA_SERVED)
        fail("both modes open a state");
    uint8_t *piece = memory(size, 1);
    FILE *file = opened(path);
    size_t got = fread(piece, 1, size, file);
    while (got > 0) {
        print_steps(&now, piece, got, &items);
        got = fread(piece, 1, size, file);
    }
    /* a read that fails is not the end of the text */
    if (ferror(file))
        fail("cannot read the file");
    fclose(file);
    free(piece);
    print_steps(&now, NULL, 0, &items);
    printf("end %zu\n", items);
}

int main(int count, char **words)
{
    uint32_t mode = MIHADRENA_REPORT;
    size_t size = 0;
    int at = 1;
    if (at < count && strcmp(words[at], "--plain") == 0) {
        mode = MIHADRENA_PLAIN;
        at++;
    }
    if (at + 1 < count && strcmp(words[at], "--pieces") == 0) {
        size = (size_t)strtoul(words[at + 1], NULL, 10);
        at += 2;
    }
    if (at + 1 != count) {
        fprintf(stderr, "usage: items [--plain] [--pieces N] FILE\n");
        return EXIT_FAILURE;
    }
    if (size > 0) {
        print_pieces(words[at], mode, size);
        return EXIT_SUCCESS;
    }
    source from = whole(words[at]);
    print_whole(from, mode);
    free(from.bytes);
    return EXIT_SUCCESS;
}
