/* Gives each identifier of a plan its number in one table for planner and contractor: the header's worked calls first, then a line for each
 * new number, with its name.
 *
 *     names FILE    the planner asks for the identifiers of the first half of the file's items, the contractor for those of all; in report
 *                   mode, comments left out
 */
#include <inttypes.h>
#include <stdio.h>
#include <stdlib.h>
#include <string.h>

#include "mihadrena.h"

/* A plan has fewer bytes here; its items never outnumber them. */
#define LONGEST_PLAN 65536

static uint32_t words[MIHADRENA_NAMES_WORDS];
static uint8_t bytes[MIHADRENA_NAMES_BYTES];

static void expect(bool fact, const char *what)
{
    if (!fact) {
        fprintf(stderr, "names: %s\n", what);
        exit(EXIT_FAILURE);
    }
}

static uint32_t open_table(void)
{
    return mihadrena_names_open(words, MIHADRENA_NAMES_WORDS, bytes, MIHADRENA_NAMES_BYTES);
}

static uint32_t enter(uint32_t party, const uint8_t *name, size_t length, uint32_t *number)
{
    return mihadrena_names_enter(words, MIHADRENA_NAMES_WORDS, bytes, MIHADRENA_NAMES_BYTES, party, name, length, number);
}

static uint32_t place(uint32_t number, size_t *start, size_t *end)
{
    return mihadrena_names_place(words, MIHADRENA_NAMES_WORDS, bytes, MIHADRENA_NAMES_BYTES, number, start, end);
}

static void calls(void)
{
    static const uint8_t longer[MIHADRENA_NAMES_BYTES / 2 + 1];
    const uint8_t *fagus = (const uint8_t *)"Fagus";
    uint32_t number = 7;
    size_t start = 7, end = 7;
    expect(open_table() == MIHADRENA_SERVED, "mihadrena_names_open");
    uint32_t mark = mihadrena_names_open(words, MIHADRENA_NAMES_WORDS - 1, bytes, MIHADRENA_NAMES_BYTES);
    expect(mark == MIHADRENA_OUT_OF_BOUNDS, "mihadrena_names_open, too little");
    expect(enter(MIHADRENA_CONTRACTOR, fagus, 5, &number) == MIHADRENA_SERVED && number == 512, "mihadrena_names_enter");
    expect(enter(MIHADRENA_PLANNER, fagus, 5, &number) == MIHADRENA_SERVED && number == 512, "mihadrena_names_enter, shared");
    expect(enter(2, fagus, 5, &number) == MIHADRENA_NO_PARTY && number == 0, "mihadrena_names_enter, no party");
    expect(enter(MIHADRENA_PLANNER, longer, sizeof longer, &number) == MIHADRENA_NO_ROOM && number == 0, "mihadrena_names_enter, no room");
    expect(place(512, &start, &end) == MIHADRENA_SERVED && end - start == 5 && memcmp(bytes + start, fagus, 5) == 0,
           "mihadrena_names_place");
    expect(place(513, &start, &end) == MIHADRENA_NO_NAME && start == 0 && end == 0, "mihadrena_names_place, no name");
    words[0] = 513;
    expect(place(512, &start, &end) == MIHADRENA_OUT_OF_BOUNDS, "mihadrena_names_place, outside");
}

/* The identifiers of the records, asked for by a party. */
static void ask(uint32_t party, const mihadrena_record *records, size_t count, const uint8_t *source, const uint8_t *text)
{
    for (size_t i = 0; i < count; i++) {
        const mihadrena_record *item = &records[i];
        if (item->kind != MIHADRENA_IDENTIFIER)
            continue;
        const uint8_t *from = item->text_source == MIHADRENA_IN_SOURCE ? source : text;
        uint32_t number;
        expect(enter(party, from + item->text_start, item->text_end - item->text_start, &number) == MIHADRENA_SERVED, "a number");
    }
}

/* The names of a party, in the order of their numbers. */
static void print_names(const char *party, uint32_t first)
{
    size_t start, end;
    for (uint32_t number = first; number < first + 512 && place(number, &start, &end) == MIHADRENA_SERVED; number++)
        printf("%s %" PRIu32 " %.*s\n", party, number, (int)(end - start), (const char *)bytes + start);
}

int main(int count, char **arguments)
{
    static uint8_t source[LONGEST_PLAN], text[LONGEST_PLAN];
    static mihadrena_record records[LONGEST_PLAN];
    uint64_t values[MIHADRENA_READ_VALUES];
    calls();
    expect(count == 2, "usage: names FILE");
    FILE *file = fopen(arguments[1], "rb");
    expect(file != NULL, "cannot open the file");
    size_t length = fread(source, 1, sizeof source, file);
    expect(!ferror(file), "cannot read the file");
    expect(length < sizeof source, "the file is too long");
    fclose(file);
    uint32_t mark = mihadrena_read(source, length, MIHADRENA_REPORT, true, (uint32_t *)records,
                                   LONGEST_PLAN * MIHADRENA_RECORD_WORDS, text, sizeof text, values, MIHADRENA_READ_VALUES);
    expect(mark == MIHADRENA_SERVED, "mihadrena_read");
    expect(open_table() == MIHADRENA_SERVED, "mihadrena_names_open");
    ask(MIHADRENA_PLANNER, records, (size_t)values[0] / 2, source, text);
    ask(MIHADRENA_CONTRACTOR, records, (size_t)values[0], source, text);
    print_names("planner", MIHADRENA_PLANNERS_FIRST);
    print_names("contractor", MIHADRENA_CONTRACTORS_FIRST);
    return EXIT_SUCCESS;
}
