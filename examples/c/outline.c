/* Prints an outline of a plan: a line for each list, indented by its depth, with what stands in it up to the next bracket. What stands
 * behind a list that is closed has a line of its own, as deep as that list. Report mode, comments left out.
 *
 *     outline FILE
 */
#include <stdio.h>
#include <stdlib.h>

#include "mihadrena.h"

/* A plan has fewer bytes here; its items never outnumber them. */
#define LONGEST_PLAN 65536

/* How many blanks a level is indented by. */
#define INDENT 2

static void expect(bool fact, const char *what)
{
    if (!fact) {
        fprintf(stderr, "outline: %s\n", what);
        exit(EXIT_FAILURE);
    }
}

static void print_outline(const mihadrena_record *records, size_t count, const uint8_t *source)
{
    size_t lines = 0;
    bool closed = true;
    uint32_t past = 0;
    for (const mihadrena_record *item = records; item < records + count; item++) {
        bool closes = item->kind == MIHADRENA_CLOSE_PAREN;
        bool begins = !closes && (closed || item->kind == MIHADRENA_OPEN_PAREN);
        if (begins && lines++ > 0)
            putchar('\n');
        if (begins)
            printf("%*s", INDENT * (int)item->depth, "");
        else if (!closes && item->start > past)
            putchar(' ');
        /* the second item of a pair such as +foo has the extent of the first */
        if (!closes && item->start >= past)
            fwrite(source + item->start, 1, item->end - item->start, stdout);
        closed = closes;
        past = item->end;
    }
    if (lines > 0)
        putchar('\n');
}

int main(int count, char **words)
{
    static uint8_t source[LONGEST_PLAN], text[LONGEST_PLAN];
    static mihadrena_record records[LONGEST_PLAN];
    uint64_t values[MIHADRENA_READ_VALUES];
    expect(count == 2, "usage: outline FILE");
    FILE *file = fopen(words[1], "rb");
    expect(file != NULL, "cannot open the file");
    size_t length = fread(source, 1, sizeof source, file);
    expect(!ferror(file), "cannot read the file");
    expect(length < sizeof source, "the file is too long");
    fclose(file);
    uint32_t answer = mihadrena_read(source, length, MIHADRENA_REPORT, true, (uint32_t *)records, LONGEST_PLAN * MIHADRENA_RECORD_WORDS,
                                     text, sizeof text, values, MIHADRENA_READ_VALUES);
    expect(answer == MIHADRENA_SERVED, "mihadrena_read");
    print_outline(records, (size_t)values[0], source);
    return EXIT_SUCCESS;
}
