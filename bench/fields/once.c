/* Reads a text that is one part many times over, as often as is said: as a whole, its parts in one call, or in a call for each. What one
 * reading costs is the difference of two runs.
 *
 *     once PART COUNT whole|fields|single TIMES
 */
#include <stdio.h>
#include <stdlib.h>
#include <string.h>

#include "mihadrena.h"

enum { LONGEST_PART = 64, MOST_PARTS = 1 << 12, LONGEST = LONGEST_PART * MOST_PARTS };

static uint8_t source[LONGEST];
static uint8_t text[LONGEST];
static uint32_t ends[MOST_PARTS];
static uint32_t rows[MOST_PARTS * MIHADRENA_ROW_WORDS];
static uint32_t records[LONGEST * MIHADRENA_RECORD_WORDS];
static uint64_t values[MIHADRENA_FIELDS_VALUES];
static uint64_t items;

static uint32_t whole(size_t length)
{
    uint32_t answer = mihadrena_read(source, length, MIHADRENA_REPORT, false, records, LONGEST * MIHADRENA_RECORD_WORDS, text, LONGEST,
                                     values, MIHADRENA_READ_VALUES);
    items = values[0];
    return answer;
}

static uint32_t fields(size_t length, size_t count)
{
    uint32_t answer = mihadrena_read_fields(source, length, ends, count, MIHADRENA_REPORT, false, rows, MOST_PARTS * MIHADRENA_ROW_WORDS,
                                            records, LONGEST * MIHADRENA_RECORD_WORDS, text, LONGEST, values, MIHADRENA_FIELDS_VALUES);
    items = values[0];
    return answer;
}

static uint32_t single(size_t part, size_t count)
{
    uint64_t bytes = 0;
    items = 0;
    for (size_t i = 0; i < count; i++) {
        uint32_t answer = mihadrena_read(source + part * i, part, MIHADRENA_REPORT, false, records + MIHADRENA_RECORD_WORDS * items,
                                         (LONGEST - items) * MIHADRENA_RECORD_WORDS, text + bytes, LONGEST - bytes, values,
                                         MIHADRENA_READ_VALUES);
        if (answer != MIHADRENA_SERVED)
            return answer;
        items += values[0];
        bytes += values[1];
    }
    return MIHADRENA_SERVED;
}

int main(int words, char **word)
{
    size_t part = words == 5 ? strlen(word[1]) : 0, count = words == 5 ? strtoul(word[2], NULL, 10) : 0;
    if (part == 0 || part > LONGEST_PART || count > MOST_PARTS)
        return EXIT_FAILURE;
    for (size_t i = 0; i < count; i++) {
        memcpy(source + part * i, word[1], part);
        ends[i] = (uint32_t)(part * (i + 1));
    }
    uint32_t answer = MIHADRENA_SERVED;
    for (int left = atoi(word[4]); answer == MIHADRENA_SERVED && left > 0; left--)
        answer = strcmp(word[3], "whole") == 0    ? whole(part * count)
                 : strcmp(word[3], "fields") == 0 ? fields(part * count, count)
                                                  : single(part, count);
    printf("answer %u, %zu items\n", (unsigned)answer, (size_t)items);
    return EXIT_SUCCESS;
}
