/* Lists the numbers of a plan, each with its extent and its coordinate; a number that has none, as 101 and 1/6, with the refusal's number.
 * The worked calls of include/mihadrena.h, "Coordinates", come first. */
#include <inttypes.h>
#include <stdio.h>
#include <stdlib.h>
#include <string.h>

#include "mihadrena.h"

#define MOST 65536

static uint8_t source[MOST];
static mihadrena_record records[MOST];
static uint8_t text[MOST];

static void expect(bool fact, const char *what)
{
    if (!fact) {
        fprintf(stderr, "coordinate: %s\n", what);
        exit(EXIT_FAILURE);
    }
}

static void worked_calls(void)
{
    double value = 1.0;
    uint64_t place = 7;
    uint32_t answer = mihadrena_coordinate((const uint8_t *)"6892014.7", 9, &value, &place);
    expect(answer == MIHADRENA_SERVED && value == 6892014.7 && place == 7, "a value");
    answer = mihadrena_coordinate((const uint8_t *)"12", 2, &value, &place);
    expect(answer == MIHADRENA_NO_COORDINATE && value == 6892014.7 && place == 0, "no decimal");
    answer = mihadrena_coordinate((const uint8_t *)"1.\xff", 3, &value, &place);
    expect(answer == MIHADRENA_NOT_UTF8 && place == 2, "no text");
    answer = mihadrena_record_coordinate((const uint8_t *)"(1.5)", 5, MIHADRENA_NUMBER, 1, 4, &value, &place);
    expect(answer == MIHADRENA_SERVED && value == 1.5, "a record's value");
    answer = mihadrena_record_coordinate((const uint8_t *)"(1.5)", 5, MIHADRENA_NUMBER, 1, 6, &value, &place);
    expect(answer == MIHADRENA_OUT_OF_BOUNDS && value == 1.5 && place == 0, "an extent past the source");
}

int main(int count, char **words)
{
    expect(count == 2, "a file is to be named");
    worked_calls();
    FILE *file = fopen(words[1], "rb");
    expect(file != NULL, "the file is not opened");
    size_t length = fread(source, 1, sizeof source, file);
    expect(feof(file) && fclose(file) == 0, "the file is not read");
    uint64_t values[MIHADRENA_READ_VALUES];
    uint32_t answer = mihadrena_read(source, length, MIHADRENA_REPORT, true, (uint32_t *)records, MOST * MIHADRENA_RECORD_WORDS,
                                     text, sizeof text, values, MIHADRENA_READ_VALUES);
    expect(answer == MIHADRENA_SERVED, "the plan is not read");
    for (uint64_t i = 0; i < values[0]; i++) {
        if (records[i].kind != MIHADRENA_NUMBER)
            continue;
        double value;
        uint64_t place;
        answer = mihadrena_coordinate_of(&records[i], source, length, &value, &place);
        printf("%" PRIu32 "..%" PRIu32 " ", records[i].start, records[i].end);
        if (answer == MIHADRENA_SERVED)
            printf("%.3f\n", value);
        else
            printf("refused %" PRIu32 "\n", answer);
    }
    return EXIT_SUCCESS;
}
