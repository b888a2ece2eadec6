/* The worked calls about lines of include/mihadrena.h, each with the answer that the header gives. */
#include <stdio.h>
#include <stdlib.h>
#include <string.h>

#include "mihadrena.h"

static const uint8_t text[] = "a\n\xce\xbb" "b\n";

static void expect(bool fact, const char *what)
{
    if (!fact) {
        fprintf(stderr, "lines: %s\n", what);
        exit(EXIT_FAILURE);
    }
}

static void whole(void)
{
    uint32_t index[8] = {9, 9, 9, 9, 9, 9, 9, 9};
    uint64_t values[MIHADRENA_LINES_VALUES];
    uint32_t answer = mihadrena_lines(text, 6, index, 2, values, 2);
    expect(answer == MIHADRENA_LINES_NO_ROOM && values[0] == 3 && index[0] == 9, "mihadrena_lines, no room");
    answer = mihadrena_lines(text, 6, index, 8, values, 2);
    expect(answer == MIHADRENA_SERVED && values[0] == 3, "mihadrena_lines");
    expect(index[0] == 0 && index[1] == 2 && index[2] == 6 && index[3] == 9, "the line starts");
    answer = mihadrena_locate(text, 6, index, 3, 4, values, 2);
    expect(answer == MIHADRENA_SERVED && values[0] == 2 && values[1] == 2, "mihadrena_locate");
    answer = mihadrena_locate(text, 6, index, 3, 3, values, 2);
    expect(answer == MIHADRENA_NO_PLACE && values[0] == 3, "mihadrena_locate, inside a character");
    answer = mihadrena_locate(text, 6, index, 2, 4, values, 2);
    expect(answer == MIHADRENA_ALIEN && values[0] == 0, "mihadrena_locate, another index");
    const uint32_t places[2] = {4, 3};
    size_t found[4];
    answer = mihadrena_locate_all(text, 6, index, 3, places, 2, found, 4, values, 2);
    expect(answer == MIHADRENA_SERVED && values[0] == 2, "mihadrena_locate_all");
    expect(found[0] == 2 && found[1] == 2 && found[2] == 0 && found[3] == MIHADRENA_NO_PLACE, "the places");
}

static void pieces(void)
{
    uint32_t state[MIHADRENA_LINES_STATE_WORDS];
    uint32_t index[8];
    uint64_t values[MIHADRENA_LINES_VALUES];
    mihadrena_lines_open(state, 8, index, 8);
    mihadrena_lines_piece(state, 8, text, 3, index, 8);
    mihadrena_lines_piece(state, 8, text + 3, 3, index, 8);
    uint32_t answer = mihadrena_lines_end(state, 8, index, 8, values, 2);
    expect(answer == MIHADRENA_SERVED && values[0] == 3, "mihadrena_lines_end");
    expect(index[0] == 0 && index[1] == 2 && index[2] == 6, "the line starts from pieces");
    mihadrena_lines_piece(state, 8, (const uint8_t *)"\xff", 1, index, 8);
    answer = mihadrena_lines_end(state, 8, index, 8, values, 2);
    expect(answer == MIHADRENA_NOT_UTF8 && values[0] == 6, "mihadrena_lines_end, not UTF-8");
    answer = mihadrena_lines_end(state, 7, index, 8, values, 2);
    expect(answer == MIHADRENA_OUT_OF_BOUNDS && values[0] == 0, "mihadrena_lines_end, no state");
}

int main(void)
{
    whole();
    pieces();
    puts("lines: ok");
    return EXIT_SUCCESS;
}
