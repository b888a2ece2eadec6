/* Reads a text as often as is said: whole, in ample memory or in a byte of text memory less, or in pieces. What one reading costs is the
 * difference of two runs.
 *
 *     once FILE ample|counted|BYTES-OF-A-PIECE TIMES
 */
#include <stdio.h>
#include <stdlib.h>
#include <string.h>

#include "mihadrena.h"

enum { LONGEST = 1 << 17 };

static uint8_t source[LONGEST];
static uint8_t text[LONGEST];
static uint32_t records[LONGEST * MIHADRENA_RECORD_WORDS];
static size_t length;

/* How many items the whole text has. */
static size_t whole(size_t room)
{
    uint64_t values[MIHADRENA_READ_VALUES];
    uint32_t answer = mihadrena_read(source, length, MIHADRENA_PLAIN, false, records, length * MIHADRENA_RECORD_WORDS, text, room, values,
                                     MIHADRENA_READ_VALUES);
    return answer == MIHADRENA_SERVED ? (size_t)values[0] : 0;
}

/* How many items the text has in pieces of so many bytes. */
static size_t in_pieces(size_t size)
{
    static mihadrena_state state;
    mihadrena_record record;
    mihadrena_told told;
    size_t items = 0, at = 0;
    uint32_t answer = mihadrena_state_open(&state, MIHADRENA_PLAIN, false);
    while (answer != MIHADRENA_FINISHED && answer < MIHADRENA_TOO_LONG) {
        size_t left = length - at < size - at % size ? length - at : size - at % size;
        answer = at < length ? mihadrena_state_piece(&state, source + at, left, text, MIHADRENA_PIECE_TEXT, &record, &told)
                             : mihadrena_state_end(&state, text, MIHADRENA_PIECE_TEXT, &record, &told);
        at += told.taken;
        items += answer == MIHADRENA_ITEM;
    }
    return answer == MIHADRENA_FINISHED ? items : 0;
}

int main(int words, char **word)
{
    FILE *file = words == 4 ? fopen(word[1], "rb") : NULL;
    if (file == NULL)
        return EXIT_FAILURE;
    length = fread(source, 1, LONGEST, file);
    fclose(file);
    size_t items = 0;
    for (int left = atoi(word[3]); left > 0; left--)
        items = strcmp(word[2], "ample") == 0     ? whole(length)
                : strcmp(word[2], "counted") == 0 ? whole(length - 1)
                                                  : in_pieces(strtoul(word[2], NULL, 10));
    printf("%zu %zu\n", length, items);
    return EXIT_SUCCESS;
}
