/* Replays the Rust's answers of crates/replay/data on the archive's whole-text call: `replay FILE` compares the answer's number and values,
 * every word of every record and the text memory, and prints how many it replayed. `replay FILE texts` writes the texts of the file
 * instead, in compare/gen's frames. compare/replay/src/frame.rs says how the file is laid out; what is told of the piece calls alone is
 * passed over. */
#include "mihadrena.h"
#include <stdio.h>
#include <stdlib.h>
#include <string.h>

enum { HEAD = 22, ESCAPE = 255, LONGEST = 1 << 16, WHOLE_TEXT = 1, VALUE = 14 };

static uint8_t head[HEAD], source[LONGEST], spelled[LONGEST], memory[LONGEST], text[LONGEST];
static uint32_t words[LONGEST], records[LONGEST];

static size_t number_at(const uint8_t *from, size_t bytes)
{
    size_t number = 0;
    for (size_t i = bytes; i > 0; i--) {
        number = number << 8 | from[i - 1];
    }
    return number;
}

static void take(FILE *file, void *to, size_t bytes)
{
    if (fread(to, 1, bytes, file) != bytes) {
        fprintf(stderr, "replay: the file is cut\n");
        exit(1);
    }
}

/* The words of the records, of which each below ESCAPE is a byte, and how many there are. */
static size_t told_words(size_t bytes)
{
    size_t count = 0;
    for (size_t at = 0; at < bytes; count++) {
        bool long_one = spelled[at] == ESCAPE;
        words[count] = (uint32_t)(long_one ? number_at(spelled + at + 1, 4) : spelled[at]);
        at += long_one ? 5 : 1;
    }
    return count;
}

/* Whether the archive answers what is told of the text that was read last. */
static bool alike(size_t length, size_t count, size_t bytes)
{
    uint64_t values[MIHADRENA_READ_VALUES] = {0, 0};
    uint32_t answer = mihadrena_read(source, length, head[1], head[0] == 1, records, number_at(head + 10, 2), text, number_at(head + 12, 2),
                                     values, MIHADRENA_READ_VALUES);
    return answer == head[3] && values[0] == number_at(head + VALUE, 4) && values[1] == number_at(head + VALUE + 4, 4) &&
           memcmp(records, words, count * sizeof words[0]) == 0 && memcmp(text, memory, bytes) == 0;
}

int main(int count, char **word)
{
    FILE *file = count > 1 ? fopen(word[1], "rb") : NULL;
    size_t replayed = 0;
    if (file == NULL) {
        perror("replay");
        return 1;
    }
    while (fread(head, 1, HEAD, file) == HEAD) {
        size_t length = number_at(head + 4, 2), spelled_bytes = number_at(head + 6, 2), bytes = number_at(head + 8, 2);
        take(file, source, length);
        take(file, spelled, spelled_bytes);
        take(file, memory, bytes);
        if (count > 2) {
            const uint8_t frame[4] = {head[4], head[5], 0, 0};
            fwrite(frame, 1, sizeof frame, stdout);
            fwrite(source, 1, length, stdout);
        } else if ((head[2] & WHOLE_TEXT) != 0) {
            if (!alike(length, told_words(spelled_bytes), bytes)) {
                fprintf(stderr, "replay: another answer than the Rust's, to %.*s\n", (int)length, (const char *)source);
                return 1;
            }
            replayed++;
        }
    }
    fclose(file);
    if (count == 2) printf("%zu answers of the Rust replayed\n", replayed);
    return 0;
}
