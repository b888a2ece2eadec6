/* The bytes of a file, for the examples that read a plan whole. */
#ifndef EXAMPLES_FILE_H
#define EXAMPLES_FILE_H

#include <stdint.h>
#include <stdio.h>
#include <stdlib.h>

/* How much of a file is read at first; twice as much each time that it was not enough. */
#define FIRST_ROOM 65536

/* Reads a file to its end, whatever size it tells: a pipe tells none, and a folder is no text that is empty. Answers its bytes and how many,
 * with room for one more, since a slice's pointer must not be NULL; or NULL if it cannot be read. */
static uint8_t *file_bytes(const char *path, size_t *length)
{
    FILE *file = fopen(path, "rb");
    if (file == NULL)
        return NULL;
    uint8_t *bytes = NULL;
    size_t room = FIRST_ROOM;
    *length = 0;
    for (;;) {
        uint8_t *more = realloc(bytes, room);
        if (more == NULL)
            break;
        bytes = more;
        *length += fread(bytes + *length, 1, room - *length, file);
        if (*length < room) {
            if (ferror(file))
                break;
            fclose(file);
            return bytes;
        }
        room *= 2;
    }
    free(bytes);
    fclose(file);
    return NULL;
}

#endif
