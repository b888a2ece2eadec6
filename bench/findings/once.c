/* Reads a plan and does so many times what the second word says: `find`, or `read`, which is mihadrena_read, mihadrena_nest and
 * mihadrena_lines. Prints how many findings, or items, nodes and lines there are. */
#include "mihadrena.h"

#include <stdio.h>
#include <stdlib.h>
#include <string.h>

int main(int count, char **words)
{
    if (count != 4) return 2;
    FILE *file = fopen(words[1], "rb");
    if (!file || fseek(file, 0, SEEK_END)) return 2;
    size_t length = (size_t)ftell(file);
    rewind(file);
    uint8_t *plan = malloc(length + 1), *text = malloc(length + 1);
    uint32_t *records = malloc((length + 1) * 4 * MIHADRENA_RECORD_WORDS), *nodes = malloc((length + 1) * 4 * MIHADRENA_NODE_WORDS);
    uint32_t *index = malloc((length + 1) * 4), findings[100 * MIHADRENA_FINDING_WORDS];
    if (!plan || !text || !records || !nodes || !index || fread(plan, 1, length, file) != length) return 2;
    uint64_t items[2] = {0, 0}, tree = 0, lines[2] = {0, 0};
    for (int times = atoi(words[3]); times > 0; times--) {
        if (!strcmp(words[2], "find")) {
            if (mihadrena_find(plan, length, records, length * MIHADRENA_RECORD_WORDS, findings, 100 * MIHADRENA_FINDING_WORDS, items, 2))
                return 1;
        } else {
            if (mihadrena_read(plan, length, MIHADRENA_REPORT, true, records, length * MIHADRENA_RECORD_WORDS, text, length, items, 2))
                return 1;
            mihadrena_nest(records, (size_t)items[0] * MIHADRENA_RECORD_WORDS, nodes, length * MIHADRENA_NODE_WORDS, &tree, 1);
            mihadrena_lines(plan, length, index, length + 1, lines, 2);
        }
    }
    printf("%lu %lu %lu\n", (unsigned long)items[0], (unsigned long)tree, (unsigned long)lines[0]);
    return 0;
}
