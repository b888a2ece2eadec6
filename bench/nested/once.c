/* Reads a file once and builds its nodes as often as is said: what one building costs is the difference of two runs. With --stack it builds them once and
 * says how many bytes of stack that took.
 *
 *     once FILE TIMES
 *     once FILE --stack
 */
#define _XOPEN_SOURCE 700
#include <pthread.h>
#include <stdio.h>
#include <stdlib.h>
#include <string.h>

#include "mihadrena.h"

enum { LONGEST_FILE = 1 << 20, STACK = 1 << 20, PAINT = 0xA5 };

static uint8_t source[LONGEST_FILE];
static uint8_t text[LONGEST_FILE];
static mihadrena_record records[LONGEST_FILE];
static mihadrena_node nodes[LONGEST_FILE];
static uint64_t values[MIHADRENA_READ_VALUES];
static _Alignas(4096) uint8_t stack[STACK];
static uint64_t items;
static uint32_t answer;

static void *build(void *times)
{
    for (int left = *(int *)times; answer == MIHADRENA_SERVED && left > 0; left--)
        answer = mihadrena_nest((const uint32_t *)records, items * MIHADRENA_RECORD_WORDS, (uint32_t *)nodes, items * MIHADRENA_NODE_WORDS,
                                values, MIHADRENA_NEST_VALUES);
    return NULL;
}

/* Builds on a stack that is painted before, and says how much of it no longer has the paint. */
static size_t stack_used(int times)
{
    pthread_attr_t own;
    pthread_t thread;
    memset(stack, PAINT, sizeof stack);
    if (pthread_attr_init(&own) != 0 || pthread_attr_setstack(&own, stack, sizeof stack) != 0 || pthread_create(&thread, &own, build, &times) != 0)
        abort();
    pthread_join(thread, NULL);
    size_t clean = 0;
    while (clean < sizeof stack && stack[clean] == PAINT)
        clean++;
    return sizeof stack - clean;
}

int main(int count, char **words)
{
    FILE *file = count == 3 ? fopen(words[1], "rb") : NULL;
    if (file == NULL)
        return EXIT_FAILURE;
    size_t length = fread(source, 1, sizeof source, file);
    if (ferror(file))
        return EXIT_FAILURE;
    answer = mihadrena_read(source, length, MIHADRENA_PLAIN, false, (uint32_t *)records, LONGEST_FILE * MIHADRENA_RECORD_WORDS, text,
                            sizeof text, values, MIHADRENA_READ_VALUES);
    items = values[0];
    if (strcmp(words[2], "--stack") == 0) {
        printf("%zu\n", stack_used(1) - stack_used(0));
        return EXIT_SUCCESS;
    }
    int times = atoi(words[2]);
    build(&times);
    printf("answer %u, %zu bytes, %zu records, %zu nodes\n", (unsigned)answer, length, (size_t)items, (size_t)values[0]);
    return EXIT_SUCCESS;
}
