/* Lists the items of a plan one by one, with memory for one item: its kind, its extent and its text, indented by its depth. Text memory
 * grows where an item needs more: the reader stays at that item until its text fits. Report mode, comments kept.
 *
 *     reader FILE
 */
#include <inttypes.h>
#include <stdio.h>
#include <stdlib.h>
#include <string.h>

#include "file.h"
#include "mihadrena_plan.h"

static void fail(const char *what)
{
    fprintf(stderr, "reader: %s\n", what);
    exit(EXIT_FAILURE);
}

static void print_item(const mihadrena_record *record, const uint8_t *source, size_t source_length, const uint8_t *text,
                       size_t text_length)
{
    printf("%*s%" PRIu32 " %" PRIu32 "..%" PRIu32, (int)(2 * record->depth), "", record->kind, record->start, record->end);
    const uint8_t *part = mihadrena_text(record, source, source_length, text, text_length);
    if (part != NULL) {
        putchar(' ');
        fwrite(part, 1, record->text_end - record->text_start, stdout);
    }
    putchar('\n');
}

int main(int count, char **words)
{
    if (count != 2)
        fail("usage: reader FILE");
    size_t length;
    uint8_t *source = file_bytes(words[1], &length);
    if (source == NULL)
        fail("cannot read the file");
    mihadrena_reader reader;
    memset(&reader, 0, sizeof reader);
    reader.source = source;
    reader.source_length = length;
    reader.text = malloc(1);
    size_t items = 0;
    uint32_t answer = mihadrena_reader_start(&reader, MIHADRENA_REPORT, false);
    while (answer == MIHADRENA_SERVED || answer == MIHADRENA_ITEM || answer == MIHADRENA_TOO_FEW) {
        if (answer == MIHADRENA_TOO_FEW) {
            reader.text_room = (size_t)reader.values[1];
            reader.text = realloc(reader.text, reader.text_room);
        }
        if (reader.text == NULL)
            fail("no memory");
        answer = mihadrena_reader_step(&reader);
        if (answer == MIHADRENA_ITEM) {
            print_item(&reader.record, source, length, reader.text, reader.text_room);
            items++;
        }
    }
    if (answer != MIHADRENA_FINISHED)
        printf("refused %" PRIu32 " %" PRIu64 "\n", answer, reader.values[0]);
    else
        printf("end %zu, text memory of %zu bytes\n", items, reader.text_room);
    free(reader.text);
    free(source);
    return EXIT_SUCCESS;
}
