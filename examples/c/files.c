/* Stores a plan's items, so that a terminal need not read the plan again at its next start, and loads them.
 *
 *     files store PLAN STORE    reads the plan in report mode and writes the store
 *     files show PLAN STORE     lists the items of the store; refused if the plan is no longer the one that was stored
 *
 * A store has what docs/ITEMFILE.md names: three numbers of eight bytes, lowest byte first (how long the plan is, a checksum of its bytes,
 * how long the text memory is), the text memory, and the item file up to the end. The plan itself stays where it is. */
#include <inttypes.h>
#include <stdbool.h>
#include <stdio.h>
#include <stdlib.h>
#include <string.h>

#include "file.h"
#include "mihadrena.h"

enum { NUMBERS = 3, NUMBER_BYTES = 8, HEAD = NUMBERS * NUMBER_BYTES };

static void expect(bool fact, const char *what)
{
    if (!fact) {
        fprintf(stderr, "files: %s\n", what);
        exit(EXIT_FAILURE);
    }
}

/* Memory for so many pieces of a size and one more: a slice's pointer must not be NULL. */
static void *room(size_t count, size_t size)
{
    void *memory = calloc(count + 1, size);
    expect(memory != NULL, "no memory");
    return memory;
}

/* FNV-1a: it tells an edited plan, not a forged one. */
static uint64_t checksum(const uint8_t *bytes, size_t length)
{
    uint64_t sum = UINT64_C(0xcbf29ce484222325);
    for (size_t i = 0; i < length; i++)
        sum = (sum ^ bytes[i]) * UINT64_C(0x100000001b3);
    return sum;
}

static void put_number(uint8_t *bytes, uint64_t number)
{
    for (int i = 0; i < NUMBER_BYTES; i++, number >>= 8)
        bytes[i] = (uint8_t)number;
}

static uint64_t number_in(const uint8_t *bytes)
{
    uint64_t number = 0;
    for (int i = NUMBER_BYTES; i-- > 0;)
        number = number << 8 | bytes[i];
    return number;
}

static void store(const uint8_t *plan, size_t length, const char *path)
{
    uint64_t needed[MIHADRENA_READ_VALUES], values[MIHADRENA_ITEMS_VALUES];
    uint32_t none[1];
    uint8_t nothing[1];
    uint32_t answer = mihadrena_read(plan, length, MIHADRENA_REPORT, false, none, 0, nothing, 0, needed, MIHADRENA_READ_VALUES);
    expect(answer == MIHADRENA_SERVED || answer == MIHADRENA_TOO_FEW, "the plan is not read");
    size_t words = needed[0] * MIHADRENA_RECORD_WORDS, texts = needed[1];
    uint32_t *records = room(words, sizeof *records);
    uint8_t *text = room(texts, 1);
    answer = mihadrena_read(plan, length, MIHADRENA_REPORT, false, records, words, text, texts, needed, MIHADRENA_READ_VALUES);
    expect(answer == MIHADRENA_SERVED, "the plan is not read");
    size_t most = needed[0] * MIHADRENA_ITEM_FILE_BYTES;
    uint8_t *items = room(most, 1);
    answer = mihadrena_items_write(records, words, items, most, values, MIHADRENA_ITEMS_VALUES);
    expect(answer == MIHADRENA_SERVED, "a plan that was read can be stored");

    uint8_t head[HEAD];
    put_number(head, length);
    put_number(head + NUMBER_BYTES, checksum(plan, length));
    put_number(head + 2 * NUMBER_BYTES, texts);
    FILE *out = fopen(path, "wb");
    expect(out != NULL, "the store is not opened");
    bool written = fwrite(head, 1, HEAD, out) == HEAD && fwrite(text, 1, texts, out) == texts
                   && fwrite(items, 1, values[0], out) == values[0];
    expect(fclose(out) == 0 && written, "the store is not written");
    printf("%" PRIu64 " items of %zu bytes: %" PRIu64 " bytes, and %zu of text\n", needed[0], length, values[0], texts);
    free(records);
    free(text);
    free(items);
}

static void show(const uint8_t *plan, size_t length, const char *path)
{
    size_t size;
    uint8_t *bytes = file_bytes(path, &size);
    expect(bytes != NULL && size >= HEAD, "the store is not read");
    bool same = number_in(bytes) == length && number_in(bytes + NUMBER_BYTES) == checksum(plan, length);
    expect(same, "the plan has changed since it was stored");
    uint64_t texts = number_in(bytes + 2 * NUMBER_BYTES);
    expect(texts <= size - HEAD, "the store is cut short");
    const uint8_t *text = bytes + HEAD, *items = text + texts;
    size_t items_length = size - HEAD - texts;

    /* An item has ten numbers of a byte or more each. */
    size_t most = items_length / MIHADRENA_RECORD_WORDS;
    mihadrena_record *records = room(most, sizeof *records);
    uint64_t values[MIHADRENA_ITEMS_VALUES];
    uint32_t answer = mihadrena_items_read(items, items_length, (uint32_t *)records, most * MIHADRENA_RECORD_WORDS, values,
                                           MIHADRENA_ITEMS_VALUES);
    if (answer != MIHADRENA_SERVED) {
        fprintf(stderr, "files: refused %" PRIu32 " at number %" PRIu64 "\n", answer, values[0]);
        exit(EXIT_FAILURE);
    }
    /* A store may be anyone's: no record is used that lies outside the plan and its text memory. */
    bool fit = mihadrena_records_fit((const uint32_t *)records, values[0] * MIHADRENA_RECORD_WORDS, length, texts);
    expect(fit, "the store's records lie outside the plan");
    for (uint64_t i = 0; i < values[0]; i++) {
        const uint8_t *part = mihadrena_text(&records[i], plan, length, text, texts);
        printf("%" PRIu32 " %" PRIu32 " %" PRIu32, records[i].kind, records[i].start, records[i].end);
        if (part != NULL) {
            putchar(' ');
            fwrite(part, 1, records[i].text_end - records[i].text_start, stdout);
        }
        putchar('\n');
    }
    free(records);
    free(bytes);
}

int main(int count, char **words)
{
    bool stores = count == 4 && strcmp(words[1], "store") == 0;
    expect(stores || (count == 4 && strcmp(words[1], "show") == 0), "store PLAN STORE, or show PLAN STORE");
    size_t length;
    uint8_t *plan = file_bytes(words[2], &length);
    expect(plan != NULL, "the plan is not read");
    (stores ? store : show)(plan, length, words[3]);
    free(plan);
    return EXIT_SUCCESS;
}
