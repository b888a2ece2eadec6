/* A libFuzzer target over every call of the header. An input's first bytes choose the call and the sizes of what it is lent; the rest is the
 * text, the records, the file, the state or the table that it is given, forged ones among them. Lent memory lies between canaries, and what
 * a call only reads must be as it was. */
#include "mihadrena.h"
#include <stdio.h>
#include <stdlib.h>
#include <string.h>

/* Canaries on each side of lent memory, the most bytes that a call is lent together, and the most slices. */
enum { CANARY = 64, MOST = 1 << 20, SLICES = 16, FILL = 0x5A };

/* What is left of the input. */
static const uint8_t *input;
static size_t left;

static uint8_t arena[MOST];
static size_t used;
static struct {
    size_t start, bytes;
    const uint8_t *kept; /* what it must still hold, or NULL if the call may write there */
} slices[SLICES];
static size_t lent;

static void fail(const char *what)
{
    fprintf(stderr, "calls: %s\n", what);
    abort();
}

static size_t number_below(size_t bound)
{
    size_t number = 0;
    for (int i = 0; i < 3 && left > 0; i++, left--) {
        number = number << 8 | *input++;
    }
    return number % bound;
}

static uint8_t *slice(size_t bytes, const uint8_t *kept)
{
    used = (used + CANARY + 7) / 8 * 8;
    if (lent == SLICES || used + bytes + CANARY > MOST) {
        fail("the arena is too small");
    }
    slices[lent].start = used;
    slices[lent].bytes = bytes;
    slices[lent].kept = kept;
    used += bytes;
    return arena + slices[lent++].start;
}

/* Memory that the call may write to, filled with what is left of the input as far as it goes. */
static void *writable(size_t bytes)
{
    uint8_t *memory = slice(bytes, NULL);
    memset(memory, FILL, bytes);
    size_t taken = bytes < left ? bytes : left;
    memcpy(memory, input, taken);
    return memory;
}

/* A part of the input that the call only reads. */
static const void *readable(size_t bytes)
{
    uint8_t *memory = slice(bytes, input);
    memcpy(memory, input, bytes);
    input += bytes;
    left -= bytes;
    return memory;
}

/* At most so many bytes of what is left once they were counted. */
static size_t some(size_t most)
{
    size_t number = number_below(1 << 24);
    return number % ((most < left ? most : left) + 1);
}

static void look(void)
{
    for (size_t i = 0, from = 0; i < lent; i++) {
        for (; from < slices[i].start; from++) {
            if (arena[from] != FILL) {
                fail("a byte before lent memory was written");
            }
        }
        if (slices[i].kept != NULL && memcmp(arena + slices[i].start, slices[i].kept, slices[i].bytes) != 0) {
            fail("memory that is only read was written");
        }
        from += slices[i].bytes;
    }
    for (size_t from = used; from < used + CANARY; from++) {
        if (arena[from] != FILL) {
            fail("a byte behind lent memory was written");
        }
    }
}

static void call_read(void)
{
    uint32_t mode = (uint32_t)number_below(3), skip = (uint32_t)number_below(2);
    size_t records = number_below(2048), text = number_below(2048), bytes = left;
    const uint8_t *source = readable(bytes);
    mihadrena_read(source, bytes, mode, skip, writable(4 * records), records, writable(text), text, writable(16), 2);
}

static void call_fields(void)
{
    uint32_t mode = (uint32_t)number_below(3), skip = (uint32_t)number_below(2);
    size_t ends = some(left / 8), rows = number_below(256), records = number_below(2048), text = number_below(2048);
    uint32_t *wanted = writable(4 * ends);
    for (size_t i = 0; i < ends; i++) {
        wanted[i] = (uint32_t)number_below(512);
    }
    size_t bytes = left;
    const uint8_t *source = readable(bytes);
    mihadrena_read_fields(source, bytes, wanted, ends, mode, skip, writable(4 * rows), rows, writable(4 * records), records,
                          writable(text), text, writable(16), 2);
}

/* A state that was opened, or a forged one; some pieces, then the end. */
static void call_pieces(void)
{
    uint8_t *bytes = writable(MIHADRENA_STATE_BYTES), *text = writable(MIHADRENA_PIECE_TEXT);
    uint64_t *words = writable(8 * MIHADRENA_STATE_WORDS), *values = writable(16);
    uint32_t *record = writable(4 * MIHADRENA_RECORD_WORDS);
    if (number_below(4) > 0) {
        mihadrena_open((uint32_t)number_below(3), number_below(2), bytes, MIHADRENA_STATE_BYTES, words, MIHADRENA_STATE_WORDS);
    } else {
        for (size_t i = 0; i < MIHADRENA_STATE_WORDS; i++) {
            words[i] = number_below(64);
        }
    }
    size_t size = 1 + number_below(64), room = number_below(8) > 0 ? MIHADRENA_PIECE_TEXT : number_below(MIHADRENA_PIECE_TEXT);
    size_t all = left;
    const uint8_t *source = readable(all);
    for (size_t at = 0; at < all;) {
        size_t piece = all - at < size ? all - at : size;
        uint32_t answer = mihadrena_piece(bytes, MIHADRENA_STATE_BYTES, words, MIHADRENA_STATE_WORDS, source + at, piece, text, room,
                                          record, MIHADRENA_RECORD_WORDS, values, 2);
        at += values[1];
        if (answer >= MIHADRENA_TOO_LONG) {
            break;
        }
    }
    mihadrena_end(bytes, MIHADRENA_STATE_BYTES, words, MIHADRENA_STATE_WORDS, text, room, record, MIHADRENA_RECORD_WORDS, values, 2);
}

static void call_reader(void)
{
    uint64_t *position = writable(8 * MIHADRENA_READER_WORDS), *values = writable(16);
    uint32_t *record = writable(4 * MIHADRENA_RECORD_WORDS);
    size_t room = number_below(512), turns = number_below(64);
    uint8_t *text = writable(room);
    uint32_t mode = (uint32_t)number_below(3), opened = (uint32_t)number_below(3);
    size_t bytes = left;
    const uint8_t *source = readable(bytes);
    if (opened > 0) {
        mihadrena_reader_open(source, bytes, mode, opened == 2, position, MIHADRENA_READER_WORDS, values, 2);
    }
    while (turns-- > 0) {
        mihadrena_reader_next(source, bytes, position, MIHADRENA_READER_WORDS, text, room, record, MIHADRENA_RECORD_WORDS, values, 2);
    }
}

static void call_numbers(void)
{
    uint32_t choice = (uint32_t)number_below(4), words = (uint32_t)number_below(32);
    uint64_t *place = writable(8);
    double *value = writable(8);
    uint32_t kind = (uint32_t)number_below(40), start = (uint32_t)number_below(64), end = (uint32_t)number_below(64);
    size_t at = number_below(64), room = number_below(8), code = number_below(0x120000), bytes = left;
    const uint8_t *text = readable(bytes);
    uint64_t *parts = writable(8 * words);
    mihadrena_number(text, bytes, parts, words);
    mihadrena_number_by(choice, text, bytes, parts, words);
    mihadrena_coordinate(text, bytes, value, place);
    mihadrena_record_coordinate(text, bytes, kind, start, end, value, place);
    mihadrena_record_value(text, bytes, kind, start, end, value, place);
    mihadrena_version();
    mihadrena_text_mark(text, bytes, text, bytes, kind % 4, start, end);
    mihadrena_good_bytes(text, bytes);
    mihadrena_code_at(text, bytes, at);
    mihadrena_next_at(text, bytes, at);
    mihadrena_is_blank((uint32_t)code);
    mihadrena_put_char((uint32_t)code, writable(room), room);
}

static void call_lines(void)
{
    size_t index = number_below(256), places = number_below(32), found = number_below(128), bytes;
    uint32_t *starts = writable(4 * index), *state = writable(4 * MIHADRENA_LINES_STATE_WORDS), *asked = writable(4 * places);
    uint64_t *values = writable(16);
    size_t *told = writable(sizeof(size_t) * found), place = number_below(512), piece = number_below(64);
    if (number_below(2) > 0) {
        mihadrena_lines_open(state, MIHADRENA_LINES_STATE_WORDS, starts, index);
    }
    bytes = left;
    const uint8_t *text = readable(bytes);
    mihadrena_lines_piece(state, MIHADRENA_LINES_STATE_WORDS, text, piece < bytes ? piece : bytes, starts, index);
    mihadrena_lines_end(state, MIHADRENA_LINES_STATE_WORDS, starts, index, values, 2);
    uint32_t answer = mihadrena_lines(text, bytes, starts, index, values, 2);
    size_t count = answer == MIHADRENA_SERVED ? values[0] : index;
    mihadrena_locate(text, bytes, starts, count, place, values, 2);
    mihadrena_locate_all(text, bytes, starts, count, asked, places, told, found, values, 2);
}

/* Records that are forged: small numbers, so that many lie in what is lent. */
static void call_records(void)
{
    size_t records = number_below(400), nodes = number_below(256), out = number_below(4096), stored = number_below(4096);
    uint32_t *words = writable(4 * records);
    for (size_t i = 0; i < records; i++) {
        words[i] = (uint32_t)number_below(i % MIHADRENA_RECORD_WORDS == 0 ? 120 : 64);
    }
    size_t text = some(64), source = left - text;
    const uint8_t *memory = readable(text), *from = readable(source);
    uint64_t *values = writable(16);
    mihadrena_nest(words, records, writable(4 * nodes), nodes, values, 1);
    mihadrena_write(words, records, from, source, memory, text, writable(out), out, values, 1);
    mihadrena_items_write(words, records, writable(stored), stored, values, 1);
    mihadrena_records_fit(words, records, source, text);
    if (mihadrena_opener(words, records, records) > records / MIHADRENA_RECORD_WORDS) {
        fail("an opener that is no record");
    }
}

/* Nodes that are forged: what is answered is a node behind the one that was asked about, or how many there are. */
static void call_nodes(void)
{
    size_t words = number_below(256), nodes = words / MIHADRENA_NODE_WORDS, at = number_below(96), within = number_below(96);
    uint32_t *forged = writable(4 * words);
    for (size_t i = 0; i < words; i++) {
        forged[i] = (uint32_t)number_below(number_below(8) == 0 ? (size_t)1 << 24 : 16);
    }
    const size_t told[] = {mihadrena_first_child(forged, words, at), mihadrena_next_sibling(forged, words, within, at)};
    for (size_t i = 0; i < 2; i++) {
        if (told[i] != nodes && (told[i] > nodes || told[i] <= at)) {
            fail("a node that does not follow");
        }
    }
    mihadrena_opener(forged, words, at);
}

static void call_file(void)
{
    size_t records = number_below(1024), bytes = left;
    const uint8_t *file = readable(bytes);
    mihadrena_items_read(file, bytes, writable(4 * records), records, writable(8), 1);
}

static void call_names(void)
{
    uint32_t *words = writable(4 * MIHADRENA_NAMES_WORDS), *number = writable(4);
    uint8_t *bytes = writable(MIHADRENA_NAMES_BYTES);
    size_t *places = writable(2 * sizeof(size_t));
    if (number_below(4) > 0) {
        mihadrena_names_open(words, MIHADRENA_NAMES_WORDS, bytes, MIHADRENA_NAMES_BYTES);
    }
    for (size_t turns = 0; turns < 8; turns++) {
        uint32_t party = (uint32_t)number_below(3);
        size_t length = some(24);
        const uint8_t *name = readable(length);
        mihadrena_names_enter(words, MIHADRENA_NAMES_WORDS, bytes, MIHADRENA_NAMES_BYTES, party, name, length, number);
    }
    mihadrena_names_place(words, MIHADRENA_NAMES_WORDS, bytes, MIHADRENA_NAMES_BYTES, (uint32_t)number_below(1100), places, places + 1);
}

/* A finding's places lie in its text, and findings come in the order of their places. A forged finding is rendered too. */
static void call_find(void)
{
    size_t records = number_below(16384), room = number_below(128), out = number_below(2048);
    uint32_t style = (uint32_t)number_below(4), colour = (uint32_t)number_below(2), forged = (uint32_t)number_below(64);
    size_t called = some(16);
    const uint8_t *name = readable(called);
    size_t bytes = left;
    const uint8_t *plan = readable(bytes);
    uint32_t *findings = writable(4 * room), before = 0;
    uint8_t *shown = writable(out);
    uint64_t *values = writable(16);
    if (mihadrena_find(plan, bytes, writable(4 * records), records, findings, room, values, 2) != MIHADRENA_SERVED) return;
    for (size_t i = 0; i < values[0] && i < room / MIHADRENA_FINDING_WORDS; i++) {
        const uint32_t *one = findings + i * MIHADRENA_FINDING_WORDS;
        if (one[3] < before || one[3] > one[4] || one[4] > bytes || one[5] > one[6] || one[6] > bytes) fail("a finding out of place");
        before = one[3];
        if (mihadrena_render(one, MIHADRENA_FINDING_WORDS, plan, bytes, name, called, MIHADRENA_STYLE_FULL, colour, shown, out) == 0)
            fail("a finding that has no words");
        mihadrena_render(one, MIHADRENA_FINDING_WORDS, plan, bytes, name, called, style, colour, shown, out);
    }
    if (room > 1) findings[1] = forged;
    mihadrena_render(findings, room, plan, bytes, name, called, style, colour, shown, out);
    mihadrena_summary(name, called, (size_t)values[0], (size_t)values[1], number_below(64), style, shown, out);
}

int LLVMFuzzerTestOneInput(const uint8_t *data, size_t size)
{
    static void (*const calls[])(void) = {call_read,  call_fields,  call_pieces, call_reader, call_numbers,
                                          call_lines, call_records, call_nodes,  call_file,   call_names,
                                          call_find};
    input = data;
    left = size < 4096 ? size : 4096;
    used = lent = 0;
    memset(arena, FILL, sizeof arena);
    calls[number_below(sizeof calls / sizeof calls[0])]();
    look();
    return 0;
}
