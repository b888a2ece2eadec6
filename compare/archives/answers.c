/* Writes what the calls of an archive answer and leave in lent memory for each text of a stream (compare/gen's frames: four bytes of
 * length, the lowest first, and the bytes), so that the answers of two archives can be held against each other, byte by byte. All lent
 * memory is filled before a call and written out whole after it; of a state, which is long, a sum. */
#include "mihadrena.h"
#include <stdio.h>
#include <stdlib.h>
#include <string.h>

/* The longest text that is read, and what memory is filled with. */
enum { LONGEST = 1 << 16, FILL = 0xA5 };

static uint8_t source[LONGEST];
static size_t length;
static mihadrena_record records[LONGEST];
static uint8_t text[LONGEST];
static uint8_t out[16 * LONGEST];
static uint32_t words[4 * LONGEST];
static uint64_t values[MIHADRENA_NUMBER_WORDS];

static void tell(const void *from, size_t bytes)
{
    if (fwrite(from, 1, bytes, stdout) != bytes) {
        perror("answers");
        exit(1);
    }
}

static void tell_answer(uint32_t answer)
{
    tell(&answer, sizeof answer);
    tell(values, sizeof values);
}

static void fill(void *memory, size_t bytes)
{
    memset(memory, FILL, bytes);
}

/* FNV-1a, of what is too long to be written at each call. */
static void tell_sum(const void *from, size_t bytes)
{
    uint64_t sum = 14695981039346656037u;
    for (size_t i = 0; i < bytes; i++) {
        sum = (sum ^ ((const uint8_t *)from)[i]) * 1099511628211u;
    }
    tell(&sum, sizeof sum);
}

static void tell_size(size_t answer)
{
    tell(&answer, sizeof answer);
}

/* The way through the nodes of nested lists, and from each record to the bracket that it lies in. */
static void walk(size_t items, size_t nodes)
{
    const uint32_t *from = (const uint32_t *)records;
    tell_size(mihadrena_records_fit(from, items * MIHADRENA_RECORD_WORDS, length, length));
    tell_size(mihadrena_records_fit(from, items * MIHADRENA_RECORD_WORDS, length / 2, 0));
    for (size_t i = 0; i <= items; i++) {
        tell_size(mihadrena_opener(from, items * MIHADRENA_RECORD_WORDS, i));
    }
    for (size_t i = 0; i <= nodes; i++) {
        size_t child = mihadrena_first_child(words, nodes * MIHADRENA_NODE_WORDS, i);
        tell_size(child);
        tell_size(mihadrena_next_sibling(words, nodes * MIHADRENA_NODE_WORDS, i, child));
    }
}

/* A record's text, the float that it stands for, and its bytes as a number, taken apart. */
static void ask_record(const mihadrena_record *of)
{
    double value = 0;
    uint64_t place = 0;
    tell_answer(mihadrena_record_coordinate(source, length, of->kind, of->start, of->end, &value, &place));
    tell(&value, sizeof value);
    tell(&place, sizeof place);
    tell_answer(mihadrena_record_value(source, length, of->kind, of->start, of->end, &value, &place));
    tell(&value, sizeof value);
    tell(&place, sizeof place);
    tell_size(mihadrena_text_mark(source, length, text, length, of->text_source, of->text_start, of->text_end));
    fill(values, sizeof values);
    tell_answer(mihadrena_number(source + of->start, of->end - of->start, values, MIHADRENA_NUMBER_WORDS));
}

/* What is made of the records of a text that was read: nested lists, a text, an item file and the records of that. */
static void use_records(size_t items)
{
    const uint32_t *from = (const uint32_t *)records;
    size_t from_length = items * MIHADRENA_RECORD_WORDS;
    fill(words, items * sizeof(mihadrena_node));
    uint32_t nested = mihadrena_nest(from, from_length, words, items * MIHADRENA_NODE_WORDS, values, MIHADRENA_NEST_VALUES);
    tell_answer(nested);
    tell(words, items * sizeof(mihadrena_node));
    walk(items, nested == MIHADRENA_SERVED ? values[0] : 0);
    size_t room = 8 * length + 8;
    fill(out, room);
    tell_answer(mihadrena_write(from, from_length, source, length, text, length, out, room, values, MIHADRENA_WRITE_VALUES));
    tell(out, room);
    fill(out, room);
    uint32_t answer = mihadrena_items_write(from, from_length, out, room, values, MIHADRENA_ITEMS_VALUES);
    tell_answer(answer);
    tell(out, room);
    if (answer == MIHADRENA_SERVED) {
        size_t most = sizeof words / sizeof words[0], wanted = from_length + MIHADRENA_RECORD_WORDS, lent = wanted < most ? wanted : most;
        fill(words, lent * sizeof words[0]);
        tell_answer(mihadrena_items_read(out, values[0], words, lent, values, MIHADRENA_ITEMS_VALUES));
        tell_sum(words, lent * sizeof words[0]);
    }
    for (size_t i = 0; i < items; i++) {
        ask_record(&records[i]);
    }
}

static void read_whole(uint32_t mode, bool skip, size_t room)
{
    fill(records, (length + 1) * sizeof records[0]);
    fill(text, length);
    uint32_t answer =
        mihadrena_read(source, length, mode, skip, (uint32_t *)records, room * MIHADRENA_RECORD_WORDS, text, room, values, 2);
    tell_answer(answer);
    tell(records, (length + 1) * sizeof records[0]);
    tell(text, length);
    if (answer == MIHADRENA_SERVED) {
        use_records(values[0]);
    }
}

static void read_fields(uint32_t mode, bool skip)
{
    uint32_t ends[3] = {(uint32_t)(length / 3), (uint32_t)(length / 2), (uint32_t)length};
    uint32_t rows[12];
    fill(rows, sizeof rows);
    fill(records, length * sizeof records[0]);
    fill(text, length);
    tell_answer(mihadrena_read_fields(source, length, ends, 3, mode, skip, rows, 12, (uint32_t *)records, length * MIHADRENA_RECORD_WORDS,
                                      text, length, values, 2));
    tell(rows, sizeof rows);
    tell(records, length * sizeof records[0]);
    tell(text, length);
}

/* One item a call, in so much text memory; the first text that does not fit is the last call. */
static void read_one_by_one(uint32_t mode, bool skip, size_t room)
{
    uint64_t position[MIHADRENA_READER_WORDS];
    mihadrena_record record;
    fill(position, sizeof position);
    uint32_t answer =
        mihadrena_reader_open(source, length, mode, skip, position, MIHADRENA_READER_WORDS, values, MIHADRENA_READER_VALUES);
    tell_answer(answer);
    while (answer == MIHADRENA_SERVED || answer == MIHADRENA_ITEM) {
        fill(&record, sizeof record);
        fill(text, room);
        answer = mihadrena_reader_next(source, length, position, MIHADRENA_READER_WORDS, text, room, (uint32_t *)&record,
                                       MIHADRENA_RECORD_WORDS, values, MIHADRENA_READER_VALUES);
        tell(&answer, sizeof answer);
        tell(values, MIHADRENA_READER_VALUES * sizeof values[0]);
        tell(position, sizeof position);
        tell(&record, sizeof record);
        tell_sum(text, room);
    }
}

static void read_in_pieces(uint32_t mode, bool skip, size_t size)
{
    static mihadrena_state state;
    static uint8_t memory[MIHADRENA_PIECE_TEXT];
    mihadrena_record record;
    mihadrena_told told;
    uint32_t answer = mihadrena_state_open(&state, mode, skip);
    for (size_t at = 0; answer != MIHADRENA_FINISHED && answer < MIHADRENA_TOO_LONG;) {
        size_t left = length - at < size ? length - at : size;
        fill(&record, sizeof record);
        answer = at < length ? mihadrena_state_piece(&state, source + at, left, memory, sizeof memory, &record, &told)
                             : mihadrena_state_end(&state, memory, sizeof memory, &record, &told);
        at += told.taken;
        tell(&answer, sizeof answer);
        tell(&told, sizeof told);
        tell(&record, sizeof record);
        tell_sum(&state, sizeof state);
        tell_sum(memory, sizeof memory);
    }
}

/* What there is to find in the text, rendered in each style, with and without colour. */
static void find(void)
{
    static const uint8_t name[] = "plan.scm";
    size_t room = 64 * MIHADRENA_FINDING_WORDS;
    fill(records, (length + 1) * sizeof records[0]);
    fill(words, room * sizeof words[0]);
    tell_answer(mihadrena_find(source, length, (uint32_t *)records, (length + 1) * MIHADRENA_RECORD_WORDS, words, room, values,
                               MIHADRENA_FIND_VALUES));
    tell(records, (length + 1) * sizeof records[0]);
    tell(words, room * sizeof words[0]);
    size_t told = values[0] < 64 ? values[0] : 64;
    for (uint32_t style = MIHADRENA_STYLE_FULL; style <= MIHADRENA_STYLE_JSON; style++) {
        for (size_t i = 0; i < 2 * told; i++) {
            fill(out, 1024);
            tell_size(mihadrena_render(words + i / 2 * MIHADRENA_FINDING_WORDS, MIHADRENA_FINDING_WORDS, source, length, name,
                                       sizeof name - 1, style, i % 2 == 1, out, 1024));
            tell(out, 1024);
        }
        fill(out, 1024);
        tell_size(mihadrena_summary(name, sizeof name - 1, values[0], values[1], told, style, out, 1024));
        tell(out, 1024);
    }
}

/* The first places of a text, line and column of which are asked for, and its first characters. */
enum { PLACES = 64 };

static void ask_places(size_t starts)
{
    uint32_t places[PLACES];
    size_t found[2 * PLACES];
    for (uint32_t place = 0; place < PLACES; place++) {
        places[place] = place;
        tell_answer(mihadrena_locate(source, length, words, starts, place, values, MIHADRENA_LINES_VALUES));
    }
    fill(found, sizeof found);
    tell_answer(mihadrena_locate_all(source, length, words, starts, places, PLACES, found, 2 * PLACES, values, MIHADRENA_LINES_VALUES));
    tell(found, sizeof found);
}

/* The index of the lines, whole and from pieces of seven bytes, and what it answers. */
static void ask_lines(void)
{
    size_t room = length + 1;
    uint32_t state[MIHADRENA_LINES_STATE_WORDS];
    fill(state, sizeof state);
    fill(words, room * sizeof words[0]);
    mihadrena_lines_open(state, MIHADRENA_LINES_STATE_WORDS, words, room);
    for (size_t at = 0; at < length; at += 7) {
        mihadrena_lines_piece(state, MIHADRENA_LINES_STATE_WORDS, source + at, length - at < 7 ? length - at : 7, words, room);
        tell(state, sizeof state);
    }
    tell_answer(mihadrena_lines_end(state, MIHADRENA_LINES_STATE_WORDS, words, room, values, MIHADRENA_LINES_VALUES));
    tell(words, room * sizeof words[0]);
    fill(words, room * sizeof words[0]);
    uint32_t answer = mihadrena_lines(source, length, words, room, values, MIHADRENA_LINES_VALUES);
    tell_answer(answer);
    tell(words, room * sizeof words[0]);
    if (answer == MIHADRENA_SERVED) {
        ask_places(values[0]);
    }
}

/* The whole text as a number, by each reader and one that is none, and as a coordinate. */
static void ask_number(void)
{
    for (uint32_t choice = 0; choice < 3; choice++) {
        fill(values, sizeof values);
        tell_answer(mihadrena_number_by(choice, source, length, values, MIHADRENA_NUMBER_WORDS));
    }
    double value = 0;
    uint64_t place = 0;
    tell_answer(mihadrena_coordinate(source, length, &value, &place));
    tell(&value, sizeof value);
    tell(&place, sizeof place);
}

static void ask_characters(void)
{
    tell_size(mihadrena_good_bytes(source, length));
    for (size_t at = 0; at < PLACES; at++) {
        uint32_t code = mihadrena_code_at(source, length, at);
        tell_size(code);
        tell_size(mihadrena_next_at(source, length, at));
        tell_size(mihadrena_is_blank(code));
        fill(out, 4);
        tell_size(mihadrena_put_char(code, out, at % 5));
        tell(out, 4);
    }
}

/* Five bytes after the other as names, asked for by both parties and one that is none. */
static void ask_names(void)
{
    static uint32_t table[MIHADRENA_NAMES_WORDS];
    static uint8_t bytes[MIHADRENA_NAMES_BYTES];
    fill(table, sizeof table);
    fill(bytes, sizeof bytes);
    uint32_t number, answer = mihadrena_names_open(table, MIHADRENA_NAMES_WORDS, bytes, MIHADRENA_NAMES_BYTES);
    size_t start, end;
    tell(&answer, sizeof answer);
    for (size_t at = 0; at < length; at += 5) {
        size_t size = length - at < 5 ? length - at : 5;
        number = FILL;
        answer = mihadrena_names_enter(table, MIHADRENA_NAMES_WORDS, bytes, MIHADRENA_NAMES_BYTES, at / 5 % 3, source + at, size, &number);
        tell(&answer, sizeof answer);
        tell(&number, sizeof number);
        start = end = FILL;
        tell_size(mihadrena_names_place(table, MIHADRENA_NAMES_WORDS, bytes, MIHADRENA_NAMES_BYTES, number, &start, &end));
        tell_size(start);
        tell_size(end);
    }
    tell_sum(table, sizeof table);
    tell_sum(bytes, sizeof bytes);
}

static void answer_text(void)
{
    for (uint32_t mode = MIHADRENA_PLAIN; mode <= MIHADRENA_REPORT; mode++) {
        for (int skip = 0; skip < 2; skip++) {
            read_whole(mode, skip, length);
            read_whole(mode, skip, length / 2);
            read_fields(mode, skip);
            read_one_by_one(mode, skip, length);
            read_one_by_one(mode, skip, 1);
            read_in_pieces(mode, skip, 1);
            read_in_pieces(mode, skip, 7);
            read_in_pieces(mode, skip, 4096);
        }
    }
    find();
    ask_lines();
    ask_number();
    ask_characters();
    ask_names();
}

int main(void)
{
    uint8_t head[4];
    tell_size(mihadrena_version());
    while (fread(head, 1, sizeof head, stdin) == sizeof head) {
        length = head[0] | (size_t)head[1] << 8 | (size_t)head[2] << 16 | (size_t)head[3] << 24;
        if (length >= LONGEST || fread(source, 1, length, stdin) != length) {
            fprintf(stderr, "answers: a text that is too long, or cut\n");
            return 1;
        }
        fill(values, sizeof values);
        answer_text();
    }
    return 0;
}
