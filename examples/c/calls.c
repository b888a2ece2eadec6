/* The worked calls of include/mihadrena.h, each with the answer that the header gives, and the forms of include/mihadrena_plan.h. */
#include <stdio.h>
#include <stdlib.h>
#include <string.h>

#include "mihadrena_plan.h"

static void expect(bool fact, const char *what)
{
    if (!fact) {
        fprintf(stderr, "calls: %s\n", what);
        exit(EXIT_FAILURE);
    }
}

static void read_and_text(void)
{
    const uint8_t source[] = "(corner 14.7)";
    mihadrena_record records[8];
    uint8_t text[16];
    uint64_t values[MIHADRENA_READ_VALUES];
    uint32_t answer = mihadrena_read(source, sizeof source - 1, MIHADRENA_REPORT, false, (uint32_t *)records,
                                     8 * MIHADRENA_RECORD_WORDS, text, sizeof text, values, MIHADRENA_READ_VALUES);
    expect(answer == MIHADRENA_SERVED && values[0] == 4 && values[1] == 0, "mihadrena_read");
    expect(records[0].kind == MIHADRENA_OPEN_PAREN && records[1].kind == MIHADRENA_IDENTIFIER &&
               records[2].kind == MIHADRENA_NUMBER && records[3].kind == MIHADRENA_CLOSE_PAREN,
           "the kinds");
    expect(records[0].depth == 0 && records[1].depth == 1 && records[2].depth == 1 && records[3].depth == 1, "the depths");
    const uint8_t *name = mihadrena_text(&records[1], source, sizeof source - 1, text, sizeof text);
    expect(name == source + 1 && records[1].text_end - records[1].text_start == 6, "mihadrena_text");
    expect(mihadrena_text(&records[0], source, sizeof source - 1, text, sizeof text) == NULL, "mihadrena_text, none");
    answer = mihadrena_read(source, sizeof source - 1, MIHADRENA_REPORT, false, (uint32_t *)records, 0, text, 0, values,
                            MIHADRENA_READ_VALUES);
    expect(answer == MIHADRENA_TOO_FEW && values[0] == 4 && values[1] == 0, "mihadrena_read, too few");
    answer = mihadrena_read(source, sizeof source - 1, 2, false, (uint32_t *)records, 0, text, 0, values, MIHADRENA_READ_VALUES);
    expect(answer == MIHADRENA_NO_MODE && values[0] == 2 && values[1] == 0, "mihadrena_read, no mode");
    answer = mihadrena_text_mark(source, sizeof source - 1, text, sizeof text, MIHADRENA_IN_SOURCE, 1, 7);
    expect(answer == MIHADRENA_SERVED, "mihadrena_text_mark");
    answer = mihadrena_text_mark(source, sizeof source - 1, text, sizeof text, MIHADRENA_IN_SOURCE, 1, 99);
    expect(answer == MIHADRENA_OUT_OF_BOUNDS, "mihadrena_text_mark, no text");
}

static void fields(void)
{
    const uint8_t source[] = "(a)\xFF"
                             "14.7";
    const uint32_t ends[] = {3, 4, 8};
    mihadrena_row rows[3];
    mihadrena_record records[8];
    uint8_t text[8];
    uint64_t values[MIHADRENA_FIELDS_VALUES];
    uint32_t answer = mihadrena_read_fields(source, sizeof source - 1, ends, 3, MIHADRENA_REPORT, false, (uint32_t *)rows,
                                            3 * MIHADRENA_ROW_WORDS, (uint32_t *)records, 8 * MIHADRENA_RECORD_WORDS, text, sizeof text,
                                            values, MIHADRENA_FIELDS_VALUES);
    expect(answer == MIHADRENA_SERVED && values[0] == 4 && values[1] == 0, "mihadrena_read_fields");
    expect(rows[0].first_record == 0 && rows[0].mark == MIHADRENA_SERVED && rows[1].first_record == 3 &&
               rows[1].mark == MIHADRENA_NOT_UTF8 && rows[1].place == 0 && rows[2].first_record == 3 && rows[2].mark == MIHADRENA_SERVED,
           "the rows");
    expect(records[3].kind == MIHADRENA_NUMBER && records[3].start == 0 && records[3].end == 4, "the last part's record");
    answer = mihadrena_read_fields(source, 7, ends, 3, MIHADRENA_REPORT, false, (uint32_t *)rows, 0, (uint32_t *)records, 0, text, 0,
                                   values, MIHADRENA_FIELDS_VALUES);
    expect(answer == MIHADRENA_BAD_ENDS && values[0] == 0 && values[1] == 0, "mihadrena_read_fields, bad ends");
    answer = mihadrena_read_fields(source, sizeof source - 1, ends, 3, MIHADRENA_REPORT, false, (uint32_t *)rows, 0, (uint32_t *)records,
                                   8 * MIHADRENA_RECORD_WORDS, text, sizeof text, values, MIHADRENA_FIELDS_VALUES);
    expect(answer == MIHADRENA_TOO_FEW && values[0] == 4 && values[1] == 0, "mihadrena_read_fields, too few rows");
}

static void pieces(void)
{
    mihadrena_state state;
    uint8_t text[MIHADRENA_PIECE_TEXT];
    mihadrena_record record;
    uint64_t values[MIHADRENA_PIECE_VALUES];
    uint32_t answer =
        mihadrena_open(MIHADRENA_REPORT, false, state.bytes, MIHADRENA_STATE_BYTES, state.words, MIHADRENA_STATE_WORDS);
    expect(answer == MIHADRENA_SERVED, "mihadrena_open");
    answer = mihadrena_end(state.bytes, MIHADRENA_STATE_BYTES, state.words, MIHADRENA_STATE_WORDS, text, sizeof text,
                           (uint32_t *)&record, MIHADRENA_RECORD_WORDS, values, MIHADRENA_PIECE_VALUES);
    expect(answer == MIHADRENA_FINISHED && values[0] == 0 && values[1] == 0, "mihadrena_end");
    answer = mihadrena_open(2, false, state.bytes, MIHADRENA_STATE_BYTES, state.words, MIHADRENA_STATE_WORDS);
    expect(answer == MIHADRENA_NO_MODE, "mihadrena_open, no mode");
    answer = mihadrena_piece(state.bytes, MIHADRENA_STATE_BYTES, state.words, MIHADRENA_STATE_WORDS, (const uint8_t *)"(cor", 4, text,
                             sizeof text, (uint32_t *)&record, MIHADRENA_RECORD_WORDS, values, MIHADRENA_PIECE_VALUES);
    expect(answer == MIHADRENA_ITEM && values[1] == 2 && record.kind == MIHADRENA_OPEN_PAREN && record.depth == 0, "mihadrena_piece");
    answer = mihadrena_piece(state.bytes, MIHADRENA_STATE_BYTES, state.words, MIHADRENA_STATE_WORDS, (const uint8_t *)"or", 2, text,
                             sizeof text, (uint32_t *)&record, MIHADRENA_RECORD_WORDS - 1, values, MIHADRENA_PIECE_VALUES);
    expect(answer == MIHADRENA_TOO_FEW && values[0] == 1 && values[1] == 0, "mihadrena_piece, too few");
    answer = mihadrena_piece(state.bytes, MIHADRENA_STATE_BYTES - 1, state.words, MIHADRENA_STATE_WORDS, (const uint8_t *)"or", 2, text,
                             sizeof text, (uint32_t *)&record, MIHADRENA_RECORD_WORDS, values, MIHADRENA_PIECE_VALUES);
    expect(answer == MIHADRENA_OUT_OF_BOUNDS && values[0] == 0 && values[1] == 0, "mihadrena_piece, no state");
}

static void states(void)
{
    mihadrena_state state;
    uint8_t text[MIHADRENA_PIECE_TEXT];
    mihadrena_record record;
    mihadrena_told told;
    uint32_t answer = mihadrena_state_open(&state, MIHADRENA_REPORT, false);
    expect(answer == MIHADRENA_SERVED, "mihadrena_state_open");
    answer = mihadrena_state_piece(&state, (const uint8_t *)"(cor", 4, text, sizeof text, &record, &told);
    expect(answer == MIHADRENA_ITEM && told.taken == 2, "mihadrena_state_piece");
    answer = mihadrena_state_piece(&state, (const uint8_t *)"or", 2, text, sizeof text, &record, &told);
    expect(answer == MIHADRENA_MORE && told.taken == 2, "mihadrena_state_piece, more");
    answer = mihadrena_state_end(&state, text, sizeof text - 1, &record, &told);
    expect(answer == MIHADRENA_LITTLE_TEXT && told.place == 0, "mihadrena_state_end, little text");
    answer = mihadrena_state_end(&state, text, sizeof text, &record, &told);
    expect(answer == MIHADRENA_ITEM && record.kind == MIHADRENA_IDENTIFIER && record.start == 1 && record.end == 4 &&
               record.depth == 1 && memcmp(text, "cor", 3) == 0,
           "mihadrena_state_end");
    answer = mihadrena_state_end(&state, text, sizeof text, &record, &told);
    expect(answer == MIHADRENA_FINISHED, "mihadrena_state_end, finished");
    answer = mihadrena_state_piece(&state, (const uint8_t *)"n", 1, text, sizeof text, &record, &told);
    expect(answer == MIHADRENA_AFTER_END && told.taken == 0, "mihadrena_state_piece, after the end");
}

static bool is_figure(mihadrena_figure figure, uint64_t has, uint64_t minus, uint64_t first, uint64_t second)
{
    return figure.has == has && figure.minus == minus && figure.first == first && figure.second == second;
}

static void number(void)
{
    mihadrena_parts parts;
    uint32_t answer = mihadrena_number((const uint8_t *)"-1/2", 4, (uint64_t *)&parts, MIHADRENA_NUMBER_WORDS);
    expect(answer == MIHADRENA_A_NUMBER && parts.form == MIHADRENA_REAL, "mihadrena_number");
    expect(parts.one.form == MIHADRENA_RATIONAL && is_figure(parts.one.one, MIHADRENA_VALUE, 1, 1, 0) &&
               is_figure(parts.one.two, MIHADRENA_VALUE, 0, 2, 0),
           "mihadrena_number, the parts");
    answer = mihadrena_number((const uint8_t *)"1/0", 3, (uint64_t *)&parts, MIHADRENA_NUMBER_WORDS);
    expect(answer == MIHADRENA_ZERO, "mihadrena_number, zero");
    answer = mihadrena_number((const uint8_t *)"5", 1, (uint64_t *)&parts, MIHADRENA_NUMBER_WORDS - 1);
    expect(answer == MIHADRENA_TOO_FEW, "mihadrena_number, too few");
    uint64_t words[] = {7, 7};
    answer = mihadrena_number((const uint8_t *)"5", 1, words, 2);
    expect(answer == MIHADRENA_TOO_FEW && words[0] == 7 && words[1] == 7, "mihadrena_number, too few, the words");
    answer = mihadrena_number((const uint8_t *)"1\xff", 2, words, 2);
    expect(answer == MIHADRENA_NOT_UTF8 && words[0] == 1 && words[1] == 7, "mihadrena_number, not UTF-8 before too few");
    answer = mihadrena_number((const uint8_t *)"1\xff", 2, words, 0);
    expect(answer == MIHADRENA_NOT_UTF8 && words[0] == 1, "mihadrena_number, not UTF-8 without a word");
}

static void characters(void)
{
    uint8_t text[4] = {0};
    expect(mihadrena_good_bytes((const uint8_t *)"ab\xff", 3) == 2, "mihadrena_good_bytes");
    expect(mihadrena_code_at((const uint8_t *)"\xc3\xa9", 2, 0) == 0xE9, "mihadrena_code_at");
    expect(mihadrena_code_at((const uint8_t *)"\xc3\xa9", 2, 1) == MIHADRENA_CODE_BAD, "mihadrena_code_at, bad");
    expect(mihadrena_code_at((const uint8_t *)"\xc3\xa9", 1, 0) == MIHADRENA_CODE_CUT, "mihadrena_code_at, cut");
    expect(mihadrena_code_at((const uint8_t *)"\xc3\xa9", 2, 2) == MIHADRENA_CODE_END, "mihadrena_code_at, end");
    expect(mihadrena_next_at((const uint8_t *)"\xc3\xa9", 2, 0) == 2, "mihadrena_next_at");
    expect(mihadrena_is_blank(0xA0) && !mihadrena_is_blank('a'), "mihadrena_is_blank");
    expect(mihadrena_put_char(0xE9, text, 4) == 2 && memcmp(text, "\xc3\xa9\0", 4) == 0, "mihadrena_put_char");
}

static void nest(void)
{
    const uint8_t source[] = "(a)";
    mihadrena_record records[3];
    mihadrena_node nodes[3];
    uint8_t text[4];
    uint64_t values[MIHADRENA_READ_VALUES];
    uint32_t answer = mihadrena_read(source, sizeof source - 1, MIHADRENA_REPORT, false, (uint32_t *)records,
                                     3 * MIHADRENA_RECORD_WORDS, text, sizeof text, values, MIHADRENA_READ_VALUES);
    expect(answer == MIHADRENA_SERVED && values[0] == 3, "mihadrena_read, a list");
    answer = mihadrena_nest((const uint32_t *)records, 3 * MIHADRENA_RECORD_WORDS, (uint32_t *)nodes, 3 * MIHADRENA_NODE_WORDS, values,
                            MIHADRENA_NEST_VALUES);
    expect(answer == MIHADRENA_SERVED && values[0] == 2, "mihadrena_nest");
    expect(nodes[0].kind == MIHADRENA_NODE_LIST && nodes[0].item == 0 && nodes[0].beneath == 1 &&
               nodes[1].kind == MIHADRENA_NODE_SYMBOL && nodes[1].item == 1 && nodes[1].beneath == 0,
           "mihadrena_nest, the nodes");
    answer = mihadrena_nest((const uint32_t *)records, 2 * MIHADRENA_RECORD_WORDS, (uint32_t *)nodes, 3 * MIHADRENA_NODE_WORDS, values,
                            MIHADRENA_NEST_VALUES);
    expect(answer == MIHADRENA_BRACKET_OPEN && values[0] == 2, "mihadrena_nest, a bracket open");
    answer = mihadrena_nest((const uint32_t *)records, 3 * MIHADRENA_RECORD_WORDS, (uint32_t *)nodes, MIHADRENA_NODE_WORDS, values, 0);
    expect(answer == MIHADRENA_FEW_NODES && values[0] == 2, "mihadrena_nest, few nodes");
}

/* A word less than the records need is too few, and each record has its depth. */
static void depths(void)
{
    static const uint32_t DEPTHS[] = {0, 0, 1, 2, 3, 3, 2};
    enum { ITEMS = sizeof DEPTHS / sizeof *DEPTHS };
    const uint8_t source[] = ")([#u8(;c\n]a";
    mihadrena_record records[ITEMS];
    uint8_t text[1];
    uint64_t values[MIHADRENA_READ_VALUES];
    uint32_t answer = mihadrena_read(source, sizeof source - 1, MIHADRENA_REPORT, false, (uint32_t *)records,
                                     ITEMS * MIHADRENA_RECORD_WORDS - 1, text, 0, values, MIHADRENA_READ_VALUES);
    expect(answer == MIHADRENA_TOO_FEW && values[0] == ITEMS && values[1] == 0, "mihadrena_read, a word too few");
    answer = mihadrena_read(source, sizeof source - 1, MIHADRENA_REPORT, false, (uint32_t *)records,
                            ITEMS * MIHADRENA_RECORD_WORDS, text, 0, values, MIHADRENA_READ_VALUES);
    expect(answer == MIHADRENA_SERVED && values[0] == ITEMS, "mihadrena_read, just enough words");
    for (size_t i = 0; i < ITEMS; i++)
        expect(records[i].depth == DEPTHS[i], "a depth");
}

/* Reading one item a call: the reader stays where a text does not fit. */
static void reader(void)
{
    const uint8_t source[] = "(a \"b\\n\")";
    const size_t length = sizeof source - 1;
    uint64_t position[MIHADRENA_READER_WORDS];
    uint64_t values[MIHADRENA_READER_VALUES];
    mihadrena_record record;
    uint32_t *words = (uint32_t *)&record;
    uint8_t text[2];
    uint32_t answer = mihadrena_reader_open(source, length, 2, false, position, MIHADRENA_READER_WORDS, values, MIHADRENA_READER_VALUES);
    expect(answer == MIHADRENA_NO_MODE && values[0] == 2 && values[1] == 0, "mihadrena_reader_open, no mode");
    answer = mihadrena_reader_open(source, length, MIHADRENA_REPORT, false, position, MIHADRENA_READER_WORDS, values,
                                   MIHADRENA_READER_VALUES);
    expect(answer == MIHADRENA_SERVED && values[0] == 0 && values[1] == 0, "mihadrena_reader_open");
    answer = mihadrena_reader_next(source, length, position, MIHADRENA_READER_WORDS, text, 0, words, 9, values, MIHADRENA_READER_VALUES);
    expect(answer == MIHADRENA_TOO_FEW && values[0] == 1 && values[1] == 0, "mihadrena_reader_next, a short record");
    static const uint32_t kinds[] = {MIHADRENA_OPEN_PAREN, MIHADRENA_IDENTIFIER};
    for (uint32_t i = 0; i < 2; i++) {
        answer = mihadrena_reader_next(source, length, position, MIHADRENA_READER_WORDS, text, 0, words, MIHADRENA_RECORD_WORDS, values,
                                       MIHADRENA_READER_VALUES);
        expect(answer == MIHADRENA_ITEM && record.kind == kinds[i] && record.depth == i, "mihadrena_reader_next");
    }
    answer = mihadrena_reader_next(source, length, position, MIHADRENA_READER_WORDS, text, 0, words, MIHADRENA_RECORD_WORDS, values,
                                   MIHADRENA_READER_VALUES);
    expect(answer == MIHADRENA_TOO_FEW && values[0] == 1 && values[1] == 2, "mihadrena_reader_next, too few");
    answer = mihadrena_reader_next(source, length, position, MIHADRENA_READER_WORDS, text, 2, words, MIHADRENA_RECORD_WORDS, values,
                                   MIHADRENA_READER_VALUES);
    expect(answer == MIHADRENA_ITEM && record.kind == MIHADRENA_STRING_LITERAL && text[0] == 'b' && text[1] == '\n', "the string");
    position[3] = 2;
    answer = mihadrena_reader_next(source, length, position, MIHADRENA_READER_WORDS, text, 2, words, MIHADRENA_RECORD_WORDS, values,
                                   MIHADRENA_READER_VALUES);
    expect(answer == MIHADRENA_OUT_OF_BOUNDS && values[0] == 0 && values[1] == 0, "mihadrena_reader_next, no position");
}

/* A name that is another now is written in vertical lines; each refusal comes with its record or with the bytes needed. */
static void write_back(void)
{
    const uint8_t source[] = "(a 1)", text[] = "b c";
    mihadrena_record records[4];
    uint8_t none[1], out[16];
    uint64_t values[MIHADRENA_READ_VALUES];
    const size_t words = 4 * MIHADRENA_RECORD_WORDS;
    uint32_t answer = mihadrena_read(source, sizeof source - 1, MIHADRENA_REPORT, true, (uint32_t *)records, words, none, 0, values,
                                     MIHADRENA_READ_VALUES);
    expect(answer == MIHADRENA_SERVED && values[0] == 4, "mihadrena_read, to be written");
    records[1].text_source = MIHADRENA_IN_MEMORY;
    records[1].text_start = 0;
    records[1].text_end = 3;
    answer = mihadrena_write((const uint32_t *)records, words, source, sizeof source - 1, text, sizeof text - 1, out, sizeof out, values,
                             MIHADRENA_WRITE_VALUES);
    expect(answer == MIHADRENA_SERVED && values[0] == 11 && memcmp(out, "( |b c| 1 )", 11) == 0, "mihadrena_write");
    answer = mihadrena_write((const uint32_t *)records, words, source, sizeof source - 1, text, sizeof text - 1, out, 10, values,
                             MIHADRENA_WRITE_VALUES);
    expect(answer == MIHADRENA_TOO_FEW && values[0] == 11, "mihadrena_write, too few");
    answer = mihadrena_write((const uint32_t *)records, words, source, sizeof source - 1, text, 2, out, sizeof out, values,
                             MIHADRENA_WRITE_VALUES);
    expect(answer == MIHADRENA_ALIEN && values[0] == 1, "mihadrena_write, no such text");
    records[2].kind = MIHADRENA_COMMENT;
    answer = mihadrena_write((const uint32_t *)records, words, source, sizeof source - 1, text, sizeof text - 1, out, sizeof out, values,
                             MIHADRENA_WRITE_VALUES);
    expect(answer == MIHADRENA_UNWRITTEN && values[0] == 2, "mihadrena_write, a comment");
}

/* The records and nodes of a short text, in memory of their own. */
typedef struct short_plan {
    mihadrena_plan plan;
    mihadrena_record records[16];
    uint8_t text[16];
    mihadrena_node nodes[16];
} short_plan;

static const mihadrena_plan *short_read(short_plan *memory, const char *source)
{
    memory->plan = (mihadrena_plan){.source = (const uint8_t *)source, .source_length = strlen(source), .records = memory->records,
                                    .records_room = 16, .text = memory->text, .text_room = sizeof memory->text,
                                    .nodes = memory->nodes, .nodes_room = 16};
    expect(mihadrena_read_all(&memory->plan, MIHADRENA_REPORT, true) == MIHADRENA_SERVED, "mihadrena_read_all");
    expect(mihadrena_nest_all(&memory->plan) == MIHADRENA_SERVED, "mihadrena_nest_all");
    return &memory->plan;
}

/* Questions about records and nodes. */
static void questions(void)
{
    static short_plan memory;
    const mihadrena_plan *plan = short_read(&memory, "(a (b))");
    const uint32_t *records = (const uint32_t *)plan->records, *nodes = (const uint32_t *)plan->nodes;
    const size_t words = 6 * MIHADRENA_RECORD_WORDS;
    expect(plan->items == 6 && mihadrena_opener(records, words, 4) == 2 && mihadrena_opener(records, words, 0) == 6, "mihadrena_opener");
    expect(mihadrena_records_fit(records, words, 7, 0) && !mihadrena_records_fit(records, words, 6, 0), "mihadrena_records_fit");
    short_read(&memory, "(a (b) c)");
    expect(plan->tree == 5 && mihadrena_first_child(nodes, 5 * MIHADRENA_NODE_WORDS, 0) == 1, "mihadrena_first_child");
    expect(mihadrena_next_sibling(nodes, 5 * MIHADRENA_NODE_WORDS, 0, 2) == 4, "mihadrena_next_sibling");
    expect(mihadrena_next_sibling(nodes, 5 * MIHADRENA_NODE_WORDS, 2, 3) == 5, "mihadrena_next_sibling, none");
    expect(mihadrena_child(plan, 2) == 3 && mihadrena_sibling(plan, plan->tree, 0) == plan->tree, "mihadrena_child, mihadrena_sibling");
    expect(mihadrena_version() ==
               MIHADRENA_VERSION_MAJOR * 65536 + MIHADRENA_VERSION_MINOR * 256 + MIHADRENA_VERSION_PATCH,
           "mihadrena_version");
}

/* A stand that is named by a word of Scheme, and a corner that is an integer. */
static void spellings_and_values(void)
{
    static short_plan memory;
    const mihadrena_plan *plan = short_read(&memory, "(fn |a\\x42;| 6892014 1/6)");
    size_t length;
    double value = 0;
    uint64_t place = 7;
    expect(mihadrena_spelling(plan, &plan->records[1], &length) == plan->source + 1 && length == 2, "mihadrena_spelling, a word");
    const uint8_t *name = mihadrena_spelling(plan, &plan->records[2], &length);
    expect(length == 2 && memcmp(name, "aB", 2) == 0, "mihadrena_spelling, a text");
    mihadrena_record outside = plan->records[1];
    outside.end = 99;
    expect(mihadrena_spelling(plan, &outside, &length) == NULL && length == 0, "mihadrena_spelling, outside");
    uint32_t answer = mihadrena_value_of(&plan->records[3], plan->source, plan->source_length, &value, &place);
    expect(answer == MIHADRENA_SERVED && value == 6892014.0 && place == 7, "mihadrena_value_of");
    answer = mihadrena_value_of(&plan->records[4], plan->source, plan->source_length, &value, &place);
    expect(answer == MIHADRENA_NO_COORDINATE && value == 6892014.0 && place == 0, "mihadrena_value_of, a fraction");
    answer = mihadrena_record_value((const uint8_t *)"(corner 6892014)", 16, MIHADRENA_NUMBER, 8, 15, &value, &place);
    expect(answer == MIHADRENA_SERVED && value == 6892014.0, "mihadrena_record_value");
}

/* Where a length is 0 the forms take NULL, and a call without memory is told what is needed. */
static void nothing_lent(void)
{
    mihadrena_plan plan = {0};
    size_t length = 9;
    expect(mihadrena_read_all(&plan, MIHADRENA_REPORT, false) == MIHADRENA_SERVED && plan.items == 0, "an empty plan");
    expect(mihadrena_nest_all(&plan) == MIHADRENA_SERVED && plan.tree == 0, "no nodes");
    mihadrena_record record = {.kind = MIHADRENA_COMMENT};
    expect(mihadrena_spelling(&plan, &record, &length) != NULL && length == 0, "an empty extent");
    plan.source = (const uint8_t *)"(\"\\n\")";
    plan.source_length = 6;
    uint32_t answer = mihadrena_read_all(&plan, MIHADRENA_REPORT, false);
    expect(answer == MIHADRENA_TOO_FEW && plan.items == 3 && plan.text_bytes == 1 && plan.place == 0, "what a plan needs");
    expect(mihadrena_nest_all(&plan) == MIHADRENA_TOO_FEW, "no nodes of records that did not fit");
    answer = mihadrena_read_all(&plan, 2, false);
    expect(answer == MIHADRENA_NO_MODE && plan.items == 0 && plan.place == 2, "what a refusal comes with");
    static mihadrena_reading reading;
    const uint8_t *piece = NULL;
    length = 0;
    expect(mihadrena_reading_open(&reading, MIHADRENA_REPORT, false) == MIHADRENA_SERVED, "mihadrena_reading_open");
    expect(mihadrena_reading_step(&reading, &piece, &length) == MIHADRENA_MORE && piece == NULL, "an empty piece");
    expect(mihadrena_reading_end(&reading) == MIHADRENA_FINISHED, "mihadrena_reading_end");
}

int main(void)
{
    read_and_text();
    fields();
    depths();
    reader();
    pieces();
    states();
    number();
    characters();
    nest();
    write_back();
    questions();
    spellings_and_values();
    nothing_lent();
    puts("the header's calls: ok");
    return EXIT_SUCCESS;
}
