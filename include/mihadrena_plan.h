/* Mihadrena in fewer words: a plan's memory in one struct, the calls of many arguments over it, and the names of kinds, errors and refusals.
 * Everything here is a thin form over mihadrena.h, which says what each call answers. Where a length is 0 its pointer may be NULL here.
 */
#ifndef MIHADRENA_PLAN_H
#define MIHADRENA_PLAN_H

#include "mihadrena.h"

#ifdef __cplusplus
extern "C" {
#endif

/* -- A plan that is read whole --------------------------------------------------------------------------------------------- */

/* The memory is the caller's. `items`, `text_bytes` and `tree` are what the calls below gave. */
typedef struct mihadrena_plan {
    const uint8_t *source;
    size_t source_length;
    mihadrena_record *records;
    size_t records_room; /* how many records fit */
    uint8_t *text;
    size_t text_room;
    mihadrena_node *nodes;
    size_t nodes_room; /* how many nodes fit */
    size_t items;      /* how many records there are; after MIHADRENA_TOO_FEW, how many are needed */
    size_t text_bytes; /* how many bytes of text there are; after MIHADRENA_TOO_FEW, how many are needed */
    size_t tree;       /* how many nodes there are */
    uint64_t place;    /* what a refusal comes with */
} mihadrena_plan;

/* A pointer that is not NULL, for a slice that has no bytes: one that is written to, and one that is read. */
static inline void *mihadrena_lent(void *memory)
{
    static uint64_t nothing;
    return memory ? memory : &nothing;
}

static inline const void *mihadrena_shown(const void *memory)
{
    static const uint64_t nothing = 0;
    return memory ? memory : &nothing;
}

/* mihadrena_read over a plan's source, into its records and text. */
static inline uint32_t mihadrena_read_all(mihadrena_plan *plan, uint32_t mode, bool skip_comments)
{
    uint64_t values[MIHADRENA_READ_VALUES] = {0, 0};
    uint32_t answer = mihadrena_read((const uint8_t *)mihadrena_shown(plan->source), plan->source_length, mode, skip_comments,
                                     (uint32_t *)mihadrena_lent(plan->records), plan->records_room * MIHADRENA_RECORD_WORDS,
                                     (uint8_t *)mihadrena_lent(plan->text), plan->text_room, values, MIHADRENA_READ_VALUES);
    bool counted = answer == MIHADRENA_SERVED || answer == MIHADRENA_TOO_FEW;
    plan->items = counted ? (size_t)values[0] : 0;
    plan->text_bytes = counted ? (size_t)values[1] : 0;
    plan->tree = 0;
    plan->place = counted ? 0 : values[0];
    return answer;
}

/* mihadrena_nest over the records that mihadrena_read_all gave. A refusal's record is in `place`. Where the reading was refused with
 * MIHADRENA_TOO_FEW so is this. */
static inline uint32_t mihadrena_nest_all(mihadrena_plan *plan)
{
    uint64_t value = 0;
    if (plan->records_room < plan->items) return MIHADRENA_TOO_FEW;
    uint32_t answer = mihadrena_nest((const uint32_t *)mihadrena_shown(plan->records), plan->items * MIHADRENA_RECORD_WORDS,
                                     (uint32_t *)mihadrena_lent(plan->nodes), plan->nodes_room * MIHADRENA_NODE_WORDS,
                                     &value, MIHADRENA_NEST_VALUES);
    plan->tree = answer == MIHADRENA_SERVED ? (size_t)value : 0;
    plan->place = answer == MIHADRENA_SERVED ? 0 : value;
    return answer;
}

/* The spelling of a plan's item: its text if it has one, else the bytes of its extent. A stand named `fn` or `if` is a word of Scheme, whose
 * record has no text. NULL, and a length of 0, for a record whose places lie outside. */
static inline const uint8_t *mihadrena_spelling(const mihadrena_plan *plan, const mihadrena_record *record, size_t *length)
{
    *length = 0;
    if (record->text_source == MIHADRENA_NO_TEXT) {
        if (record->end < record->start || plan->source_length < record->end) return NULL;
        *length = record->end - record->start;
        return (const uint8_t *)mihadrena_shown(plan->source) + record->start;
    }
    const uint8_t *text = mihadrena_text(record, (const uint8_t *)mihadrena_shown(plan->source), plan->source_length,
                                         (const uint8_t *)mihadrena_shown(plan->text), plan->text_room);
    if (text) *length = record->text_end - record->text_start;
    return text;
}

/* The nodes of a plan: the first one beneath a node, the next one beside it within a node, and `tree` where there is none. At the top
 * `within` is `tree`, and the first node is 0. */
static inline size_t mihadrena_child(const mihadrena_plan *plan, size_t at)
{
    return mihadrena_first_child((const uint32_t *)mihadrena_shown(plan->nodes), plan->tree * MIHADRENA_NODE_WORDS, at);
}

static inline size_t mihadrena_sibling(const mihadrena_plan *plan, size_t within, size_t at)
{
    return mihadrena_next_sibling((const uint32_t *)mihadrena_shown(plan->nodes), plan->tree * MIHADRENA_NODE_WORDS, within, at);
}

/* -- A plan that is read one item a call ------------------------------------------------------------------------------------ */

/* A reader over a source, with memory for the text of one item. */
typedef struct mihadrena_reader {
    const uint8_t *source;
    size_t source_length;
    uint64_t position[MIHADRENA_READER_WORDS];
    uint8_t *text;
    size_t text_room;
    mihadrena_record record; /* the item that a step gave */
    uint64_t values[MIHADRENA_READER_VALUES];
} mihadrena_reader;

/* mihadrena_reader_open over the reader's source. */
static inline uint32_t mihadrena_reader_start(mihadrena_reader *reader, uint32_t mode, bool skip_comments)
{
    return mihadrena_reader_open((const uint8_t *)mihadrena_shown(reader->source), reader->source_length, mode, skip_comments,
                                 reader->position, MIHADRENA_READER_WORDS, reader->values, MIHADRENA_READER_VALUES);
}

/* mihadrena_reader_next: MIHADRENA_ITEM with `record` and its text, then MIHADRENA_FINISHED. After MIHADRENA_TOO_FEW values[1] is how many bytes
 * `text` needs; the reader stands at that item still. */
static inline uint32_t mihadrena_reader_step(mihadrena_reader *reader)
{
    return mihadrena_reader_next((const uint8_t *)mihadrena_shown(reader->source), reader->source_length, reader->position,
                                 MIHADRENA_READER_WORDS, (uint8_t *)mihadrena_lent(reader->text), reader->text_room,
                                 (uint32_t *)&reader->record, MIHADRENA_RECORD_WORDS, reader->values, MIHADRENA_READER_VALUES);
}

/* -- A plan that comes in pieces ------------------------------------------------------------------------------------------- */

/* A reading in pieces with its memory: about 8.5 kilobytes. */
typedef struct mihadrena_reading {
    mihadrena_state state;
    uint8_t text[MIHADRENA_PIECE_TEXT];
    mihadrena_record record; /* the item that a step gave */
    uint64_t place;          /* what a refusal comes with */
} mihadrena_reading;

static inline uint32_t mihadrena_reading_open(mihadrena_reading *reading, uint32_t mode, bool skip_comments)
{
    return mihadrena_open(mode, skip_comments, reading->state.bytes, MIHADRENA_STATE_BYTES, reading->state.words, MIHADRENA_STATE_WORDS);
}

/* mihadrena_piece over what is left of a piece: *piece and *length move on past the bytes that were taken. MIHADRENA_ITEM: `record` and
 * `text` have the item, call again. MIHADRENA_MORE: the piece is taken. */
static inline uint32_t mihadrena_reading_step(mihadrena_reading *reading, const uint8_t **piece, size_t *length)
{
    mihadrena_told told = {0, 0};
    uint32_t answer = mihadrena_piece(reading->state.bytes, MIHADRENA_STATE_BYTES, reading->state.words, MIHADRENA_STATE_WORDS,
                                      (const uint8_t *)mihadrena_shown(*piece), *length, reading->text, MIHADRENA_PIECE_TEXT,
                                      (uint32_t *)&reading->record, MIHADRENA_RECORD_WORDS, (uint64_t *)&told, MIHADRENA_PIECE_VALUES);
    if (*piece) *piece += told.taken;
    *length -= (size_t)told.taken;
    reading->place = told.place;
    return answer;
}

/* mihadrena_end: MIHADRENA_ITEM as often as items are left, then MIHADRENA_FINISHED. */
static inline uint32_t mihadrena_reading_end(mihadrena_reading *reading)
{
    mihadrena_told told = {0, 0};
    uint32_t answer = mihadrena_end(reading->state.bytes, MIHADRENA_STATE_BYTES, reading->state.words, MIHADRENA_STATE_WORDS,
                                    reading->text, MIHADRENA_PIECE_TEXT, (uint32_t *)&reading->record, MIHADRENA_RECORD_WORDS,
                                    (uint64_t *)&told, MIHADRENA_PIECE_VALUES);
    reading->place = told.place;
    return answer;
}

/* -- Names ----------------------------------------------------------------------------------------------------------------- */

static inline bool mihadrena_is_error(uint32_t kind)
{
    return MIHADRENA_FIRST_ERROR < kind && kind <= MIHADRENA_INVALID_CHAR_DELIMITER;
}

/* The name of a kind, an error's too, as mihadrena.h has it, and "no kind" for any other number. */
static inline const char *mihadrena_kind_name(uint32_t kind)
{
    static const char *const tokens[] = {
        "OPEN_PAREN", "CLOSE_PAREN", "QUOTE_TICK", "QUASI_QUOTE", "UNQUOTE", "UNQUOTE_SPLICE", "QUOTE_SYNTAX", "QUASI_QUOTE_SYNTAX",
        "UNQUOTE_SYNTAX", "UNQUOTE_SPLICE_SYNTAX", "IF", "DEFINE", "LET", "TEST_LET", "RETURN", "BEGIN", "LAMBDA", "QUOTE", "SYNTAX_RULES",
        "DEFINE_SYNTAX", "ELLIPSES", "SET", "REQUIRE", "CHARACTER_LITERAL", "DATUM_COMMENT", "COMMENT", "BOOLEAN_LITERAL", "IDENTIFIER",
        "KEYWORD", "NUMBER", "STRING_LITERAL", "DOT",
    };
    static const char *const errors[] = {
        "UNEXPECTED_CHAR", "INCOMPLETE_STRING", "INCOMPLETE_IDENTIFIER", "INCOMPLETE_COMMENT", "INVALID_WHITESPACE",
        "INVALID_STRING_ESCAPE", "INVALID_CHARACTER", "ZERO_DENOMINATOR", "UNCLOSED_HEX_ESCAPE", "INVALID_CHAR_NAME",
        "INVALID_HEX_ESCAPE_LITERAL", "INVALID_HEX_CODE_POINT", "INVALID_CHAR_DELIMITER",
    };
    if (kind <= MIHADRENA_DOT) return tokens[kind];
    return mihadrena_is_error(kind) ? errors[kind - MIHADRENA_UNEXPECTED_CHAR] : "no kind";
}

/* What an error's kind or a refusal's number says, in a few words; "no such number" for any other. */
static inline const char *mihadrena_message(uint32_t number)
{
    switch (number) {
    case MIHADRENA_UNEXPECTED_CHAR: return "unexpected character";
    case MIHADRENA_INCOMPLETE_STRING: return "a text is not closed";
    case MIHADRENA_INCOMPLETE_IDENTIFIER: return "a name in vertical lines is not closed";
    case MIHADRENA_INCOMPLETE_COMMENT: return "a comment is not closed";
    case MIHADRENA_INVALID_WHITESPACE: return "after a backslash and blanks the line must end";
    case MIHADRENA_INVALID_STRING_ESCAPE: return "no such escape";
    case MIHADRENA_INVALID_CHARACTER: return "a character is missing";
    case MIHADRENA_ZERO_DENOMINATOR: return "a fraction has 0 below the line";
    case MIHADRENA_UNCLOSED_HEX_ESCAPE: return "an escape is not closed";
    case MIHADRENA_INVALID_CHAR_NAME: return "no character has this name";
    case MIHADRENA_INVALID_HEX_ESCAPE_LITERAL: return "no hexadecimal number";
    case MIHADRENA_INVALID_HEX_CODE_POINT: return "no character has this number";
    case MIHADRENA_INVALID_CHAR_DELIMITER: return "a mark stands in a character's name";
    case MIHADRENA_TOO_LONG: return "the text is too long";
    case MIHADRENA_NOT_UTF8: return "the bytes are not UTF-8";
    case MIHADRENA_TOO_FEW: return "there is too little memory";
    case MIHADRENA_LONG_ITEM: return "an item is too long for pieces";
    case MIHADRENA_LITTLE_TEXT: return "there is too little text memory for pieces";
    case MIHADRENA_NO_MODE: return "there is no such mode";
    case MIHADRENA_AFTER_END: return "a piece after the end";
    case MIHADRENA_OUT_OF_BOUNDS: return "a state, a position or a place is out of bounds";
    case MIHADRENA_NO_COORDINATE: return "no number that is made exactly in one step";
    case MIHADRENA_CUT_SHORT: return "the item file is cut short";
    case MIHADRENA_WRONG_NUMBER: return "a number of the item file is written wrongly";
    case MIHADRENA_OVER_SUM: return "a place of the item file is too large";
    case MIHADRENA_GOES_BACK: return "a record goes back";
    case MIHADRENA_LINES_NO_ROOM: return "there is too little memory for the lines";
    case MIHADRENA_NO_PLACE: return "the place lies past the end or inside a character";
    case MIHADRENA_NO_PARTY: return "there is no such party";
    case MIHADRENA_NO_ROOM: return "there is no room for the name";
    case MIHADRENA_NO_NAME: return "no name has this number";
    case MIHADRENA_BAD_ENDS: return "the ends go back or pass the source";
    case MIHADRENA_UNKNOWN_CHOICE: return "there is no such reader of numbers";
    case MIHADRENA_BRACKET_OPEN: return "a bracket is never closed";
    case MIHADRENA_WRONG_CLOSE: return "a bracket closes nothing or another one";
    case MIHADRENA_MISPLACED_DOT: return "a dot is misplaced";
    case MIHADRENA_MARK_WAITS: return "nothing stands after a quoting mark";
    case MIHADRENA_TOO_DEEP: return "lists lie too deep";
    case MIHADRENA_ERROR_ITEM: return "an item is an error";
    case MIHADRENA_FEW_NODES: return "there are too few nodes";
    case MIHADRENA_UNWRITTEN: return "an error or a comment is not written";
    case MIHADRENA_ALIEN: return "what was lent is not what it should be";
    default: return "no such number";
    }
}

#ifdef __cplusplus
}
#endif

#endif
