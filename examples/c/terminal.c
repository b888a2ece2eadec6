/* A program to start from: it reads a plan in report mode and lists its stands with their names, the corners of their outlines as doubles,
 * and whatever is wrong, at line and column.
 *
 *     terminal FILE             the plan is read whole
 *     terminal --pieces FILE    it comes in pieces of 512 bytes, each forgotten but for as many bytes as an item may have
 */
#include <stdio.h>
#include <stdlib.h>
#include <string.h>

#include "file.h"
#include "mihadrena_plan.h"

#define PIECE 512

/* How far back an item starts that is given or refused: its bytes, and the character behind it. */
#define KEPT (MIHADRENA_STATE_BYTES + 8)

/* Bytes of the text with the place of the first one, and where that stands: the whole text, or what came last. */
typedef struct window {
    const uint8_t *bytes;
    size_t length;
    uint64_t from;
    uint64_t line, column;
} window;

/* The list that is read: what its next item is. */
typedef enum { OTHER, HEAD, STAND, CORNER } list;

typedef struct terminal {
    window seen;
    const uint32_t *index; /* the line starts of a whole text; NULL in pieces */
    size_t lines;
    list in;
    double corner[2];
    size_t coordinates;
    uint32_t open[MIHADRENA_DEEPEST]; /* the shapes of the brackets that are open */
    uint32_t waiting; /* how many #; wait for the datum that they drop */
    bool dropping;    /* whether a list is being dropped, and the depth of its brackets */
    uint32_t dropped;
} terminal;

static void fail(const char *what)
{
    fprintf(stderr, "terminal: %s\n", what);
    exit(EXIT_FAILURE);
}

/* Moves the start of a window on to a place. A byte that goes on with a character is no column of its own. */
static void move(window *seen, uint64_t place)
{
    for (; seen->from < place && seen->length > 0; seen->from++, seen->bytes++, seen->length--) {
        seen->line += *seen->bytes == '\n';
        seen->column = *seen->bytes == '\n' ? 1 : seen->column + ((*seen->bytes & 0xC0) != 0x80);
    }
}

/* Tells what is wrong at a place, and leaves the list: the library locates it in a whole text; in pieces it lies among the bytes that came
 * last. */
static void tell(terminal *t, uint64_t place, const char *what)
{
    window at = t->seen;
    uint64_t values[MIHADRENA_LINES_VALUES];
    if (t->index == NULL) {
        move(&at, place);
    } else if (mihadrena_locate(at.bytes, at.length, t->index, t->lines, (size_t)place, values, 2) == MIHADRENA_SERVED) {
        at.line = values[0];
        at.column = values[1];
    }
    printf("%llu:%llu: %s\n", (unsigned long long)at.line, (unsigned long long)at.column, what);
    t->in = OTHER;
}

static bool is(const char *name, const uint8_t *spelling, size_t length)
{
    return length == strlen(name) && memcmp(spelling, name, length) == 0;
}

/* A coordinate: a decimal or an integer. */
static void coordinate(terminal *t, const mihadrena_record *item, const uint8_t *spelling, size_t length)
{
    double value;
    uint64_t place;
    uint32_t answer = mihadrena_record_value(spelling, length, item->kind, 0, (uint32_t)length, &value, &place);
    if (answer != MIHADRENA_SERVED)
        tell(t, item->start, mihadrena_message(answer));
    else if (t->coordinates < 2)
        t->corner[t->coordinates] = value;
    t->coordinates++;
}

/* Whether an item is part of a datum that #; drops: a stand that was taken out of the plan is none. */
static bool is_dropped(terminal *t, const mihadrena_record *item)
{
    if (t->dropping) {
        t->dropping = item->kind != MIHADRENA_CLOSE_PAREN || item->depth != t->dropped + 1;
        return true;
    }
    if (item->kind == MIHADRENA_DATUM_COMMENT) {
        t->waiting++;
        return true;
    }
    if (t->waiting == 0 || item->kind == MIHADRENA_CLOSE_PAREN)
        return false;
    if (item->kind < MIHADRENA_QUOTE_TICK || item->kind > MIHADRENA_UNQUOTE_SPLICE_SYNTAX) {
        t->waiting--;
        t->dropping = item->kind == MIHADRENA_OPEN_PAREN;
        t->dropped = item->depth;
    }
    return true;
}

/* A #; that has no datum before a close or the end. */
static void expect_none_waits(terminal *t, uint64_t place)
{
    if (t->waiting > 0)
        tell(t, place, mihadrena_message(MIHADRENA_MARK_WAITS));
    t->waiting = 0;
}

/* A bracket closes one of its shape, which of #( and #u8( is round; they lie as deep as mihadrena_nest lets them. */
static void heed_bracket(terminal *t, const mihadrena_record *item)
{
    uint32_t shape = item->detail % MIHADRENA_VECTOR;
    if (item->kind == MIHADRENA_OPEN_PAREN && item->depth < MIHADRENA_DEEPEST)
        t->open[item->depth] = shape;
    else if (item->kind == MIHADRENA_OPEN_PAREN)
        tell(t, item->start, mihadrena_message(MIHADRENA_TOO_DEEP));
    else if (item->depth == 0 || (item->depth <= MIHADRENA_DEEPEST && t->open[item->depth - 1] != shape))
        tell(t, item->start, mihadrena_message(MIHADRENA_WRONG_CLOSE));
}

static void close_list(terminal *t, const mihadrena_record *item)
{
    expect_none_waits(t, item->start);
    if (t->in == CORNER && t->coordinates == 2)
        printf("  corner %.2f %.2f\n", t->corner[0], t->corner[1]);
    else if (t->in == CORNER)
        tell(t, item->start, "a corner has two coordinates");
    t->in = OTHER;
}

/* Takes an item with its spelling, in the order of the text. */
static void take(terminal *t, const mihadrena_record *item, const uint8_t *spelling, size_t length)
{
    if (item->kind == MIHADRENA_OPEN_PAREN || item->kind == MIHADRENA_CLOSE_PAREN)
        heed_bracket(t, item);
    if (mihadrena_is_error(item->kind)) {
        tell(t, item->place_start, mihadrena_message(item->kind));
    } else if (is_dropped(t, item)) {
        return;
    } else if (item->kind == MIHADRENA_OPEN_PAREN) {
        t->in = item->detail <= MIHADRENA_CURLY ? HEAD : OTHER;
    } else if (item->kind == MIHADRENA_CLOSE_PAREN) {
        close_list(t, item);
    } else if (t->in == HEAD) {
        bool named = item->kind == MIHADRENA_IDENTIFIER;
        t->in = named && is("stand", spelling, length) ? STAND : named && is("corner", spelling, length) ? CORNER : OTHER;
        t->coordinates = 0;
    } else if (t->in == STAND) {
        printf("stand %.*s\n", (int)length, (const char *)spelling);
        t->in = OTHER;
    } else if (t->in == CORNER) {
        coordinate(t, item, spelling, length);
    }
}

/* Takes the end of the text, which has this place; `depth` brackets are open before it. */
static void take_end(terminal *t, uint64_t place, uint32_t depth)
{
    expect_none_waits(t, place);
    if (depth > 0)
        tell(t, place, mihadrena_message(MIHADRENA_BRACKET_OPEN));
}

/* How many brackets are open behind an item. */
static uint32_t depth_behind(const mihadrena_record *item)
{
    return item->depth + (item->kind == MIHADRENA_OPEN_PAREN) - (item->kind == MIHADRENA_CLOSE_PAREN && item->depth > 0);
}

/* The line starts. Where the text is not UTF-8, they are those of the bytes before the first bad sequence, and their end is a place. */
static void index_lines(terminal *t, uint32_t *index)
{
    uint64_t values[MIHADRENA_LINES_VALUES];
    uint32_t answer = mihadrena_lines(t->seen.bytes, t->seen.length, index, t->seen.length + 1, values, 2);
    if (answer == MIHADRENA_NOT_UTF8) {
        t->seen.length = (size_t)values[0];
        answer = mihadrena_lines(t->seen.bytes, t->seen.length, index, t->seen.length + 1, values, 2);
    }
    t->index = index;
    t->lines = answer == MIHADRENA_SERVED ? (size_t)values[0] : 0;
}

static void whole(const char *path)
{
    mihadrena_plan plan = {0};
    plan.source = file_bytes(path, &plan.source_length);
    if (plan.source == NULL)
        fail("cannot read the file");
    /* as many records, and as many bytes of text, as the plan has bytes are always enough */
    plan.records_room = plan.text_room = plan.source_length;
    plan.records = calloc(plan.records_room + 1, sizeof *plan.records);
    plan.text = calloc(plan.text_room + 1, 1);
    uint32_t *index = calloc(plan.source_length + 1, sizeof *index);
    if (plan.records == NULL || plan.text == NULL || index == NULL)
        fail("no memory");
    terminal t = {.seen = {plan.source, plan.source_length, 0, 1, 1}};
    index_lines(&t, index);
    uint32_t answer = mihadrena_read_all(&plan, MIHADRENA_REPORT, true);
    if (answer != MIHADRENA_SERVED)
        tell(&t, plan.place, mihadrena_message(answer));
    for (size_t i = 0; i < plan.items; i++) {
        size_t length;
        const uint8_t *spelling = mihadrena_spelling(&plan, &plan.records[i], &length);
        take(&t, &plan.records[i], spelling, length);
    }
    take_end(&t, plan.source_length, plan.items == 0 ? 0 : depth_behind(&plan.records[plan.items - 1]));
    free((void *)plan.source);
    free(plan.records);
    free(plan.text);
    free(index);
}

/* Takes the item that a step gave: its text, or, of a word of Scheme or a bracket, its bytes among those that came last. */
static void take_given(terminal *t, const mihadrena_reading *reading)
{
    const mihadrena_record *item = &reading->record;
    const uint8_t *text = mihadrena_text(item, t->seen.bytes, 0, reading->text, sizeof reading->text);
    if (text != NULL)
        take(t, item, text, item->text_end - item->text_start);
    else
        take(t, item, t->seen.bytes + (item->start - t->seen.from), item->end - item->start);
}

static void in_pieces(const char *path)
{
    static uint8_t bytes[KEPT + PIECE];
    static mihadrena_reading reading;
    terminal t = {.seen = {bytes, 0, 0, 1, 1}};
    FILE *file = fopen(path, "rb");
    if (file == NULL)
        fail("cannot open the file");
    mihadrena_reading_open(&reading, MIHADRENA_REPORT, true);
    uint32_t answer = MIHADRENA_MORE, depth = 0;
    size_t got = PIECE;
    while (answer == MIHADRENA_MORE && got > 0) {
        if (t.seen.length > KEPT)
            move(&t.seen, t.seen.from + t.seen.length - KEPT);
        memmove(bytes, t.seen.bytes, t.seen.length);
        t.seen.bytes = bytes;
        got = fread(bytes + t.seen.length, 1, PIECE, file);
        const uint8_t *piece = bytes + t.seen.length;
        size_t left = got;
        t.seen.length += got;
        do {
            answer = got > 0 ? mihadrena_reading_step(&reading, &piece, &left) : mihadrena_reading_end(&reading);
            if (answer == MIHADRENA_ITEM) {
                take_given(&t, &reading);
                depth = depth_behind(&reading.record);
            }
        } while (answer == MIHADRENA_ITEM);
    }
    /* a read that fails is not the end of the text */
    if (ferror(file))
        fail("cannot read the file");
    fclose(file);
    if (answer == MIHADRENA_FINISHED)
        take_end(&t, t.seen.from + t.seen.length, depth);
    else
        tell(&t, reading.place, mihadrena_message(answer));
}

int main(int count, char **words)
{
    bool pieces = count == 3 && strcmp(words[1], "--pieces") == 0;
    if (count != 2 && !pieces)
        fail("usage: terminal [--pieces] FILE");
    (pieces ? in_pieces : whole)(words[count - 1]);
    return EXIT_SUCCESS;
}
