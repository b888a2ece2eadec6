/* Mihadrena: a proved reader of felling plans, for C.
 *
 * A text goes in as bytes of UTF-8, whole or in pieces. Out come items, one record of MIHADRENA_RECORD_WORDS 32-bit words each, in the
 * order of the text, and the decoded texts of those that have an escape. All memory is the caller's: the library allocates nothing, keeps
 * nothing between two calls, and writes only to the memory that a call is lent. Every call ends.
 *
 * Link with libmihadrena.a: `.ci/archive` writes it to target/staticlib, for x86-64 Linux, `.ci/archive --target aarch64-linux-gnu` to
 * target/aarch64-linux-gnu, for Linux on Arm of 64 bits, and `--target riscv64-linux-gnu` likewise. Of the C library it calls `memcpy`
 * and `memset` and nothing else.
 *
 * A new program reads in MIHADRENA_REPORT; MIHADRENA_PLAIN is there to read as Steel does. examples/c/terminal.c is a program to start from.
 * mihadrena_plan.h has the calls of many arguments over a struct, and names and words for kinds, errors and refusals.
 *
 * A pointer and the length after it are one slice. A pointer must not be NULL, not even where the length is 0 (the forms of mihadrena_plan.h
 * see to that), and memory that a call writes to must overlap with no other memory that the same call is lent.
 */
#ifndef MIHADRENA_H
#define MIHADRENA_H

#include <stdbool.h>
#include <stddef.h>
#include <stdint.h>

#ifdef __cplusplus
#define MIHADRENA_ASSERT(fact, text) static_assert(fact, text)
#define MIHADRENA_ALIGN_OF(type) alignof(type)
extern "C" {
#elif defined __STDC_VERSION__ && __STDC_VERSION__ >= 201112L
#define MIHADRENA_ASSERT(fact, text) _Static_assert(fact, text)
#define MIHADRENA_ALIGN_OF(type) _Alignof(type)
#else
/* C99 has neither; compilers of C11 and of C++ look at these facts. */
#define MIHADRENA_ASSERT(fact, text) struct mihadrena_fact
#define MIHADRENA_ALIGN_OF(type) 0
#endif

/* The version, as CHANGELOG.md and the Rust crate have it. Records, states and the archive are of one version. */
#define MIHADRENA_VERSION_MAJOR 0
#define MIHADRENA_VERSION_MINOR 26
#define MIHADRENA_VERSION_PATCH 0

/* The version of the archive that is linked: major * 65536 + minor * 256 + patch. */
uint32_t mihadrena_version(void);

/* -- The record of an item ------------------------------------------------------------------------------------------------- */

/* How many words a record has. */
#define MIHADRENA_RECORD_WORDS 10

typedef struct mihadrena_record {
    uint32_t kind;        /* MIHADRENA_OPEN_PAREN and so on; of an error, MIHADRENA_UNEXPECTED_CHAR and so on */
    uint32_t detail;      /* a character's code point; 0 or 1 of a boolean; a bracket; what an error comes with; else 0 */
    uint32_t start;       /* the extent: where the item stands in the source, in bytes */
    uint32_t end;
    uint32_t place_start; /* the place: what an error points at, of any other item the extent. In report mode it is the error's own, and
                           * empty where digits of a hex escape are missing; in plain mode an error that sets none has that of the last
                           * error before it that set one, or its extent if none did */
    uint32_t place_end;
    uint32_t text_source; /* MIHADRENA_NO_TEXT, MIHADRENA_IN_SOURCE or MIHADRENA_IN_MEMORY */
    uint32_t text_start;  /* where the text lies there, in bytes */
    uint32_t text_end;
    uint32_t depth;       /* how many brackets are open before the item: of (a) 0, 1 and 1. Every MIHADRENA_OPEN_PAREN opens one and every
                           * MIHADRENA_CLOSE_PAREN closes one, whatever their details; a close with none open leaves 0: of )( 0 and 0 */
} mihadrena_record;

MIHADRENA_ASSERT(sizeof(mihadrena_record) == 4 * MIHADRENA_RECORD_WORDS, "a record is MIHADRENA_RECORD_WORDS words");

/* Where a record's text lies. */
#define MIHADRENA_NO_TEXT 0
#define MIHADRENA_IN_SOURCE 1
#define MIHADRENA_IN_MEMORY 2

/* The kinds, each with a text that makes it. */
#define MIHADRENA_OPEN_PAREN 0             /* (  [  {  #(  #u8(   the detail says which */
#define MIHADRENA_CLOSE_PAREN 1            /* )  ]  }             the detail says which */
#define MIHADRENA_QUOTE_TICK 2             /* ' */
#define MIHADRENA_QUASI_QUOTE 3            /* ` */
#define MIHADRENA_UNQUOTE 4                /* , */
#define MIHADRENA_UNQUOTE_SPLICE 5         /* ,@ */
#define MIHADRENA_QUOTE_SYNTAX 6           /* #' */
#define MIHADRENA_QUASI_QUOTE_SYNTAX 7     /* #` */
#define MIHADRENA_UNQUOTE_SYNTAX 8         /* #, */
#define MIHADRENA_UNQUOTE_SPLICE_SYNTAX 9  /* #,@ */
#define MIHADRENA_IF 10                    /* if */
#define MIHADRENA_DEFINE 11                /* define  defn  #%define */
#define MIHADRENA_LET 12                   /* let */
#define MIHADRENA_TEST_LET 13              /* %plain-let */
#define MIHADRENA_RETURN 14                /* return! */
#define MIHADRENA_BEGIN 15                 /* begin */
#define MIHADRENA_LAMBDA 16                /* lambda  fn  #%plain-lambda  and the letter itself */
#define MIHADRENA_QUOTE 17                 /* quote */
#define MIHADRENA_SYNTAX_RULES 18          /* syntax-rules */
#define MIHADRENA_DEFINE_SYNTAX 19         /* define-syntax */
#define MIHADRENA_ELLIPSES 20              /* ... */
#define MIHADRENA_SET 21                   /* set! */
#define MIHADRENA_REQUIRE 22               /* require */
#define MIHADRENA_CHARACTER_LITERAL 23     /* #\a       detail: the code point */
#define MIHADRENA_DATUM_COMMENT 24         /* #; */
#define MIHADRENA_COMMENT 25               /* ; to the end of the line, or between #| and |# */
#define MIHADRENA_BOOLEAN_LITERAL 26       /* #t  #false   detail: 1 or 0 */
#define MIHADRENA_IDENTIFIER 27            /* stand  |a b|  with text */
#define MIHADRENA_KEYWORD 28               /* #:key         with text */
#define MIHADRENA_NUMBER 29                /* 14.7          its parts: mihadrena_number on its extent */
#define MIHADRENA_STRING_LITERAL 30        /* "beech"       with text */
#define MIHADRENA_DOT 31                   /* . */

/* The details of a bracket. MIHADRENA_VECTOR and MIHADRENA_BYTES open with a round one. */
#define MIHADRENA_ROUND 0  /* ( ) */
#define MIHADRENA_SQUARE 1 /* [ ] */
#define MIHADRENA_CURLY 2  /* { } */
#define MIHADRENA_VECTOR 3 /* #( */
#define MIHADRENA_BYTES 6  /* #u8( */

/* An error is an item: its kind is MIHADRENA_FIRST_ERROR plus its number. Reading goes on behind its extent. */
#define MIHADRENA_FIRST_ERROR 100
#define MIHADRENA_UNEXPECTED_CHAR 101            /* ##         detail: the character */
#define MIHADRENA_INCOMPLETE_STRING 102          /* "a */
#define MIHADRENA_INCOMPLETE_IDENTIFIER 103      /* |a */
#define MIHADRENA_INCOMPLETE_COMMENT 104         /* #| */
#define MIHADRENA_INVALID_WHITESPACE 105         /* "\ x" */
#define MIHADRENA_INVALID_STRING_ESCAPE 106      /* "\q"       detail: the character */
#define MIHADRENA_INVALID_CHARACTER 107          /* #\ and the end of the text */
#define MIHADRENA_ZERO_DENOMINATOR 108           /* 1/0 */
#define MIHADRENA_UNCLOSED_HEX_ESCAPE 109        /* "\x41"     detail: the closer that was expected */
#define MIHADRENA_INVALID_CHAR_NAME 110          /* #\nothing */
#define MIHADRENA_INVALID_HEX_ESCAPE_LITERAL 111 /* #\xyz      detail: one of the three below */
#define MIHADRENA_INVALID_HEX_CODE_POINT 112     /* #\xD800    detail: the code */
#define MIHADRENA_INVALID_CHAR_DELIMITER 113     /* #\a;       in report mode; in plain mode it is MIHADRENA_INVALID_CHAR_NAME */

/* The details of MIHADRENA_INVALID_HEX_ESCAPE_LITERAL. In report mode its place is the empty place where digits should stand, the character
 * that is no digit, or the digit at which the number passes 32 bits; in plain mode it is the whole escape. */
#define MIHADRENA_HEX_EMPTY 1
#define MIHADRENA_HEX_INVALID_DIGIT 2
#define MIHADRENA_HEX_OVERFLOW 3

/* -- Refusals -------------------------------------------------------------------------------------------------------------- */

/* What a call answers that was served. */
#define MIHADRENA_SERVED 0

/* A refused call changes nothing that it was lent but its values; of mihadrena_number and mihadrena_number_by the first word, of the
 * coordinate calls `place`, of the name table's calls the numbers that they tell, which are then 0. Reading in pieces, a stop (20, 21 and
 * 23) changes the state too, and mihadrena_open makes a plain state of a mode that is none. With each stands what it comes with: a call
 * that is lent values puts that into values[0], a second number into values[1], which is 0 where there is none; a piece or end call has
 * the bytes taken there. */
#define MIHADRENA_TOO_LONG 20      /* the text exceeds MIHADRENA_LONGEST bytes: MIHADRENA_LONGEST */
#define MIHADRENA_NOT_UTF8 21      /* bytes aren't UTF-8: the start of the first bad sequence */
#define MIHADRENA_TOO_FEW 22       /* records or text memory are too few: items and text bytes needed; of mihadrena_write the bytes needed */
#define MIHADRENA_LONG_ITEM 23     /* in pieces, an item exceeds MIHADRENA_STATE_BYTES bytes: its start */
#define MIHADRENA_LITTLE_TEXT 24   /* in pieces, there are under MIHADRENA_PIECE_TEXT bytes of text memory: 0 */
#define MIHADRENA_NO_MODE 25       /* the mode is neither of the two: the mode */
#define MIHADRENA_AFTER_END 26     /* a piece after the declared end: 0 */
#define MIHADRENA_OUT_OF_BOUNDS 27 /* a state, a position, a text, an extent or a table outside its bounds: 0 */

/* Of the coordinate calls. */
#define MIHADRENA_NO_COORDINATE 28 /* no decimal, or too many digits or too large an exponent for one exact step: 0 */

/* Of item files: the reader's come with the number in the file at which it fails, the writer's with the record. */
#define MIHADRENA_CUT_SHORT 29    /* a number, or the item, is cut short */
#define MIHADRENA_WRONG_NUMBER 30 /* a number longer than needed, over 32 bits, or with a fifth group that goes on */
#define MIHADRENA_OVER_SUM 31     /* a start or an end over 32 bits */
#define MIHADRENA_GOES_BACK 32    /* an item starts before the one before it, or its extent, place or text ends before it starts */

/* Of the line calls. */
#define MIHADRENA_LINES_NO_ROOM 33 /* the line starts, or the answers, don't fit: how many words are needed */
#define MIHADRENA_NO_PLACE 34      /* the place lies past the end or inside a character: the place */

/* Of the name table. */
#define MIHADRENA_NO_PARTY 35 /* the party is neither of the two: 0 */
#define MIHADRENA_NO_ROOM 36  /* the name is absent, and the party's own half lacks the entry or the bytes: 0 */
#define MIHADRENA_NO_NAME 37  /* there is no such number: 0 */

/* Of many fields in one call. */
#define MIHADRENA_BAD_ENDS 38 /* the ends go back or pass the source: 0 */

/* Of mihadrena_number_by. */
#define MIHADRENA_UNKNOWN_CHOICE 39 /* the choice of reader is neither of the two: 0, and no word is written */

/* Of mihadrena_nest, at the first record that rules a reading out. Each comes with that record's number, at the end with how many records
 * there are, and MIHADRENA_FEW_NODES with 0. Where several hold, 48, 45, 43, 42, 41, 40 and 44 are tried in this order; 46 is last. */
#define MIHADRENA_BRACKET_OPEN 40  /* the end with a bracket open: ( */
#define MIHADRENA_WRONG_CLOSE 41   /* a wrong or stray close: ) */
#define MIHADRENA_MISPLACED_DOT 42 /* a dot outside a list, a second one, or one without a datum before it and just one behind it: . */
#define MIHADRENA_MARK_WAITS 43    /* a close, a dot or the end where a mark waits for its datum: ' */
#define MIHADRENA_TOO_DEEP 44      /* a bracket, a mark or #; inside MIHADRENA_DEEPEST others */
#define MIHADRENA_ERROR_ITEM 45    /* an error: ## */
#define MIHADRENA_FEW_NODES 46     /* the nodes do not fit */

/* Of mihadrena_write. */
#define MIHADRENA_UNWRITTEN 47 /* an error or comment item: its record */

/* What is lent is not what it should be: of mihadrena_nest a kind or a detail that no record has, of mihadrena_write a kind that no record
 * has, or an extent or a text that isn't whole characters of what is lent, with the record; of the line calls an index that isn't the text's,
 * which comes with 0. */
#define MIHADRENA_ALIEN 48

/* The longest text, in bytes. */
#define MIHADRENA_LONGEST 4294967295

/* -- Reading a whole text -------------------------------------------------------------------------------------------------- */

/* The modes. In report mode `;`, `"` and `|` also end a number: 14.7;gps is a number and a comment, where plain mode has an identifier;
 * 12|Birch| is a number and an identifier, where plain mode has an error. What is no number goes on at `|` as in plain mode: -|a| is an
 * error in both. An error points at its own place in report mode, a bad hex digit to the byte, and MIHADRENA_INVALID_CHAR_DELIMITER is
 * given: in the name of a character that is none, `;`, `"`, `'` or `,` after its first character, at its place. */
#define MIHADRENA_PLAIN 0
#define MIHADRENA_REPORT 1

/* How many values mihadrena_read writes. */
#define MIHADRENA_READ_VALUES 2

/* Reads a whole text: the items' records go to `records`, MIHADRENA_RECORD_WORDS words each, and their decoded texts to `text`, both
 * from the front on. With `skip_comments` items of kind MIHADRENA_COMMENT are left out; the other records are the same.
 *
 * MIHADRENA_SERVED: values[0] is how many items were written, values[1] how many bytes of text; all memory behind them stays as it was.
 * Refusals, in this order: MIHADRENA_NO_MODE, MIHADRENA_TOO_LONG, MIHADRENA_NOT_UTF8, MIHADRENA_TOO_FEW; `records` and `text` keep every
 * byte, and `values` gets what the refusal comes with, and 0 where that is one number. With fewer than MIHADRENA_READ_VALUES values none
 * is written.
 *
 * A text never has more items than bytes, and never needs more text memory than it has bytes. To be told how much it needs, lend none:
 *
 *     const uint8_t source[] = "(corner 14.7)";
 *     mihadrena_record records[8];
 *     uint8_t text[16];
 *     uint64_t values[MIHADRENA_READ_VALUES];
 *     uint32_t answer = mihadrena_read(source, sizeof source - 1, MIHADRENA_REPORT, false,
 *                                      (uint32_t *)records, 8 * MIHADRENA_RECORD_WORDS, text, sizeof text,
 *                                      values, MIHADRENA_READ_VALUES);
 *     // answer == MIHADRENA_SERVED, values[0] == 4 (OPEN_PAREN, IDENTIFIER, NUMBER, CLOSE_PAREN), values[1] == 0,
 *     // and the depths are 0, 1, 1, 1
 *     answer = mihadrena_read(source, sizeof source - 1, MIHADRENA_REPORT, false,
 *                             (uint32_t *)records, 0, text, 0, values, MIHADRENA_READ_VALUES);
 *     // answer == MIHADRENA_TOO_FEW, values[0] == 4, values[1] == 0
 */
uint32_t mihadrena_read(const uint8_t *source, size_t source_length, uint32_t mode, bool skip_comments,
                        uint32_t *records, size_t records_length, uint8_t *text, size_t text_length,
                        uint64_t *values, size_t values_length);

/* -- Many fields in one call ----------------------------------------------------------------------------------------------- */

/* How many words a row has: one row for each part. */
#define MIHADRENA_ROW_WORDS 4

typedef struct mihadrena_row {
    uint32_t first_record; /* the part's first record; its records go on to the next row's, those of the last part to values[0] */
    uint32_t first_byte;   /* its first text byte; its text memory goes on to the next row's, that of the last part to values[1] */
    uint32_t mark;         /* MIHADRENA_SERVED, or MIHADRENA_NOT_UTF8: then it has no records and no text */
    uint32_t place;        /* of MIHADRENA_NOT_UTF8, the start of the first bad sequence, from the part's start; else 0 */
} mihadrena_row;

MIHADRENA_ASSERT(sizeof(mihadrena_row) == 4 * MIHADRENA_ROW_WORDS, "a row is MIHADRENA_ROW_WORDS words");

/* How many values mihadrena_read_fields writes. */
#define MIHADRENA_FIELDS_VALUES 2

/* Reads each part of a source as a text of its own. Part i goes from the end before it, the first from 0, to ends[i]; bytes past the last
 * end belong to no part, and a part may be empty. A row for each part goes to `rows`, MIHADRENA_ROW_WORDS words each, the parts' records to
 * `records` and their decoded texts to `text`, each from the front on and without gap. A part's records are those that mihadrena_read
 * writes for the part alone: extents and places count from the part's start, text memory places from its first text byte, depth starts at
 * 0, and nothing that was read in one part tells in the next.
 *
 * MIHADRENA_SERVED: values[0] is how many items were written, values[1] how many bytes of text; all memory behind them stays as it was.
 * Refusals, in this order: MIHADRENA_NO_MODE; MIHADRENA_BAD_ENDS, which comes with 0; MIHADRENA_TOO_LONG for the source; MIHADRENA_TOO_FEW
 * with the items and the text bytes of all parts, also where the rows are too few: as many as there are ends are needed, and where both
 * values fit the rows do not. A refused call writes nothing else. A part that is not UTF-8 is no refusal: its row tells, and the next part
 * is read. With fewer than MIHADRENA_FIELDS_VALUES values none is written.
 *
 * All parts together never have more items than the source has bytes, and never need more text memory than that.
 *
 *     const uint8_t source[] = "(a)\xFF" "14.7";
 *     const uint32_t ends[] = {3, 4, 8};
 *     mihadrena_row rows[3];
 *     mihadrena_record records[8];
 *     uint8_t text[8];
 *     uint64_t values[MIHADRENA_FIELDS_VALUES];
 *     uint32_t answer = mihadrena_read_fields(source, sizeof source - 1, ends, 3, MIHADRENA_REPORT, false,
 *                                             (uint32_t *)rows, 3 * MIHADRENA_ROW_WORDS, (uint32_t *)records, 8 * MIHADRENA_RECORD_WORDS,
 *                                             text, sizeof text, values, MIHADRENA_FIELDS_VALUES);
 *     // answer == MIHADRENA_SERVED, values[0] == 4, values[1] == 0; the rows are {0, 0, 0, 0}, {3, 0, MIHADRENA_NOT_UTF8, 0} and
 *     // {3, 0, 0, 0}, and records[3] is the number, its extent 0..4
 */
uint32_t mihadrena_read_fields(const uint8_t *source, size_t source_length, const uint32_t *ends, size_t ends_length, uint32_t mode,
                               bool skip_comments, uint32_t *rows, size_t rows_length, uint32_t *records, size_t records_length,
                               uint8_t *text, size_t text_length, uint64_t *values, size_t values_length);

/* -- Reading in pieces ----------------------------------------------------------------------------------------------------- */

/* What a piece or end call answers beside refusals. */
#define MIHADRENA_ITEM 10     /* an item is given: its record and its text are written */
#define MIHADRENA_MORE 11     /* all of the piece was taken, and no item is ready */
#define MIHADRENA_FINISHED 12 /* all items were given */

/* The least text memory that they ask for, as long as an item may be, and how many values they write. */
#define MIHADRENA_PIECE_TEXT 4096
#define MIHADRENA_PIECE_VALUES 2

/* The state of a reading, which the caller keeps from call to call. docs/STATE.md says what its words mean, and outside which bounds a
 * state is refused with MIHADRENA_OUT_OF_BOUNDS: none that the calls made is. */
#define MIHADRENA_STATE_BYTES 4096
#define MIHADRENA_STATE_WORDS 19
#define MIHADRENA_STATE_SIZE 4248
#define MIHADRENA_STATE_ALIGN 8

typedef struct mihadrena_state {
    uint8_t bytes[MIHADRENA_STATE_BYTES]; /* the bytes of the item that is being read */
    uint64_t words[MIHADRENA_STATE_WORDS];
} mihadrena_state;
MIHADRENA_ASSERT(sizeof(mihadrena_state) == MIHADRENA_STATE_SIZE, "a state is MIHADRENA_STATE_BYTES bytes and MIHADRENA_STATE_WORDS words");
MIHADRENA_ASSERT(MIHADRENA_ALIGN_OF(mihadrena_state) == MIHADRENA_STATE_ALIGN, "a state is aligned as its words are");

/* The values of a piece or end call. */
typedef struct mihadrena_told {
    uint64_t place; /* what a refusal comes with; else 0 */
    uint64_t taken; /* how many bytes of the piece were taken */
} mihadrena_told;
MIHADRENA_ASSERT(sizeof(mihadrena_told) == 8 * MIHADRENA_PIECE_VALUES, "these are two values");

/* Opens a state, in a mode, with comments kept or skipped, and writes it whole: MIHADRENA_SERVED, or MIHADRENA_NO_MODE for another mode,
 * with a plain state; what that comes with is the `mode` that was passed. Before that MIHADRENA_OUT_OF_BOUNDS, and nothing is written, if
 * the two slices have not the lengths of a state's.
 *
 *     mihadrena_state state;
 *     mihadrena_open(MIHADRENA_REPORT, false, state.bytes, MIHADRENA_STATE_BYTES,
 *                    state.words, MIHADRENA_STATE_WORDS);  // MIHADRENA_SERVED
 */
uint32_t mihadrena_open(uint32_t mode, bool skip_comments, uint8_t *bytes, size_t bytes_length, uint64_t *words, size_t words_length);

/* Reads on in a piece: takes the fewest bytes from its front that make an item ready, or all of them. An item is ready once a character
 * behind it was read. Call it again with what was not taken, until it answers MIHADRENA_MORE. A call costs a fixed part and what the
 * bytes that it takes cost, however long the piece is: a text may be lent whole. Pieces of 64 bytes cost hardly more than those of 4,096,
 * 61.3 and 58.2 instructions a byte of a plan; byte by byte it is 257.3 (docs/SPEED.md).
 *
 * MIHADRENA_ITEM: the item's record goes to `record`, its text, a number's digits too, to the front of `text` (MIHADRENA_IN_MEMORY); no
 * other byte of `text` changes. MIHADRENA_MORE changes neither. values[0] is 0, values[1] is how many bytes were taken.
 *
 * Refusals: values[0] is what they come with, as in all calls, values[1] is how many bytes were taken here too.
 *   MIHADRENA_TOO_FEW  `record` has under MIHADRENA_RECORD_WORDS words or `values` under MIHADRENA_PIECE_VALUES: before anything else, and
 *       nothing changes; where there are two values they are 1, the records needed, and 0, the bytes taken
 *   MIHADRENA_OUT_OF_BOUNDS (slices of other lengths too), MIHADRENA_LITTLE_TEXT, MIHADRENA_AFTER_END  nothing is taken, nothing changes
 *   MIHADRENA_TOO_LONG, MIHADRENA_NOT_UTF8, MIHADRENA_LONG_ITEM  the reading stops, at the byte that shows it, which is taken; every
 *       later call with a state and memory enough takes nothing and answers the same. A quote, a vertical line or a #| that is never closed
 *       makes an item of all that follows: MIHADRENA_LONG_ITEM with its place, or its error at the end, if that comes sooner
 * After MIHADRENA_TOO_FEW they are tried in this order: MIHADRENA_OUT_OF_BOUNDS, MIHADRENA_LITTLE_TEXT, a stop that stands,
 * MIHADRENA_AFTER_END.
 *
 *     uint8_t text[MIHADRENA_PIECE_TEXT];
 *     mihadrena_record record;
 *     uint64_t values[MIHADRENA_PIECE_VALUES];
 *     uint32_t answer = mihadrena_piece(state.bytes, MIHADRENA_STATE_BYTES, state.words, MIHADRENA_STATE_WORDS,
 *                                       (const uint8_t *)"(cor", 4, text, sizeof text,
 *                                       (uint32_t *)&record, MIHADRENA_RECORD_WORDS, values, MIHADRENA_PIECE_VALUES);
 *     // answer == MIHADRENA_ITEM, values[1] == 2, record.kind == MIHADRENA_OPEN_PAREN, record.depth == 0
 */
uint32_t mihadrena_piece(uint8_t *bytes, size_t bytes_length, uint64_t *words, size_t words_length,
                         const uint8_t *piece, size_t piece_length, uint8_t *text, size_t text_length,
                         uint32_t *record, size_t record_length, uint64_t *values, size_t values_length);

/* Declares the end of the text and gives the next item, until it answers MIHADRENA_FINISHED. It refuses, and writes, as a piece call does,
 * and takes nothing; MIHADRENA_NOT_UTF8 also where the end cuts a character.
 *
 *     uint32_t answer = mihadrena_end(state.bytes, MIHADRENA_STATE_BYTES, state.words, MIHADRENA_STATE_WORDS, text, sizeof text,
 *                                     (uint32_t *)&record, MIHADRENA_RECORD_WORDS, values, MIHADRENA_PIECE_VALUES);
 *     // of a fresh state: answer == MIHADRENA_FINISHED
 */
uint32_t mihadrena_end(uint8_t *bytes, size_t bytes_length, uint64_t *words, size_t words_length,
                       uint8_t *text, size_t text_length, uint32_t *record, size_t record_length,
                       uint64_t *values, size_t values_length);

/* The same three on a state as it is declared above.
 *
 *     mihadrena_state state;
 *     mihadrena_told told;
 *     mihadrena_state_open(&state, MIHADRENA_REPORT, false);                                          // MIHADRENA_SERVED
 *     mihadrena_state_piece(&state, (const uint8_t *)"(cor", 4, text, sizeof text, &record, &told);  // MIHADRENA_ITEM, told.taken == 2
 *     mihadrena_state_piece(&state, (const uint8_t *)"or", 2, text, sizeof text, &record, &told);    // MIHADRENA_MORE, told.taken == 2
 *     mihadrena_state_end(&state, text, sizeof text, &record, &told);                                // MIHADRENA_ITEM: `cor`, depth 1
 *     mihadrena_state_end(&state, text, sizeof text, &record, &told);                                // MIHADRENA_FINISHED
 */
static inline uint32_t mihadrena_state_open(mihadrena_state *state, uint32_t mode, bool skip_comments)
{
    return mihadrena_open(mode, skip_comments, state->bytes, MIHADRENA_STATE_BYTES, state->words, MIHADRENA_STATE_WORDS);
}

static inline uint32_t mihadrena_state_piece(mihadrena_state *state, const uint8_t *piece, size_t piece_length,
                                             uint8_t *text, size_t text_length, mihadrena_record *record, mihadrena_told *told)
{
    return mihadrena_piece(state->bytes, MIHADRENA_STATE_BYTES, state->words, MIHADRENA_STATE_WORDS, piece, piece_length, text,
                           text_length, (uint32_t *)record, MIHADRENA_RECORD_WORDS, (uint64_t *)told, MIHADRENA_PIECE_VALUES);
}

static inline uint32_t mihadrena_state_end(mihadrena_state *state, uint8_t *text, size_t text_length, mihadrena_record *record,
                                           mihadrena_told *told)
{
    return mihadrena_end(state->bytes, MIHADRENA_STATE_BYTES, state->words, MIHADRENA_STATE_WORDS, text, text_length,
                         (uint32_t *)record, MIHADRENA_RECORD_WORDS, (uint64_t *)told, MIHADRENA_PIECE_VALUES);
}

/* -- Reading one item a call ----------------------------------------------------------------------------------------------- */

/* A whole text, one item a call: memory for one record and one text is enough. The caller keeps a position from call to call, as
 * MIHADRENA_READER_WORDS words; docs/STATE.md says what they mean, and outside which bounds words are no position: none that the calls
 * wrote are. The source must be the same at every call. */
#define MIHADRENA_READER_WORDS 7

/* How many values these calls write. */
#define MIHADRENA_READER_VALUES 2

/* Opens a source, in a mode, with comments kept or skipped: MIHADRENA_SERVED, and `position` gets the words of its start. Refusals, in
 * this order: MIHADRENA_OUT_OF_BOUNDS if `position` has not MIHADRENA_READER_WORDS words, MIHADRENA_NO_MODE, MIHADRENA_TOO_LONG,
 * MIHADRENA_NOT_UTF8; `position` keeps every word. values[0] is what a refusal comes with, else 0, and values[1] is 0; with fewer than
 * MIHADRENA_READER_VALUES values none is written.
 *
 *     const uint8_t source[] = "(a \"b\\n\")";
 *     uint64_t position[MIHADRENA_READER_WORDS];
 *     uint64_t values[MIHADRENA_READER_VALUES];
 *     uint32_t answer = mihadrena_reader_open(source, sizeof source - 1, MIHADRENA_REPORT, false,
 *                                             position, MIHADRENA_READER_WORDS, values, MIHADRENA_READER_VALUES);
 *     // answer == MIHADRENA_SERVED
 */
uint32_t mihadrena_reader_open(const uint8_t *source, size_t source_length, uint32_t mode, bool skip_comments,
                               uint64_t *position, size_t position_length, uint64_t *values, size_t values_length);

/* Gives the next item: MIHADRENA_ITEM, its record goes to `record`, its decoded text, if it has one, to the front of `text`, and `position`
 * moves on. The records are those of mihadrena_read, but that every decoded text starts at 0. MIHADRENA_FINISHED once all items were given.
 *
 * Refusals; `position`, `text` and `record` stay as they were:
 *   MIHADRENA_TOO_FEW  `record` has under MIHADRENA_RECORD_WORDS words or `values` under MIHADRENA_READER_VALUES: before anything else;
 *       where there are two values they are 1, the records needed, and 0
 *   MIHADRENA_OUT_OF_BOUNDS  the words of `position` are no position's: 0 and 0
 *   MIHADRENA_TOO_LONG  MIHADRENA_LONGEST and 0: a source that was not opened
 *   MIHADRENA_TOO_FEW  the item's text does not fit: 1 and the bytes that it needs. The next call is for the same item
 * Any other answer writes 0 and 0.
 *
 *     uint8_t text[1];
 *     mihadrena_record record;
 *     uint32_t answer = mihadrena_reader_next(source, sizeof source - 1, position, MIHADRENA_READER_WORDS, text, 0,
 *                                             (uint32_t *)&record, MIHADRENA_RECORD_WORDS, values, MIHADRENA_READER_VALUES);
 *     // answer == MIHADRENA_ITEM, record.kind == MIHADRENA_OPEN_PAREN; after it `a` at depth 1, then
 *     // answer == MIHADRENA_TOO_FEW, values[0] == 1, values[1] == 2: the string's text is two bytes, a letter and a newline
 */
uint32_t mihadrena_reader_next(const uint8_t *source, size_t source_length, uint64_t *position, size_t position_length,
                               uint8_t *text, size_t text_length, uint32_t *record, size_t record_length,
                               uint64_t *values, size_t values_length);

/* -- The text of an item --------------------------------------------------------------------------------------------------- */

/* Whether a record's text lies where its three text words say: MIHADRENA_SERVED if it is the part from `start` to `end` of the source
 * (text source MIHADRENA_IN_SOURCE) or of the text memory (MIHADRENA_IN_MEMORY), else MIHADRENA_OUT_OF_BOUNDS. Records that mihadrena_read
 * wrote and that have text always get MIHADRENA_SERVED with the same source and text memory, and those that a piece or end call wrote
 * with the same text memory, until the next call: their text is always in it, so that `source` may be any pointer but NULL, with length 0.
 *
 *     // of the second record above, the identifier `corner` at 1..7
 *     mihadrena_text_mark(source, sizeof source - 1, text, sizeof text, MIHADRENA_IN_SOURCE, 1, 7);   // MIHADRENA_SERVED
 *     mihadrena_text_mark(source, sizeof source - 1, text, sizeof text, MIHADRENA_IN_SOURCE, 1, 99);  // MIHADRENA_OUT_OF_BOUNDS
 */
uint32_t mihadrena_text_mark(const uint8_t *source, size_t source_length, const uint8_t *text, size_t text_length,
                             uint32_t text_source, uint32_t start, uint32_t end);

/* The first byte of a record's text, which has text_end - text_start bytes, or NULL if there is none. */
static inline const uint8_t *mihadrena_text(const mihadrena_record *record, const uint8_t *source, size_t source_length,
                                            const uint8_t *text, size_t text_length)
{
    if (mihadrena_text_mark(source, source_length, text, text_length, record->text_source, record->text_start,
                            record->text_end) != MIHADRENA_SERVED)
        return NULL;
    return (record->text_source == MIHADRENA_IN_SOURCE ? source : text) + record->text_start;
}

/* -- The parts of a number ------------------------------------------------------------------------------------------------- */

/* What mihadrena_number answers beside MIHADRENA_TOO_LONG, MIHADRENA_NOT_UTF8 and MIHADRENA_TOO_FEW. */
#define MIHADRENA_A_NUMBER 0
#define MIHADRENA_NO_NUMBER 1
#define MIHADRENA_ZERO 8 /* a denominator is zero */

/* How many words it writes. */
#define MIHADRENA_NUMBER_WORDS 27

/* What a figure has. */
#define MIHADRENA_NOTHING 0 /* a sign at most */
#define MIHADRENA_VALUE 1   /* `first` is the value without its sign */
#define MIHADRENA_PLACES 2  /* the digits are the bytes of the text from `first` to `second` */

typedef struct mihadrena_figure {
    uint64_t has;
    uint64_t minus; /* 1 for a minus sign; of an integer, a numerator or a denominator that is zero 0: -0 */
    uint64_t first;
    uint64_t second;
} mihadrena_figure;

/* A real's forms, and its figures. An integer that does not fit 64 bits with its sign has its digits' places. */
#define MIHADRENA_NO_REAL 0
#define MIHADRENA_INTEGER 1      /* 5       one: the integer */
#define MIHADRENA_RATIONAL 2     /* 1/2     one: the numerator; two: the denominator */
#define MIHADRENA_DECIMAL 3      /* 1.5e2   one: the digits before the dot; two: behind it; three: the exponent's. Places, maybe empty */
#define MIHADRENA_INFINITY 4     /* +inf.0  one: the sign */
#define MIHADRENA_NAN 5          /* +nan.0  one: the sign */
#define MIHADRENA_IMPLIED_ZERO 6 /* the real part of +5i */
#define MIHADRENA_IMPLIED_ONE 7  /* the imaginary part of +i   one: the sign */

typedef struct mihadrena_real {
    uint64_t form;
    mihadrena_figure one;
    mihadrena_figure two;
    mihadrena_figure three;
} mihadrena_real;

/* A number's forms. */
#define MIHADRENA_REAL 0    /* 5     one: the number */
#define MIHADRENA_COMPLEX 1 /* 1+2i  one: the real part; two: the imaginary part */
#define MIHADRENA_POLAR 2   /* 1@2   one: the magnitude; two: the angle */

typedef struct mihadrena_parts {
    uint64_t form; /* of MIHADRENA_TOO_LONG and MIHADRENA_NOT_UTF8, what they come with */
    mihadrena_real one;
    mihadrena_real two;
} mihadrena_parts;

MIHADRENA_ASSERT(sizeof(mihadrena_parts) == 8 * MIHADRENA_NUMBER_WORDS, "a number is MIHADRENA_NUMBER_WORDS words");

/* What a text is as a number: its parts go to the first MIHADRENA_NUMBER_WORDS words, whatever is not there is 0. If it
 * is none, or a denominator is zero, these words are all 0. The text of an item of kind MIHADRENA_NUMBER is its extent in the source.
 * Refused: MIHADRENA_TOO_LONG, then MIHADRENA_NOT_UTF8, whatever words there are: what they come with goes to the first word, if there is
 * one, and no other is written. Last MIHADRENA_TOO_FEW, if there are fewer than MIHADRENA_NUMBER_WORDS words; none is written.
 *
 *     mihadrena_parts parts;
 *     uint32_t answer = mihadrena_number((const uint8_t *)"-1/2", 4, (uint64_t *)&parts, MIHADRENA_NUMBER_WORDS);
 *     // answer == MIHADRENA_A_NUMBER, parts.form == MIHADRENA_REAL, parts.one.form == MIHADRENA_RATIONAL,
 *     // parts.one.one is { MIHADRENA_VALUE, 1, 1, 0 }, parts.one.two is { MIHADRENA_VALUE, 0, 2, 0 }
 */
uint32_t mihadrena_number(const uint8_t *text, size_t text_length, uint64_t *words, size_t words_length);

/* -- The parts of a number by a choice of reader --------------------------------------------------------------------------- */

/* The readers. They differ on the texts of docs/DIFFERENCES.md's three conditions alone. */
#define MIHADRENA_BOUGHT 0   /* as mihadrena_number reads, and the items' Number: 1@1/-2 is a number, +I and #xe+1i are none */
#define MIHADRENA_STANDARD 1 /* by the number grammar of R7RS 7.1.1: +I and #xe+1i are numbers, 1@1/-2 is none */

/* What a text is as a number by the reader of a choice: MIHADRENA_UNKNOWN_CHOICE, before every other refusal, if it is neither; else as
 * mihadrena_number.
 *
 *     mihadrena_parts parts;
 *     uint32_t answer =
 *         mihadrena_number_by(MIHADRENA_STANDARD, (const uint8_t *)"#xe+1i", 6, (uint64_t *)&parts, MIHADRENA_NUMBER_WORDS);
 *     // answer == MIHADRENA_A_NUMBER, parts.form == MIHADRENA_COMPLEX,
 *     // parts.one.one is { MIHADRENA_VALUE, 0, 14, 0 }, parts.two.one is { MIHADRENA_VALUE, 0, 1, 0 }
 */
uint32_t mihadrena_number_by(uint32_t choice, const uint8_t *text, size_t text_length, uint64_t *words, size_t words_length);

/* -- Coordinates ----------------------------------------------------------------------------------------------------------- */

/* The coordinate of a text that is one decimal, such as 6892014.7: its exact value rounded once, to the nearest double, ties to even, the
 * sign kept also on zero. The value goes to `value`; what a refusal comes with goes to `place`; the other keeps what it has.
 *
 * MIHADRENA_NO_COORDINATE exactly if the text is no decimal (12, #d1.5 and +inf.0 are none), or all its digits, without the dot, are a
 * number over 9,007,199,254,740,992, or its exponent less the count of its digits behind the dot is not from -22 to 22. Up to 15 digits
 * are always few enough; 17 or more, zeros in front not counted, are always too many. Read such a number with mihadrena_number.
 *
 *     double value;
 *     uint64_t place;
 *     mihadrena_coordinate((const uint8_t *)"6892014.7", 9, &value, &place);  // MIHADRENA_SERVED, value == 6892014.7
 *     mihadrena_coordinate((const uint8_t *)"12", 2, &value, &place);         // MIHADRENA_NO_COORDINATE, place == 0
 */
uint32_t mihadrena_coordinate(const uint8_t *text, size_t text_length, double *value, uint64_t *place);

/* The same for the extent of a record, by the record's kind and its extent: first MIHADRENA_OUT_OF_BOUNDS if the extent is no part of the
 * source; MIHADRENA_NO_COORDINATE also if the kind is not MIHADRENA_NUMBER. A place is counted from the extent's start. In pieces a
 * number's text is copied: call mihadrena_coordinate on it. */
uint32_t mihadrena_record_coordinate(const uint8_t *source, size_t source_length, uint32_t kind, uint32_t start, uint32_t end,
                                     double *value, uint64_t *place);

/* The same with the record itself. */
static inline uint32_t mihadrena_coordinate_of(const mihadrena_record *record, const uint8_t *source, size_t source_length,
                                               double *value, uint64_t *place)
{
    return mihadrena_record_coordinate(source, source_length, record->kind, record->start, record->end, value, place);
}

/* The value of a record's number, a decimal or an integer: a corner is also written 6892014. A decimal has the value of its coordinate, an
 * integer up to 9,007,199,254,740,992 its own, zero with its sign; any other number and any other kind is MIHADRENA_NO_COORDINATE. All else
 * is as with mihadrena_record_coordinate.
 *
 *     mihadrena_record_value((const uint8_t *)"(corner 6892014)", 16, MIHADRENA_NUMBER, 8, 15, &value, &place);
 *     // MIHADRENA_SERVED, value == 6892014.0
 */
uint32_t mihadrena_record_value(const uint8_t *source, size_t source_length, uint32_t kind, uint32_t start, uint32_t end,
                                double *value, uint64_t *place);

/* The same with the record itself. */
static inline uint32_t mihadrena_value_of(const mihadrena_record *record, const uint8_t *source, size_t source_length,
                                          double *value, uint64_t *place)
{
    return mihadrena_record_value(source, source_length, record->kind, record->start, record->end, value, place);
}

/* -- Characters ------------------------------------------------------------------------------------------------------------ */

/* What mihadrena_code_at answers where no character stands. */
#define MIHADRENA_CODE_BAD 0x110000 /* the bytes there are no UTF-8 */
#define MIHADRENA_CODE_CUT 0x110001 /* the end cuts a sequence there */
#define MIHADRENA_CODE_END 0x110002 /* no byte is there */

/* How many bytes of a text are good UTF-8: all of them, or those before its first bad sequence.
 *
 *     mihadrena_good_bytes((const uint8_t *)"ab\xff", 3);  // 2
 */
size_t mihadrena_good_bytes(const uint8_t *text, size_t text_length);

/* The code point of the character at a place, or one of the three above.
 *
 *     mihadrena_code_at((const uint8_t *)"\xc3\xa9", 2, 0);  // 0xE9
 */
uint32_t mihadrena_code_at(const uint8_t *text, size_t text_length, size_t at);

/* The place past the character at a place; that place itself where no character stands.
 *
 *     mihadrena_next_at((const uint8_t *)"\xc3\xa9", 2, 0);  // 2
 */
size_t mihadrena_next_at(const uint8_t *text, size_t text_length, size_t at);

/* Whether a character is blank: Unicode's White_Space.
 *
 *     mihadrena_is_blank(0xA0);  // true
 */
bool mihadrena_is_blank(uint32_t code);

/* Writes a character's bytes at the front of `text`; answers how many, 0 for no character or too little room.
 *
 *     uint8_t text[4];
 *     mihadrena_put_char(0xE9, text, 4);  // 2, and text starts with C3 A9
 */
size_t mihadrena_put_char(uint32_t code, uint8_t *text, size_t text_length);

/* -- Line and column ------------------------------------------------------------------------------------------------------- */

/* A line starts at place 0 and after every newline byte. Lines and columns count from 1, columns in characters. An index of a text holds
 * the byte place of each line start. */

/* How many values these calls write. Where fewer are lent, they are left as they were. */
#define MIHADRENA_LINES_VALUES 2

/* Builds the index of a whole text: MIHADRENA_SERVED, and values[0] is how many line starts were written; or MIHADRENA_TOO_LONG,
 * MIHADRENA_NOT_UTF8 or MIHADRENA_LINES_NO_ROOM, in this order, and nothing is written. Of the index asked about later pass as many words
 * as were served. A text has at most one line start more than it has bytes.
 *
 * Of a text that is not UTF-8, the bytes before the first bad sequence have an index: where a call was refused with MIHADRENA_NOT_UTF8 and
 * a place, lend as many bytes of the text as that place says, here and to mihadrena_locate; the place is then the end of the text.
 *
 *     uint32_t index[8];
 *     uint64_t values[MIHADRENA_LINES_VALUES];
 *     mihadrena_lines((const uint8_t *)"a\n\xce\xbb" "b\n", 6, index, 8, values, 2);  // MIHADRENA_SERVED: 3 starts, 0, 2 and 6
 */
uint32_t mihadrena_lines(const uint8_t *text, size_t text_length, uint32_t *index, size_t index_length,
                         uint64_t *values, size_t values_length);

/* Line and column of a byte place, in values[0] and values[1]; the end of the text is a place. MIHADRENA_ALIEN, also of a text that has no
 * index, before MIHADRENA_NO_PLACE. Each call holds the index against the text, one pass over it: for many places see
 * mihadrena_locate_all. `place` is a size_t, as a length is; mihadrena_locate_all takes places of 32 bits, as records have them.
 *
 *     mihadrena_locate((const uint8_t *)"a\n\xce\xbb" "b\n", 6, index, 3, 4, values, 2);  // line 2, column 2
 */
uint32_t mihadrena_locate(const uint8_t *text, size_t text_length, const uint32_t *index, size_t index_length, size_t place,
                          uint64_t *values, size_t values_length);

/* The same for many places, in any order, with one look at the index. `found` gets two numbers for each place, in their order: line and
 * column, or 0 and the refusal's number. MIHADRENA_SERVED, and values[0] is how many places were answered; or MIHADRENA_ALIEN or
 * MIHADRENA_LINES_NO_ROOM, and nothing is written to `found`.
 *
 *     uint32_t places[2] = {4, 3};
 *     size_t found[4];
 *     mihadrena_locate_all((const uint8_t *)"a\n\xce\xbb" "b\n", 6, index, 3, places, 2, found, 4, values, 2);  // 2, 2, 0, 34
 */
uint32_t mihadrena_locate_all(const uint8_t *text, size_t text_length, const uint32_t *index, size_t index_length,
                              const uint32_t *places, size_t places_length, size_t *found, size_t found_length,
                              uint64_t *values, size_t values_length);

/* The words of a state of an index from pieces. docs/STATE.md lists them. */
#define MIHADRENA_LINES_STATE_WORDS 8

/* The index of a text that comes in pieces, on a state that the caller keeps: opening, each piece in turn with the same index memory, the
 * declared end. No piece is refused: every refusal comes with the end, which answers what mihadrena_lines answers for the whole text. The
 * memory then holds the starts found before any byte that shows MIHADRENA_TOO_LONG or MIHADRENA_NOT_UTF8, as many as fit. A state of other
 * than MIHADRENA_LINES_STATE_WORDS words, or outside the bounds of docs/STATE.md, stays as it is with the memory, and the end answers
 * MIHADRENA_OUT_OF_BOUNDS.
 *
 *     uint32_t state[MIHADRENA_LINES_STATE_WORDS];
 *     mihadrena_lines_open(state, 8, index, 8);
 *     mihadrena_lines_piece(state, 8, (const uint8_t *)"a\n\xce", 3, index, 8);
 *     mihadrena_lines_piece(state, 8, (const uint8_t *)"\xbb" "b\n", 3, index, 8);
 *     mihadrena_lines_end(state, 8, index, 8, values, 2);  // MIHADRENA_SERVED: 3 starts
 */
void mihadrena_lines_open(uint32_t *state, size_t state_length, uint32_t *index, size_t index_length);
void mihadrena_lines_piece(uint32_t *state, size_t state_length, const uint8_t *piece, size_t piece_length,
                           uint32_t *index, size_t index_length);
uint32_t mihadrena_lines_end(const uint32_t *state, size_t state_length, const uint32_t *index, size_t index_length,
                             uint64_t *values, size_t values_length);

/* -- Nested lists ---------------------------------------------------------------------------------------------------------- */

/* A node: a datum of R7RS 7.1.2. A datum that #; drops, a comment and a dot leave none. */
typedef struct mihadrena_node {
    uint32_t kind;    /* MIHADRENA_NODE_BOOLEAN and so on */
    uint32_t item;    /* the number of the record that it starts with */
    uint32_t beneath; /* how many nodes lie beneath it: they follow it, and its next sibling follows them */
} mihadrena_node;

/* How many words a node has. */
#define MIHADRENA_NODE_WORDS 3

MIHADRENA_ASSERT(sizeof(mihadrena_node) == 4 * MIHADRENA_NODE_WORDS, "a node is MIHADRENA_NODE_WORDS words");

/* The kinds of nodes, each with the smallest text that makes it. */
#define MIHADRENA_NODE_BOOLEAN 0     /* #t */
#define MIHADRENA_NODE_NUMBER 1      /* 1 */
#define MIHADRENA_NODE_CHARACTER 2   /* #\a */
#define MIHADRENA_NODE_STRING 3      /* "" */
#define MIHADRENA_NODE_SYMBOL 4      /* a: an identifier, a keyword, or a word such as if */
#define MIHADRENA_NODE_LIST 5        /* () */
#define MIHADRENA_NODE_DOTTED_LIST 6 /* (a . a): its data and last the one behind the dot lie beneath it */
#define MIHADRENA_NODE_VECTOR 7      /* #() */
#define MIHADRENA_NODE_BYTE_LIST 8   /* #u8() */
#define MIHADRENA_NODE_MARK 9        /* 'a: a quoting mark, its datum lies beneath it; its item tells which of the eight */

/* How many brackets, marks and #; may lie inside one another. */
#define MIHADRENA_DEEPEST 64

/* How many values mihadrena_nest writes. */
#define MIHADRENA_NEST_VALUES 1

/* Builds the nodes of records: they go to `nodes`, MIHADRENA_NODE_WORDS words each, from the front on.
 *
 * MIHADRENA_SERVED: values[0] is how many nodes were written; all memory behind them stays as it was. A refused call writes no node, and
 * values[0] is what it comes with. With no room for a value none is written. There are never more nodes than records. The records' depths
 * are not looked at. Words behind the last whole record, where records_length is no multiple of MIHADRENA_RECORD_WORDS, are no record; so
 * with nodes_length, of which nodes_length / MIHADRENA_NODE_WORDS nodes are the room.
 *
 *     // records of (a), from mihadrena_read
 *     mihadrena_node nodes[3];
 *     uint64_t values[MIHADRENA_NEST_VALUES];
 *     uint32_t answer = mihadrena_nest((const uint32_t *)records, 3 * MIHADRENA_RECORD_WORDS, (uint32_t *)nodes, 3 * MIHADRENA_NODE_WORDS,
 *                                      values, MIHADRENA_NEST_VALUES);
 *     // answer == MIHADRENA_SERVED, values[0] == 2, nodes[0] is { MIHADRENA_NODE_LIST, 0, 1 }, nodes[1] is { MIHADRENA_NODE_SYMBOL, 1, 0 }
 */
uint32_t mihadrena_nest(const uint32_t *records, size_t records_length, uint32_t *nodes, size_t nodes_length, uint64_t *values,
                        size_t values_length);

/* The first node that lies beneath a node, and the next one beside it, both directly beneath the node `within`; at the top `within` is how
 * many nodes there are. Where there is none the answer is how many nodes there are. A node that says that more lie beneath it than there
 * are ends with the last one.
 *
 *     // nodes of (a (b) c): 0 the list, 1 a, 2 the list (b), 3 b, 4 c
 *     mihadrena_first_child((const uint32_t *)nodes, 5 * MIHADRENA_NODE_WORDS, 0);      // 1
 *     mihadrena_next_sibling((const uint32_t *)nodes, 5 * MIHADRENA_NODE_WORDS, 0, 2);  // 4
 *     mihadrena_next_sibling((const uint32_t *)nodes, 5 * MIHADRENA_NODE_WORDS, 2, 3);  // 5: there is none
 */
size_t mihadrena_first_child(const uint32_t *nodes, size_t nodes_length, size_t at);
size_t mihadrena_next_sibling(const uint32_t *nodes, size_t nodes_length, size_t within, size_t at);

/* The bracket in which the record number `at` lies, and of a close the one that it closes: the number of its record. How many records there
 * are, if it lies in none or there is no such record. It goes by the depths, back from `at`.
 *
 *     // records of (a (b)): 0 (, 1 a, 2 (, 3 b, 4 ), 5 )
 *     mihadrena_opener((const uint32_t *)records, 6 * MIHADRENA_RECORD_WORDS, 4);  // 2
 *     mihadrena_opener((const uint32_t *)records, 6 * MIHADRENA_RECORD_WORDS, 0);  // 6: it lies in none
 */
size_t mihadrena_opener(const uint32_t *records, size_t records_length, size_t at);

/* Whether all records lie in a source and a text memory of these lengths: extents and places in the source, texts where they say. Records
 * that were stored or sent are tried with it before their places are used.
 *
 *     // records of (a), whose source has three bytes
 *     mihadrena_records_fit((const uint32_t *)records, 3 * MIHADRENA_RECORD_WORDS, 3, 0);  // true
 *     mihadrena_records_fit((const uint32_t *)records, 3 * MIHADRENA_RECORD_WORDS, 2, 0);  // false
 */
bool mihadrena_records_fit(const uint32_t *records, size_t records_length, size_t source_length, size_t text_length);

/* -- Findings ------------------------------------------------------------------------------------------------------------- */

/* What a foreman can act on in a plan: its errors, and what reads well but is hardly meant. docs/FINDINGS.md has every code. */

/* How bad a finding is. mihadrena_find gives the first two; mihadrena_render also takes a warning that counts as an error. */
#define MIHADRENA_WARNING 1
#define MIHADRENA_ERROR 2
#define MIHADRENA_WARNING_AS_ERROR 3

/* The code of the warning that terminals which read in plain mode read otherwise: W07. */
#define MIHADRENA_PLAIN_OTHERWISE 7

/* A finding. Places are in bytes of the source. */
typedef struct mihadrena_finding {
    uint32_t severity;   /* MIHADRENA_WARNING or MIHADRENA_ERROR */
    uint32_t code;       /* the number behind W or E: 1 to 13 of an error item, 20 and 21 of a text, 40 to 44 of nested lists; W 1 to 7 */
    uint32_t detail;     /* what the message needs beside: a character, the bad byte, a length, a count; else 0 */
    uint32_t start;      /* the place */
    uint32_t end;
    uint32_t also_start; /* the second place: an opening bracket, a quote that is left over; 0 and 0 where there is none */
    uint32_t also_end;
} mihadrena_finding;

/* How many words a finding has. */
#define MIHADRENA_FINDING_WORDS 7

MIHADRENA_ASSERT(sizeof(mihadrena_finding) == 4 * MIHADRENA_FINDING_WORDS, "a finding is MIHADRENA_FINDING_WORDS words");

/* How many values mihadrena_find writes. */
#define MIHADRENA_FIND_VALUES 2

/* Finds what there is to find in a plan, in report mode: findings go to `findings`, MIHADRENA_FINDING_WORDS words each, from the front on,
 * in the order of their rows, as many whole ones as fit. There is no error among them exactly if the plan is within the limit and UTF-8, has
 * no error item in report mode and its records form data.
 *
 * `records` is working memory: it holds the plan's rows, ten words each (MIHADRENA_RECORD_WORDS).
 *
 * MIHADRENA_SERVED: values[0] is how many findings there are, be they written or not, and values[1] how many of them are errors. A text that
 * is too long (20) or not UTF-8 (21) has one finding that says so, and is served. MIHADRENA_TOO_FEW: `records` is too short; values[0] is how
 * many records are needed, values[1] is 0, and `findings` stays as it was. With no room for both values none is written.
 *
 *     uint32_t records[7 * MIHADRENA_RECORD_WORDS];
 *     mihadrena_finding findings[1];
 *     uint64_t values[MIHADRENA_FIND_VALUES];
 *     uint32_t answer = mihadrena_find((const uint8_t *)"(a 14.7m", 8, records, 7 * MIHADRENA_RECORD_WORDS, (uint32_t *)findings,
 *                                      MIHADRENA_FINDING_WORDS, values, MIHADRENA_FIND_VALUES);
 *     // answer == MIHADRENA_SERVED, values[0] == 2, values[1] == 1, findings[0] is { MIHADRENA_ERROR, 40, 1, 0, 1, 0, 0 }
 */
uint32_t mihadrena_find(const uint8_t *source, size_t source_length, uint32_t *records, size_t records_length, uint32_t *findings,
                        size_t findings_length, uint64_t *values, size_t values_length);

/* How a finding is rendered: with a picture and help; the headline, and the note at the second place, alone; as one object of JSON. */
#define MIHADRENA_STYLE_FULL 0
#define MIHADRENA_STYLE_BRIEF 1
#define MIHADRENA_STYLE_JSON 2

/* Renders a finding of the text `source`, which goes by the name `name`: its bytes are written from the front of `out` on, as many as fit, and
 * the answer is how many there are, so that a caller who lent too little lends that much and calls again. All memory behind them stays as it
 * was. `colour` puts a terminal's escape sequences around the severity and the carets, in no JSON. Words that have no message and a style that
 * is not there have 0 bytes. Line and column count as mihadrena_locate counts them, and any bytes have them.
 *
 *     const uint32_t finding[] = {MIHADRENA_WARNING, 2, 0, 3, 8, 0, 0};
 *     uint8_t out[80];
 *     size_t needed = mihadrena_render(finding, 7, (const uint8_t *)"(a 14.7m", 8, (const uint8_t *)"a.scm", 5, MIHADRENA_STYLE_BRIEF, false,
 *                                      out, sizeof out);
 *     // needed == 74: a.scm:1:4: warning: this begins like a number and is read as a name [W02]
 */
size_t mihadrena_render(const uint32_t *finding, size_t finding_length, const uint8_t *source, size_t source_length,
                        const uint8_t *name, size_t name_length, uint32_t style, bool colour, uint8_t *out, size_t out_length);

/* Renders the last lines of a file in the same way: how many findings were not told, if fewer were told than there are, and `NAME: ok` or how
 * many errors and warnings there are. In JSON there are none. */
size_t mihadrena_summary(const uint8_t *name, size_t name_length, size_t findings, size_t errors, size_t told, uint32_t style,
                         uint8_t *out, size_t out_length);

/* -- Item files ------------------------------------------------------------------------------------------------------------ */

/* Records as a file: ten numbers an item, each in groups of seven bits, so that a stored plan takes about a quarter of its records' bytes
 * and need not be read again. docs/ITEMFILE.md has the format on one page, and what to keep beside such a file: it holds neither the source
 * nor the text memory that its records point into. Every list of records has one file, and every file that is served is the file of the
 * records that it gives. */

/* The most bytes that an item takes, and how many values the two calls write. */
#define MIHADRENA_ITEM_FILE_BYTES 50
#define MIHADRENA_ITEMS_VALUES 1

/* Writes the item file of the records in `records` from the front of `out` on; words left over behind the last whole record are not looked
 * at. MIHADRENA_SERVED: values[0] is how many bytes it has, and all memory behind them stays as it was. Refusals, in this order:
 * MIHADRENA_GOES_BACK, at the first record that starts before the one before it, or whose extent, place or text ends before it starts:
 * values[0] is the record, from 0; MIHADRENA_TOO_FEW: values[0] is how many bytes are needed. Then `out` keeps every byte. Records that
 * mihadrena_read, the piece calls or mihadrena_reader_next gave, one after another, are never MIHADRENA_GOES_BACK. With fewer than
 * MIHADRENA_ITEMS_VALUES values none is written.
 *
 *     const uint8_t source[] = "(a";
 *     mihadrena_record records[2];
 *     uint8_t text[2], file[2 * MIHADRENA_ITEM_FILE_BYTES];
 *     uint64_t values[2];
 *     mihadrena_read(source, 2, MIHADRENA_REPORT, false, (uint32_t *)records, 2 * MIHADRENA_RECORD_WORDS, text, 2, values, 2);
 *     mihadrena_items_write((const uint32_t *)records, 2 * MIHADRENA_RECORD_WORDS, file, sizeof file, values, MIHADRENA_ITEMS_VALUES);
 *     // MIHADRENA_SERVED, values[0] == 20: 0 0 0 1 0 1 0 0 0 0 27 0 1 1 1 1 1 1 1 1
 */
uint32_t mihadrena_items_write(const uint32_t *records, size_t records_length, uint8_t *out, size_t out_length, uint64_t *values,
                               size_t values_length);

/* Reads an item file: its records go to `records` from the front on. MIHADRENA_SERVED: values[0] is how many items it has, and all memory
 * behind them stays as it was. Refusals: at the first number that fails, and then values[0] is which number of the file it is, from 0,
 * MIHADRENA_WRONG_NUMBER, else MIHADRENA_CUT_SHORT, or MIHADRENA_OVER_SUM; after these MIHADRENA_TOO_FEW: values[0] is how many items there
 * are. Then `records` keeps every word.
 *
 * Any bytes may be given: every call ends in one of these answers, after at most two passes over the file. A file that is served has items
 * whose starts and ends do not go back, and no more is known of it: its kinds may be none that a lexer gives, and its places may lie past
 * any source. mihadrena_nest looks at kinds and details (MIHADRENA_ALIEN), and so does writing a plan back; mihadrena_text_mark looks at a
 * text's places.
 *
 *     const uint8_t twice[] = {28, 128, 0};
 *     mihadrena_items_read(twice, 3, (uint32_t *)records, 0, values, MIHADRENA_ITEMS_VALUES);
 *     // MIHADRENA_WRONG_NUMBER, values[0] == 1: 0 takes one group, here it has two
 */
uint32_t mihadrena_items_read(const uint8_t *file, size_t file_length, uint32_t *records, size_t records_length, uint64_t *values,
                              size_t values_length);

/* -- Writing a plan back --------------------------------------------------------------------------------------------------- */

/* How many values mihadrena_write writes. */
#define MIHADRENA_WRITE_VALUES 1

/* Writes the text of records to `out`, from the front on: the items in their order, one space between two. `source` and `text` are what
 * the records' extents and texts lie in: what mihadrena_read was lent and wrote, or what a program made of it since.
 *
 * An identifier is written bare where it reads back as the same identifier at its place, else in vertical lines; a string in quotes. In
 * both a backslash stands before a backslash and before the closing mark, and nothing else is escaped. Two identifiers in a row with one
 * extent, the first `+`, are written as one word where that word reads back as the two, as in +foo. Any other item is the bytes of its
 * extent. So a name or a string is changed by another text in `text`, and a number by an extent that has the new one: put it behind the
 * source. docs/WRITING.md and examples/c/write.c show both.
 *
 * Records with no error and no comment, of a text read in MIHADRENA_REPORT: the result, read in MIHADRENA_REPORT, has the same kinds,
 * details, texts, depths and number parts, also where identifiers and strings were given other texts; and written again it is the same.
 *
 * MIHADRENA_SERVED: values[0] is how many bytes were written; the memory behind them stays as it was. Refused, no byte of `out` changes and
 * values[0] is what the refusal comes with. With no room for a value none is written. First, at the first record that is refused, the
 * record's number, counted from 0, with:
 *   MIHADRENA_ALIEN exactly if the kind is neither one of MIHADRENA_OPEN_PAREN to MIHADRENA_DOT nor an error's; or the extent ends before
 *     it starts, passes the source or isn't whole characters; or the text source is none of the three; or it is MIHADRENA_NO_TEXT, and the
 *     kind MIHADRENA_IDENTIFIER, MIHADRENA_KEYWORD or MIHADRENA_STRING_LITERAL; or the text ends before it starts, passes the source or
 *     the text memory or isn't whole characters. An empty part is. The detail, the place and the depth are not looked at;
 *   else MIHADRENA_UNWRITTEN exactly if it is an error or a MIHADRENA_COMMENT.
 * Then MIHADRENA_TOO_LONG if the result exceeds MIHADRENA_LONGEST bytes. Last MIHADRENA_TOO_FEW if it does not fit `out`, with the bytes it
 * has: to be told these, lend no memory.
 *
 * Comments: read with `skip_comments` to write a plan without them. To keep them and every blank, write one changed record alone and put
 * its word between what stands before and behind the old item's extent in the source; examples/c/write.c does, and reads the result to see
 * that no word runs into its neighbour.
 *
 *     // records of (a 1), from mihadrena_read; the name becomes one with a blank
 *     records[1].text_source = MIHADRENA_IN_MEMORY;
 *     records[1].text_start = 0;
 *     records[1].text_end = 3;
 *     uint8_t out[16];
 *     uint64_t values[MIHADRENA_WRITE_VALUES];
 *     uint32_t answer = mihadrena_write((const uint32_t *)records, 4 * MIHADRENA_RECORD_WORDS, source, 5, (const uint8_t *)"b c", 3,
 *                                       out, sizeof out, values, MIHADRENA_WRITE_VALUES);
 *     // answer == MIHADRENA_SERVED, values[0] == 11, and out starts with ( |b c| 1 )
 */
uint32_t mihadrena_write(const uint32_t *records, size_t records_length, const uint8_t *source, size_t source_length,
                         const uint8_t *text, size_t text_length, uint8_t *out, size_t out_length, uint64_t *values,
                         size_t values_length);

/* -- One name table for planner and contractor ----------------------------------------------------------------------------- */

/* A table gives each distinct name a number, the same for both parties. It lies in memory that the caller keeps: this many words and bytes,
 * or more. docs/NAMES.md says what they hold, and outside which bounds they are refused: none that the calls made is. A call tries its
 * refusals in the order of their numbers; refused, it leaves the table as it was. */
#define MIHADRENA_NAMES_WORDS 3078
#define MIHADRENA_NAMES_BYTES 32768

/* The parties, and the first number of each: at most 512 names and 16,384 name bytes are first entered by each. */
#define MIHADRENA_PLANNER 0
#define MIHADRENA_CONTRACTOR 1
#define MIHADRENA_PLANNERS_FIRST 0
#define MIHADRENA_CONTRACTORS_FIRST 512

/* Opens a table: its words are cleared, and no byte is written. MIHADRENA_SERVED, or MIHADRENA_OUT_OF_BOUNDS for too little memory.
 *
 *     static uint32_t words[MIHADRENA_NAMES_WORDS];
 *     static uint8_t bytes[MIHADRENA_NAMES_BYTES];
 *     mihadrena_names_open(words, MIHADRENA_NAMES_WORDS, bytes, MIHADRENA_NAMES_BYTES);  // MIHADRENA_SERVED
 */
uint32_t mihadrena_names_open(uint32_t *words, size_t words_length, const uint8_t *bytes, size_t bytes_length);

/* A party asks for a name's number. A name that neither has entered is entered in the party's own half, with its next number.
 * MIHADRENA_SERVED, or MIHADRENA_OUT_OF_BOUNDS, MIHADRENA_NO_PARTY, MIHADRENA_NO_ROOM; `number` is then 0.
 *
 *     uint32_t number;
 *     mihadrena_names_enter(words, MIHADRENA_NAMES_WORDS, bytes, MIHADRENA_NAMES_BYTES, MIHADRENA_CONTRACTOR,
 *                           (const uint8_t *)"Fagus", 5, &number);  // MIHADRENA_SERVED, number == 512
 *     mihadrena_names_enter(words, MIHADRENA_NAMES_WORDS, bytes, MIHADRENA_NAMES_BYTES, MIHADRENA_PLANNER,
 *                           (const uint8_t *)"Fagus", 5, &number);  // MIHADRENA_SERVED, number == 512
 */
uint32_t mihadrena_names_enter(uint32_t *words, size_t words_length, uint8_t *bytes, size_t bytes_length, uint32_t party,
                               const uint8_t *name, size_t name_length, uint32_t *number);

/* Where a number's name lies in `bytes`. MIHADRENA_SERVED, or MIHADRENA_OUT_OF_BOUNDS, MIHADRENA_NO_NAME; both places are then 0.
 *
 *     size_t start, end;
 *     mihadrena_names_place(words, MIHADRENA_NAMES_WORDS, bytes, MIHADRENA_NAMES_BYTES, 512, &start, &end);  // MIHADRENA_SERVED
 *     // end - start == 5, and `Fagus` is at bytes + start
 */
uint32_t mihadrena_names_place(const uint32_t *words, size_t words_length, const uint8_t *bytes, size_t bytes_length, uint32_t number,
                               size_t *start, size_t *end);

#ifdef __cplusplus
}
#endif

#endif
