//! The library as `include/mihadrena.h` declares it for C: its constants, its layouts and its functions. The rest of this crate is built
//! on it; a program that keeps records for other programs needs it too. The header says what each constant means and each function does.
//!
//! A pointer and the length behind it are one slice: the pointer is not null, not even where the length is 0, and memory that a call
//! writes to overlaps with no other memory of that call.

// The version, as the header has it.
pub const VERSION_MAJOR: u32 = 0;
pub const VERSION_MINOR: u32 = 26;
pub const VERSION_PATCH: u32 = 0;

/// How many words a record has.
pub const RECORD_WORDS: usize = 10;

/// One item: docs/RULES.md, "Items and records".
#[repr(C)]
#[derive(Clone, Copy, Debug, Default, PartialEq, Eq, Hash)]
pub struct Record {
    /// `OPEN_PAREN` and so on; of an error, `UNEXPECTED_CHAR` and so on.
    pub kind: u32,
    /// A character's code point; 0 or 1 of a boolean; a bracket; what an error comes with; else 0.
    pub detail: u32,
    /// The extent: where the item stands in the source, in bytes.
    pub start: u32,
    pub end: u32,
    /// The place: what an error points at; of any other item the extent.
    pub place_start: u32,
    pub place_end: u32,
    /// `NO_TEXT`, `IN_SOURCE` or `IN_MEMORY`.
    pub text_source: u32,
    /// Where the text lies there, in bytes.
    pub text_start: u32,
    pub text_end: u32,
    /// How many brackets are open before the item; a close with none open leaves 0.
    pub depth: u32,
}

// Where a record's text lies.
pub const NO_TEXT: u32 = 0;
pub const IN_SOURCE: u32 = 1;
pub const IN_MEMORY: u32 = 2;

// The kinds.
pub const OPEN_PAREN: u32 = 0;
pub const CLOSE_PAREN: u32 = 1;
pub const QUOTE_TICK: u32 = 2;
pub const QUASI_QUOTE: u32 = 3;
pub const UNQUOTE: u32 = 4;
pub const UNQUOTE_SPLICE: u32 = 5;
pub const QUOTE_SYNTAX: u32 = 6;
pub const QUASI_QUOTE_SYNTAX: u32 = 7;
pub const UNQUOTE_SYNTAX: u32 = 8;
pub const UNQUOTE_SPLICE_SYNTAX: u32 = 9;
pub const IF: u32 = 10;
pub const DEFINE: u32 = 11;
pub const LET: u32 = 12;
pub const TEST_LET: u32 = 13;
pub const RETURN: u32 = 14;
pub const BEGIN: u32 = 15;
pub const LAMBDA: u32 = 16;
pub const QUOTE: u32 = 17;
pub const SYNTAX_RULES: u32 = 18;
pub const DEFINE_SYNTAX: u32 = 19;
pub const ELLIPSES: u32 = 20;
pub const SET: u32 = 21;
pub const REQUIRE: u32 = 22;
pub const CHARACTER_LITERAL: u32 = 23;
pub const DATUM_COMMENT: u32 = 24;
pub const COMMENT: u32 = 25;
pub const BOOLEAN_LITERAL: u32 = 26;
pub const IDENTIFIER: u32 = 27;
pub const KEYWORD: u32 = 28;
pub const NUMBER: u32 = 29;
pub const STRING_LITERAL: u32 = 30;
pub const DOT: u32 = 31;

// The details of a bracket.
pub const ROUND: u32 = 0;
pub const SQUARE: u32 = 1;
pub const CURLY: u32 = 2;
pub const VECTOR: u32 = 3;
pub const BYTES: u32 = 6;

// The kinds of errors.
pub const FIRST_ERROR: u32 = 100;
pub const UNEXPECTED_CHAR: u32 = 101;
pub const INCOMPLETE_STRING: u32 = 102;
pub const INCOMPLETE_IDENTIFIER: u32 = 103;
pub const INCOMPLETE_COMMENT: u32 = 104;
pub const INVALID_WHITESPACE: u32 = 105;
pub const INVALID_STRING_ESCAPE: u32 = 106;
pub const INVALID_CHARACTER: u32 = 107;
pub const ZERO_DENOMINATOR: u32 = 108;
pub const UNCLOSED_HEX_ESCAPE: u32 = 109;
pub const INVALID_CHAR_NAME: u32 = 110;
pub const INVALID_HEX_ESCAPE_LITERAL: u32 = 111;
pub const INVALID_HEX_CODE_POINT: u32 = 112;
pub const INVALID_CHAR_DELIMITER: u32 = 113;

// The details of an invalid hex escape literal.
pub const HEX_EMPTY: u32 = 1;
pub const HEX_INVALID_DIGIT: u32 = 2;
pub const HEX_OVERFLOW: u32 = 3;

// What a call answers: served, or a refusal.
pub const SERVED: u32 = 0;
pub const TOO_LONG: u32 = 20;
pub const NOT_UTF8: u32 = 21;
pub const TOO_FEW: u32 = 22;
pub const LONG_ITEM: u32 = 23;
pub const LITTLE_TEXT: u32 = 24;
pub const NO_MODE: u32 = 25;
pub const AFTER_END: u32 = 26;
pub const OUT_OF_BOUNDS: u32 = 27;
pub const NO_COORDINATE: u32 = 28;
pub const CUT_SHORT: u32 = 29;
pub const WRONG_NUMBER: u32 = 30;
pub const OVER_SUM: u32 = 31;
pub const GOES_BACK: u32 = 32;
pub const LINES_NO_ROOM: u32 = 33;
pub const NO_PLACE: u32 = 34;
pub const NO_PARTY: u32 = 35;
pub const NO_ROOM: u32 = 36;
pub const NO_NAME: u32 = 37;
pub const BAD_ENDS: u32 = 38;
pub const UNKNOWN_CHOICE: u32 = 39;
pub const BRACKET_OPEN: u32 = 40;
pub const WRONG_CLOSE: u32 = 41;
pub const MISPLACED_DOT: u32 = 42;
pub const MARK_WAITS: u32 = 43;
pub const TOO_DEEP: u32 = 44;
pub const ERROR_ITEM: u32 = 45;
pub const FEW_NODES: u32 = 46;
pub const UNWRITTEN: u32 = 47;
pub const ALIEN: u32 = 48;

/// The longest text, in bytes.
pub const LONGEST: u64 = 4294967295;

// The modes.
pub const PLAIN: u32 = 0;
pub const REPORT: u32 = 1;

/// How many values `mihadrena_read` writes.
pub const READ_VALUES: usize = 2;

/// How many words a row has.
pub const ROW_WORDS: usize = 4;

/// What a part of a source gave to `mihadrena_read_fields`.
#[repr(C)]
#[derive(Clone, Copy, Debug, Default, PartialEq, Eq, Hash)]
pub struct Row {
    /// The part's first record; its records go on to the next row's.
    pub first_record: u32,
    /// Its first text byte; its text memory goes on to the next row's.
    pub first_byte: u32,
    /// `SERVED`, or `NOT_UTF8`: then it has no records and no text.
    pub mark: u32,
    /// Of `NOT_UTF8`, the start of the first bad sequence, from the part's start; else 0.
    pub place: u32,
}

/// How many values `mihadrena_read_fields` writes.
pub const FIELDS_VALUES: usize = 2;

// What a piece or end call answers beside refusals.
pub const ITEM: u32 = 10;
pub const MORE: u32 = 11;
pub const FINISHED: u32 = 12;

/// The least text memory that a piece or end call asks for.
pub const PIECE_TEXT: usize = 4096;

/// How many values they write.
pub const PIECE_VALUES: usize = 2;

// What a state has.
pub const STATE_BYTES: usize = 4096;
pub const STATE_WORDS: usize = 19;
pub const STATE_SIZE: usize = 4248;
pub const STATE_ALIGN: usize = 8;

/// The state of a reading in pieces, which the caller keeps from call to call; docs/STATE.md says what its words mean.
#[repr(C)]
#[derive(Clone, Debug, PartialEq, Eq)]
pub struct State {
    /// The bytes of the item that is being read.
    pub bytes: [u8; STATE_BYTES],
    pub words: [u64; STATE_WORDS],
}

/// The values of a piece or end call.
#[repr(C)]
#[derive(Clone, Copy, Debug, Default, PartialEq, Eq)]
pub struct Told {
    /// What a refusal comes with; else 0.
    pub place: u64,
    /// How many bytes of the piece were taken.
    pub taken: u64,
}

/// How many words a position of the reader has; docs/STATE.md says what they mean.
pub const READER_WORDS: usize = 7;

/// How many values `mihadrena_reader_open` and `mihadrena_reader_next` write.
pub const READER_VALUES: usize = 2;

// What `mihadrena_number` answers beside refusals.
pub const A_NUMBER: u32 = 0;
pub const NO_NUMBER: u32 = 1;
pub const ZERO: u32 = 8;

/// How many words `mihadrena_number` writes.
pub const NUMBER_WORDS: usize = 27;

// What a figure has.
pub const NOTHING: u64 = 0;
pub const VALUE: u64 = 1;
pub const PLACES: u64 = 2;

/// A value, or the places of digits in the number's text.
#[repr(C)]
#[derive(Clone, Copy, Debug, Default, PartialEq, Eq)]
pub struct Figure {
    pub has: u64,
    pub minus: u64,
    pub first: u64,
    pub second: u64,
}

// A real's forms.
pub const NO_REAL: u64 = 0;
pub const INTEGER: u64 = 1;
pub const RATIONAL: u64 = 2;
pub const DECIMAL: u64 = 3;
pub const INFINITY: u64 = 4;
pub const NAN: u64 = 5;
pub const IMPLIED_ZERO: u64 = 6;
pub const IMPLIED_ONE: u64 = 7;

/// A real number, or a part of a number that is none.
#[repr(C)]
#[derive(Clone, Copy, Debug, Default, PartialEq, Eq)]
pub struct Real {
    pub form: u64,
    pub one: Figure,
    pub two: Figure,
    pub three: Figure,
}

// A number's forms.
pub const REAL: u64 = 0;
pub const COMPLEX: u64 = 1;
pub const POLAR: u64 = 2;

/// What `mihadrena_number` writes.
#[repr(C)]
#[derive(Clone, Copy, Debug, Default, PartialEq, Eq)]
pub struct Parts {
    pub form: u64,
    pub one: Real,
    pub two: Real,
}

// What `mihadrena_code_at` answers where no character stands.
pub const CODE_BAD: u32 = 0x110000;
pub const CODE_CUT: u32 = 0x110001;
pub const CODE_END: u32 = 0x110002;

/// How many words a node has.
pub const NODE_WORDS: usize = 3;

/// A node: a datum of a text.
#[repr(C)]
#[derive(Clone, Copy, Debug, Default, PartialEq, Eq, Hash)]
pub struct Node {
    /// `NODE_BOOLEAN` and so on.
    pub kind: u32,
    /// The number of the record that it starts with.
    pub item: u32,
    /// How many nodes lie beneath it: they follow it, and its next sibling follows them.
    pub beneath: u32,
}

// The kinds of nodes.
pub const NODE_BOOLEAN: u32 = 0;
pub const NODE_NUMBER: u32 = 1;
pub const NODE_CHARACTER: u32 = 2;
pub const NODE_STRING: u32 = 3;
pub const NODE_SYMBOL: u32 = 4;
pub const NODE_LIST: u32 = 5;
pub const NODE_DOTTED_LIST: u32 = 6;
pub const NODE_VECTOR: u32 = 7;
pub const NODE_BYTE_LIST: u32 = 8;
pub const NODE_MARK: u32 = 9;

/// How many brackets, marks and `#;` may lie inside one another.
pub const DEEPEST: usize = 64;

/// How many values `mihadrena_nest` writes.
pub const NEST_VALUES: usize = 1;

/// The most bytes that an item takes in an item file.
pub const ITEM_FILE_BYTES: usize = 50;

/// How many values `mihadrena_items_write` and `mihadrena_items_read` write.
pub const ITEMS_VALUES: usize = 1;

/// How many values `mihadrena_write` writes.
pub const WRITE_VALUES: usize = 1;

// The readers of `mihadrena_number_by`.
pub const BOUGHT: u32 = 0;
pub const STANDARD: u32 = 1;

/// How many values the line calls write.
pub const LINES_VALUES: usize = 2;

/// The words of a state of an index from pieces.
pub const LINES_STATE_WORDS: usize = 8;

// The name table: what it takes, the parties, and their first numbers.
pub const NAMES_WORDS: usize = 3078;
pub const NAMES_BYTES: usize = 32768;
pub const PLANNER: u32 = 0;
pub const CONTRACTOR: u32 = 1;
pub const PLANNERS_FIRST: u32 = 0;
pub const CONTRACTORS_FIRST: u32 = 512;

/// How many words a finding has.
pub const FINDING_WORDS: usize = 7;

/// How many values `mihadrena_find` writes.
pub const FIND_VALUES: usize = 2;

// How bad a finding is; the last is a warning that counts as an error, for `mihadrena_render` alone.
pub const WARNING: u32 = 1;
pub const ERROR: u32 = 2;
pub const WARNING_AS_ERROR: u32 = 3;

/// The code of W07.
pub const PLAIN_OTHERWISE: u32 = 7;

// How a finding is rendered.
pub const STYLE_FULL: u32 = 0;
pub const STYLE_BRIEF: u32 = 1;
pub const STYLE_JSON: u32 = 2;

/// A finding. Places are in bytes of the source.
#[repr(C)]
#[derive(Clone, Copy, Debug, Default, PartialEq, Eq, Hash)]
pub struct Finding {
    /// `WARNING` or `ERROR`.
    pub severity: u32,
    /// The number behind W or E.
    pub code: u32,
    /// What the message needs beside: a character, the bad byte, a length, a count; else 0.
    pub detail: u32,
    /// The place.
    pub start: u32,
    pub end: u32,
    /// The second place; 0 and 0 where there is none.
    pub also_start: u32,
    pub also_end: u32,
}

const _: () = assert!(size_of::<Record>() == RECORD_WORDS * size_of::<u32>());
const _: () = assert!(size_of::<Row>() == ROW_WORDS * size_of::<u32>());
const _: () = assert!(size_of::<State>() == STATE_SIZE && align_of::<State>() == STATE_ALIGN);
const _: () = assert!(size_of::<Told>() == PIECE_VALUES * size_of::<u64>());
const _: () = assert!(size_of::<Parts>() == NUMBER_WORDS * size_of::<u64>());
const _: () = assert!(size_of::<Node>() == NODE_WORDS * size_of::<u32>());
const _: () = assert!(size_of::<Finding>() == FINDING_WORDS * size_of::<u32>());

extern "C" {
    pub fn mihadrena_read(
        source: *const u8,
        source_length: usize,
        mode: u32,
        skip_comments: bool,
        records: *mut u32,
        records_length: usize,
        text: *mut u8,
        text_length: usize,
        values: *mut u64,
        values_length: usize,
    ) -> u32;
    pub fn mihadrena_read_fields(
        source: *const u8,
        source_length: usize,
        ends: *const u32,
        ends_length: usize,
        mode: u32,
        skip_comments: bool,
        rows: *mut u32,
        rows_length: usize,
        records: *mut u32,
        records_length: usize,
        text: *mut u8,
        text_length: usize,
        values: *mut u64,
        values_length: usize,
    ) -> u32;
    pub fn mihadrena_open(
        mode: u32,
        skip_comments: bool,
        bytes: *mut u8,
        bytes_length: usize,
        words: *mut u64,
        words_length: usize,
    ) -> u32;
    pub fn mihadrena_piece(
        bytes: *mut u8,
        bytes_length: usize,
        words: *mut u64,
        words_length: usize,
        piece: *const u8,
        piece_length: usize,
        text: *mut u8,
        text_length: usize,
        record: *mut u32,
        record_length: usize,
        values: *mut u64,
        values_length: usize,
    ) -> u32;
    pub fn mihadrena_end(
        bytes: *mut u8,
        bytes_length: usize,
        words: *mut u64,
        words_length: usize,
        text: *mut u8,
        text_length: usize,
        record: *mut u32,
        record_length: usize,
        values: *mut u64,
        values_length: usize,
    ) -> u32;
    pub fn mihadrena_reader_open(
        source: *const u8,
        source_length: usize,
        mode: u32,
        skip_comments: bool,
        position: *mut u64,
        position_length: usize,
        values: *mut u64,
        values_length: usize,
    ) -> u32;
    pub fn mihadrena_reader_next(
        source: *const u8,
        source_length: usize,
        position: *mut u64,
        position_length: usize,
        text: *mut u8,
        text_length: usize,
        record: *mut u32,
        record_length: usize,
        values: *mut u64,
        values_length: usize,
    ) -> u32;
    pub fn mihadrena_text_mark(
        source: *const u8,
        source_length: usize,
        text: *const u8,
        text_length: usize,
        text_source: u32,
        start: u32,
        end: u32,
    ) -> u32;
    pub fn mihadrena_number(text: *const u8, text_length: usize, words: *mut u64, words_length: usize) -> u32;
    pub fn mihadrena_good_bytes(text: *const u8, text_length: usize) -> usize;
    pub fn mihadrena_code_at(text: *const u8, text_length: usize, at: usize) -> u32;
    pub fn mihadrena_next_at(text: *const u8, text_length: usize, at: usize) -> usize;
    pub fn mihadrena_is_blank(code: u32) -> bool;
    pub fn mihadrena_put_char(code: u32, text: *mut u8, text_length: usize) -> usize;
    pub fn mihadrena_nest(
        records: *const u32,
        records_length: usize,
        nodes: *mut u32,
        nodes_length: usize,
        values: *mut u64,
        values_length: usize,
    ) -> u32;
    pub fn mihadrena_first_child(nodes: *const u32, nodes_length: usize, at: usize) -> usize;
    pub fn mihadrena_next_sibling(nodes: *const u32, nodes_length: usize, within: usize, at: usize) -> usize;
    pub fn mihadrena_opener(records: *const u32, records_length: usize, at: usize) -> usize;
    pub fn mihadrena_records_fit(
        records: *const u32,
        records_length: usize,
        source_length: usize,
        text_length: usize,
    ) -> bool;
    pub fn mihadrena_version() -> u32;
    pub fn mihadrena_find(
        source: *const u8,
        source_length: usize,
        records: *mut u32,
        records_length: usize,
        findings: *mut u32,
        findings_length: usize,
        values: *mut u64,
        values_length: usize,
    ) -> u32;
    pub fn mihadrena_render(
        finding: *const u32,
        finding_length: usize,
        source: *const u8,
        source_length: usize,
        name: *const u8,
        name_length: usize,
        style: u32,
        colour: bool,
        out: *mut u8,
        out_length: usize,
    ) -> usize;
    pub fn mihadrena_summary(
        name: *const u8,
        name_length: usize,
        findings: usize,
        errors: usize,
        told: usize,
        style: u32,
        out: *mut u8,
        out_length: usize,
    ) -> usize;
    pub fn mihadrena_write(
        records: *const u32,
        records_length: usize,
        source: *const u8,
        source_length: usize,
        text: *const u8,
        text_length: usize,
        out: *mut u8,
        out_length: usize,
        values: *mut u64,
        values_length: usize,
    ) -> u32;
    pub fn mihadrena_number_by(
        choice: u32,
        text: *const u8,
        text_length: usize,
        words: *mut u64,
        words_length: usize,
    ) -> u32;
    pub fn mihadrena_lines(
        text: *const u8,
        text_length: usize,
        index: *mut u32,
        index_length: usize,
        values: *mut u64,
        values_length: usize,
    ) -> u32;
    pub fn mihadrena_locate(
        text: *const u8,
        text_length: usize,
        index: *const u32,
        index_length: usize,
        place: usize,
        values: *mut u64,
        values_length: usize,
    ) -> u32;
    pub fn mihadrena_locate_all(
        text: *const u8,
        text_length: usize,
        index: *const u32,
        index_length: usize,
        places: *const u32,
        places_length: usize,
        found: *mut usize,
        found_length: usize,
        values: *mut u64,
        values_length: usize,
    ) -> u32;
    pub fn mihadrena_lines_open(state: *mut u32, state_length: usize, index: *mut u32, index_length: usize);
    pub fn mihadrena_lines_piece(
        state: *mut u32,
        state_length: usize,
        piece: *const u8,
        piece_length: usize,
        index: *mut u32,
        index_length: usize,
    );
    pub fn mihadrena_lines_end(
        state: *const u32,
        state_length: usize,
        index: *const u32,
        index_length: usize,
        values: *mut u64,
        values_length: usize,
    ) -> u32;
    pub fn mihadrena_coordinate(text: *const u8, text_length: usize, value: *mut f64, place: *mut u64) -> u32;
    pub fn mihadrena_record_value(
        source: *const u8,
        source_length: usize,
        kind: u32,
        start: u32,
        end: u32,
        value: *mut f64,
        place: *mut u64,
    ) -> u32;
    pub fn mihadrena_record_coordinate(
        source: *const u8,
        source_length: usize,
        kind: u32,
        start: u32,
        end: u32,
        value: *mut f64,
        place: *mut u64,
    ) -> u32;
    pub fn mihadrena_items_write(
        records: *const u32,
        records_length: usize,
        out: *mut u8,
        out_length: usize,
        values: *mut u64,
        values_length: usize,
    ) -> u32;
    pub fn mihadrena_items_read(
        file: *const u8,
        file_length: usize,
        records: *mut u32,
        records_length: usize,
        values: *mut u64,
        values_length: usize,
    ) -> u32;
    pub fn mihadrena_names_open(words: *mut u32, words_length: usize, bytes: *const u8, bytes_length: usize) -> u32;
    pub fn mihadrena_names_enter(
        words: *mut u32,
        words_length: usize,
        bytes: *mut u8,
        bytes_length: usize,
        party: u32,
        name: *const u8,
        name_length: usize,
        number: *mut u32,
    ) -> u32;
    pub fn mihadrena_names_place(
        words: *const u32,
        words_length: usize,
        bytes: *const u8,
        bytes_length: usize,
        number: u32,
        start: *mut usize,
        end: *mut usize,
    ) -> u32;
}
