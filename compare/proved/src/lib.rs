//! The proved functions (crates/exports and others of their kind), each behind a safe function. A slice is passed as a pointer and a length.
//! They are declared once, in `mihadrena::raw`, whose crate links them too.
pub mod lines;

pub mod names;

pub mod writing;

use mihadrena::raw::{
    mihadrena_code_at, mihadrena_end, mihadrena_good_bytes, mihadrena_is_blank, mihadrena_next_at, mihadrena_number,
    mihadrena_number_by, mihadrena_open, mihadrena_piece, mihadrena_put_char, mihadrena_read, mihadrena_read_fields,
};

/// What `code_at` answers where no character stands.
pub const BAD: u32 = 0x110000;
pub const CUT: u32 = 0x110001;
pub const END: u32 = 0x110002;

pub fn good_bytes(text: &[u8]) -> usize {
    unsafe { mihadrena_good_bytes(text.as_ptr(), text.len()) }
}

pub fn code_at(text: &[u8], at: usize) -> u32 {
    unsafe { mihadrena_code_at(text.as_ptr(), text.len(), at) }
}

pub fn next_at(text: &[u8], at: usize) -> usize {
    unsafe { mihadrena_next_at(text.as_ptr(), text.len(), at) }
}

pub fn is_blank(code: u32) -> bool {
    unsafe { mihadrena_is_blank(code) }
}

pub fn put_char(code: u32, text: &mut [u8]) -> usize {
    unsafe { mihadrena_put_char(code, text.as_mut_ptr(), text.len()) }
}

/// 01's numbers of the refusals, which `number` and `read` answer.
pub const TOO_LONG: u32 = 20;
pub const NOT_UTF8: u32 = 21;
pub const TOO_FEW: u32 = 22;
pub const NO_MODE: u32 = 25;
pub const BAD_ENDS: u32 = 38;

/// How many words `number` writes, and what else it answers: a number, none, 01's error 8.
pub const NUMBER_WORDS: usize = 27;
pub const A_NUMBER: u32 = 0;
pub const NO_NUMBER: u32 = 1;
pub const ZERO_DENOMINATOR: u32 = 8;

pub fn number(text: &[u8], words: &mut [u64]) -> u32 {
    unsafe { mihadrena_number(text.as_ptr(), text.len(), words.as_mut_ptr(), words.len()) }
}

/// The readers that `number_by` has: the bought one, which `number` has too, and the standard's.
pub const BOUGHT: u32 = 0;
pub const STANDARD: u32 = 1;

pub fn number_by(choice: u32, text: &[u8], words: &mut [u64]) -> u32 {
    unsafe { mihadrena_number_by(choice, text.as_ptr(), text.len(), words.as_mut_ptr(), words.len()) }
}

/// The words of a record, and what else `read` answers: the items were written.
pub const RECORD_WORDS: usize = 10;
pub const SERVED: u32 = 0;

pub fn read(source: &[u8], mode: u32, skip: bool, records: &mut [u32], text: &mut [u8], values: &mut [u64]) -> u32 {
    let (words, bytes, count) = (records.len(), text.len(), values.len());
    let (records, text, values) = (records.as_mut_ptr(), text.as_mut_ptr(), values.as_mut_ptr());
    unsafe { mihadrena_read(source.as_ptr(), source.len(), mode, skip, records, words, text, bytes, values, count) }
}

/// The words of a row: what `read_fields` tells of a part.
pub const ROW_WORDS: usize = 4;

#[allow(clippy::too_many_arguments)]
pub fn read_fields(
    source: &[u8],
    ends: &[u32],
    mode: u32,
    skip: bool,
    rows: &mut [u32],
    records: &mut [u32],
    text: &mut [u8],
    values: &mut [u64],
) -> u32 {
    let (source, length) = (source.as_ptr(), source.len());
    let (rows, row_words) = (rows.as_mut_ptr(), rows.len());
    let (records, words) = (records.as_mut_ptr(), records.len());
    let (text, bytes) = (text.as_mut_ptr(), text.len());
    let (values, count) = (values.as_mut_ptr(), values.len());
    let (ends, parts) = (ends.as_ptr(), ends.len());
    unsafe {
        mihadrena_read_fields(
            source, length, ends, parts, mode, skip, rows, row_words, records, words, text, bytes, values, count,
        )
    }
}

/// What a piece state has.
pub const STATE_BYTES: usize = 4096;
pub const STATE_WORDS: usize = 19;

pub fn open(mode: u32, skip: bool, bytes: &mut [u8], words: &mut [u64]) -> u32 {
    unsafe { mihadrena_open(mode, skip, bytes.as_mut_ptr(), bytes.len(), words.as_mut_ptr(), words.len()) }
}

/// What `piece` and `end` answer beside refusals.
pub const ITEM: u32 = 10;
pub const MORE: u32 = 11;
pub const FINISHED: u32 = 12;

pub fn piece(
    bytes: &mut [u8],
    words: &mut [u64],
    piece: &[u8],
    text: &mut [u8],
    record: &mut [u32],
    values: &mut [u64],
) -> u32 {
    unsafe {
        mihadrena_piece(
            bytes.as_mut_ptr(),
            bytes.len(),
            words.as_mut_ptr(),
            words.len(),
            piece.as_ptr(),
            piece.len(),
            text.as_mut_ptr(),
            text.len(),
            record.as_mut_ptr(),
            record.len(),
            values.as_mut_ptr(),
            values.len(),
        )
    }
}

pub fn end(bytes: &mut [u8], words: &mut [u64], text: &mut [u8], record: &mut [u32], values: &mut [u64]) -> u32 {
    unsafe {
        mihadrena_end(
            bytes.as_mut_ptr(),
            bytes.len(),
            words.as_mut_ptr(),
            words.len(),
            text.as_mut_ptr(),
            text.len(),
            record.as_mut_ptr(),
            record.len(),
            values.as_mut_ptr(),
            values.len(),
        )
    }
}
