//! What is told of a text: the Rust's items, or a refusal and, for the piece calls, the items before it.
//!
//! The items are the Rust's own. Where the bytes are no UTF-8, or an item grows past 4,096 bytes, the Rust has no answer: the refusal
//! is document 01's, and the items before the stop are the Rust's items of the text that 01 names ("Piecewise").
use item::{Reading, WORDS};
use std::str;

const PLAIN: u8 = 0;
const NO_SUCH_MODE: u8 = 2;

const WHOLE: u8 = 1;
const PIECES: u8 = 2;
const BOTH: u8 = 3;

const SERVED: u8 = 0;
const NOT_UTF8: u8 = 21;
const TOO_FEW: u8 = 22;
const TOO_LONG_ITEM: u8 = 23;
const NO_MODE: u8 = 25;

const COMMENT: u32 = 25;

/// The longest item of the piece calls.
const LONGEST: usize = 4096;

pub struct Told {
    pub skip: bool,
    pub mode: u8,
    pub calls: u8,
    pub answer: u8,
    pub values: [u32; 2],
    /// The words of the items.
    pub words: Vec<u32>,
    /// The text memory that their decoded texts fill.
    pub memory: Vec<u8>,
    /// The memory that the whole-text call is lent.
    pub lent_words: usize,
    pub lent_bytes: usize,
}

impl Told {
    /// Whether it says nothing of the whole-text call.
    pub fn of_pieces_alone(&self) -> bool {
        self.calls == PIECES
    }
}

/// Everything that is told of a text: comments kept, and, where it has some, skipped.
pub fn all(text: &[u8]) -> Vec<Told> {
    let mut all = of(text, false);
    let good = good(text);
    if read(good, false).items.iter().any(|item| item.record[0] == COMMENT) {
        all.extend(of(text, true));
    }
    all
}

fn of(text: &[u8], skip: bool) -> Vec<Told> {
    let Ok(whole) = str::from_utf8(text) else {
        let at = good(text).len() as u32;
        return vec![bare(skip, PLAIN, WHOLE, NOT_UTF8, [at, 0]), stopped(good(text), skip, NOT_UTF8, at)];
    };
    let served = served(whole, skip);
    let mut all = Vec::new();
    if let Some((before, start)) = overlong(whole) {
        all.push(stopped(before, skip, TOO_LONG_ITEM, start));
        all.push(Told { calls: WHOLE, ..served });
    } else {
        all.extend(too_few(&served));
        all.push(bare(skip, NO_SUCH_MODE, WHOLE, NO_MODE, [u32::from(NO_SUCH_MODE), 0]));
        all.truncate(usize::from(refused_too(text)) * all.len());
        all.push(served);
    }
    all
}

/// Of one text in so many the refusals 22 and 25 are told too.
const REFUSED: usize = 16;

fn refused_too(text: &[u8]) -> bool {
    text.iter().map(|&byte| usize::from(byte)).sum::<usize>() % REFUSED == 0
}

/// The longest part of a text from its start on that is UTF-8.
fn good(text: &[u8]) -> &str {
    match str::from_utf8(text) {
        Ok(text) => text,
        Err(error) => str::from_utf8(&text[..error.valid_up_to()]).expect("good up to here"),
    }
}

fn read(text: &str, skip: bool) -> Reading {
    let mut reading = Reading::default();
    steel::read(text, skip, &mut reading);
    reading
}

fn served(text: &str, skip: bool) -> Told {
    let reading = read(text, skip);
    let words: Vec<u32> = reading.items.iter().flat_map(|item| item.record).collect();
    Told {
        skip,
        mode: PLAIN,
        calls: BOTH,
        answer: SERVED,
        values: [(words.len() / WORDS) as u32, reading.memory.len() as u32],
        lent_words: words.len(),
        lent_bytes: reading.memory.len(),
        words,
        memory: reading.memory,
    }
}

/// A refusal, with nothing read.
fn bare(skip: bool, mode: u8, calls: u8, answer: u8, values: [u32; 2]) -> Told {
    Told { skip, mode, calls, answer, values, words: Vec::new(), memory: Vec::new(), lent_words: 0, lent_bytes: 0 }
}

/// Refusal 22: a record too few, and a byte of text memory too few.
fn too_few(served: &Told) -> Vec<Told> {
    let refused = |lent_words, lent_bytes| Told {
        lent_words,
        lent_bytes,
        ..bare(served.skip, PLAIN, WHOLE, TOO_FEW, served.values)
    };
    let mut all = Vec::new();
    if served.lent_words > 0 {
        all.push(refused(served.lent_words - 1, served.lent_bytes));
    }
    if served.lent_bytes > 0 {
        all.push(refused(served.lent_words, served.lent_bytes - 1));
    }
    all
}

/// A stop of the piece calls: the items of the text before the character that shows it, whose extents end before that text does.
fn stopped(before: &str, skip: bool, answer: u8, at: u32) -> Told {
    let reading = read(before, skip);
    let ended = reading.items.iter().take_while(|item| (item.record[3] as usize) < before.len());
    let words: Vec<u32> = ended.flat_map(|item| item.record).collect();
    Told { words, memory: reading.memory, ..bare(skip, PLAIN, PIECES, answer, [at, 0]) }
}

/// Where an item first grows too long: the text before the character that makes it so, and the item's start.
fn overlong(text: &str) -> Option<(&str, u32)> {
    for (at, c) in text.char_indices() {
        let end = at + c.len_utf8();
        if end <= LONGEST {
            continue;
        }
        let reading = read(&text[..end], false);
        let record = reading.items.last()?.record;
        if record[3] as usize == end && end - record[2] as usize > LONGEST {
            return Some((&text[..at], record[2]));
        }
    }
    None
}
