//! What a reading shows. Each thing is a tuple, hashed; a text is worth keeping if it shows one that no text before it showed.
use item::{Item, Reading};
use std::collections::hash_map::DefaultHasher;
use std::hash::{Hash, Hasher};
use std::str;

/// How many characters of an item's start are looked at.
const START: usize = 4;

/// Of texts longer than this only items of just the longest length and of one byte more are looked at.
const LONG: usize = 4000;
const LONGEST: std::ops::RangeInclusive<usize> = 4096..=4097;

pub fn of(bytes: &[u8]) -> Vec<u64> {
    let text = match str::from_utf8(bytes) {
        Ok(text) => text,
        Err(error) => return broken(bytes, error),
    };
    let mut reading = Reading::default();
    steel::read(text, false, &mut reading);
    if text.len() > LONG {
        return long(&reading);
    }
    let mut shown = Vec::new();
    let mut last: Option<&Item> = None;
    for item in &reading.items {
        let [kind, detail, start, end, place_start, place_end, source, ..] = item.record;
        let extent = &text[start as usize..end as usize];
        let beyond = text[end as usize..].chars().next().map(class);
        let pair = last.is_some_and(|last| last.record[2] == start);
        let place = (place_start < start, place_start > start, place_end < end, place_end > end);
        let starts: Vec<char> = extent.chars().take(START).map(class).collect();
        let ends: Option<char> = extent.chars().last().map(class);
        shown.push(hash(("item", kind, sort(kind, detail), source, place, pair)));
        shown.push(hash(("starts", kind, starts)));
        shown.push(hash(("ends", kind, ends, beyond)));
        shown.push(hash(("behind", kind, last.map(|last| last.record[0]))));
        if let Some(number) = &item.number {
            shown.push(hash(("number", digits(extent), digits(&number.to_string()))));
        }
        last = Some(item);
    }
    shown
}

/// Of a long text: the kinds of its items of a length that matters.
fn long(reading: &Reading) -> Vec<u64> {
    let lengths = reading.items.iter().map(|item| (item.record[0], (item.record[3] - item.record[2]) as usize));
    lengths.filter(|(_, length)| LONGEST.contains(length)).map(|shown| hash(("long", shown))).collect()
}

/// Of bytes that are no text: how they break, and after what.
fn broken(bytes: &[u8], error: str::Utf8Error) -> Vec<u64> {
    let at = error.valid_up_to();
    let before = str::from_utf8(&bytes[..at]).expect("good up to here");
    let mut reading = Reading::default();
    steel::read(before, false, &mut reading);
    let last = reading.items.last().map(|item| (item.record[0], item.record[3] as usize == at));
    vec![hash(("broken", error.error_len(), bytes[at] >> 4)), hash(("broken after", last))]
}

fn hash(thing: impl Hash) -> u64 {
    let mut hasher = DefaultHasher::new();
    thing.hash(&mut hasher);
    hasher.finish()
}

/// A detail, but of a character or a code point only its size.
fn sort(kind: u32, detail: u32) -> u32 {
    match kind {
        23 | 112 => detail.leading_zeros() / 4,
        _ => detail,
    }
}

/// A character, or one that stands for all that no reader tells from it.
fn class(c: char) -> char {
    match c {
        '0'..='9' => '0',
        'a' | 'b' | 'd' | 'e' | 'f' | 'i' | 'n' | 'o' | 'r' | 't' | 'u' | 'x' => c,
        'A'..='F' => 'A',
        'g'..='w' | 'y' | 'z' => 'z',
        'G'..='Z' => 'Z',
        c if c.is_ascii() => c,
        c if c.is_whitespace() => '\u{A0}',
        c if c.len_utf8() == 2 => 'é',
        c if c.len_utf8() == 3 => '€',
        _ => '😀',
    }
}

/// A text with each run of digits as one.
fn digits(text: &str) -> String {
    let mut out = String::new();
    for c in text.chars() {
        let c = if c.is_ascii_hexdigit() { '0' } else { c };
        if c != '0' || !out.ends_with('0') {
            out.push(c);
        }
    }
    out
}
