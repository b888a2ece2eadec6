//! The text of some records, written a second time from the request's words; what reads back is asked of the Rust in report mode.
use item::{Reading, Record, IN_MEMORY, IN_SOURCE, NO_TEXT, WORDS};
use std::str;

pub const TOO_FEW: u32 = 22;
pub const UNWRITTEN: u32 = 47;
pub const ALIEN: u32 = 48;

pub const COMMENT: u32 = 25;
pub const IDENTIFIER: u32 = 27;
const KEYWORD: u32 = 28;
pub const STRING_LITERAL: u32 = 30;
const DOT: u32 = 31;
const FIRST_ERROR: u32 = 101;
const LAST_ERROR: u32 = 113;

/// What records lie over: "what is lent".
#[derive(Clone, Copy)]
pub struct Lent<'a> {
    pub records: &'a [u32],
    pub source: &'a [u8],
    pub text: &'a [u8],
}

/// A refusal's number, and what it comes with.
pub type Refused = (u32, u64);

impl<'a> Lent<'a> {
    /// The text, or the refusal before any memory is asked for.
    pub fn written(self) -> Result<Vec<u8>, Refused> {
        let records: Vec<Record> =
            self.records.chunks_exact(WORDS).map(|words| words.try_into().expect("a record")).collect();
        for (at, &record) in records.iter().enumerate() {
            if !self.is_whole(record) {
                return Err((ALIEN, at as u64));
            }
            if is_left(record[0]) {
                return Err((UNWRITTEN, at as u64));
            }
        }
        let mut out = Vec::new();
        let mut at = 0;
        while at < records.len() {
            let first = at == 0;
            if !first {
                out.push(b' ');
            }
            match records[at..] {
                [plus, name, ..] if self.is_pair(plus, name) => {
                    out.extend([self.text_of(plus), self.text_of(name)].concat());
                    at += 2;
                }
                [ref rest @ ..] => {
                    out.extend(self.word(rest[0], first, rest.len() == 1));
                    at += 1;
                }
            }
        }
        Ok(out)
    }

    /// "48 if its kind isn't 01's or its extent or text isn't whole characters of what is lent"
    fn is_whole(self, [kind, _, start, end, _, _, place, from, to, _]: Record) -> bool {
        let is_kind = kind <= DOT || (FIRST_ERROR..=LAST_ERROR).contains(&kind);
        let has_text = matches!(kind, IDENTIFIER | KEYWORD | STRING_LITERAL);
        let text = match place {
            NO_TEXT => !has_text,
            IN_SOURCE => characters(self.source, from, to).is_some(),
            IN_MEMORY => characters(self.text, from, to).is_some(),
            _ => false,
        };
        is_kind && text && characters(self.source, start, end).is_some()
    }

    fn text_of(self, [.., place, from, to, _]: Record) -> &'a [u8] {
        let memory = if place == IN_MEMORY { self.text } else { self.source };
        characters(memory, from, to).expect("whole characters")
    }

    /// "A pair as from `+foo` (two identifiers in a row with one extent, the first `+`) is written as one word, its texts joined, where that
    /// word before a blank reads back as the pair"
    fn is_pair(self, plus: Record, name: Record) -> bool {
        let identifiers = plus[0] == IDENTIFIER && name[0] == IDENTIFIER;
        if !identifiers || plus[2..4] != name[2..4] || self.text_of(plus) != b"+" {
            return false;
        }
        let word = [self.text_of(plus), self.text_of(name)].concat();
        let end = word.len() as u32;
        read_back(&[&word[..], b" "].concat()) == [(IDENTIFIER, 0, end, 0, 1), (IDENTIFIER, 0, end, 1, end)]
    }

    /// "an identifier in vertical lines whenever it wouldn't read back bare at that place, strings in quotes [..] Any other item is its own
    /// extent's bytes"
    fn word(self, record: Record, first: bool, last: bool) -> Vec<u8> {
        match record[0] {
            IDENTIFIER if is_bare(self.text_of(record), first, last) => self.text_of(record).to_vec(),
            IDENTIFIER => quoted(self.text_of(record), b'|'),
            STRING_LITERAL => quoted(self.text_of(record), b'"'),
            _ => characters(self.source, record[2], record[3]).expect("whole characters").to_vec(),
        }
    }
}

/// "47 for an error or comment item"
pub fn is_left(kind: u32) -> bool {
    kind >= FIRST_ERROR || kind == COMMENT
}

/// A part of some bytes, if it is there and whole characters.
fn characters(bytes: &[u8], from: u32, to: u32) -> Option<&[u8]> {
    bytes.get(from as usize..to as usize).filter(|part| str::from_utf8(part).is_ok())
}

/// "in both a backslash before `\` and the closing mark and no other escape"
fn quoted(text: &[u8], mark: u8) -> Vec<u8> {
    let mut out = vec![mark];
    for &byte in text {
        if byte == mark || byte == b'\\' {
            out.push(b'\\');
        }
        out.push(byte);
    }
    out.push(mark);
    out
}

fn is_bare(word: &[u8], first: bool, last: bool) -> bool {
    let gap = |end: bool| if end { "".as_bytes() } else { b" " };
    let start = gap(first).len() as u32;
    let end = start + word.len() as u32;
    read_back(&[gap(first), word, gap(last)].concat()) == [(IDENTIFIER, start, end, start, end)]
}

/// What a text reads back as in report mode: kind, extent and places of a text that lies in the source; 0 and 0 where there is none.
fn read_back(text: &[u8]) -> Vec<(u32, u32, u32, u32, u32)> {
    let mut reading = Reading::default();
    steel_report::read(str::from_utf8(text).expect("whole characters"), false, &mut reading);
    let records = reading.items.iter().map(|item| item.record);
    records
        .map(|[kind, _, start, end, _, _, place, from, to, _]| match place {
            IN_SOURCE => (kind, start, end, from, to),
            _ => (kind, start, end, 0, 0),
        })
        .collect()
}
