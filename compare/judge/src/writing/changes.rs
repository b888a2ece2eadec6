//! Records that a program changed: names and strings with other texts, as an office edits them; and words changed at random.
use super::model::{is_left, Lent, COMMENT, IDENTIFIER, STRING_LITERAL};
use super::{read, reads_back, same_call, shapes, Read};
use crate::tally::{shown, Tally};
use gen::Random;
use item::{IN_MEMORY, WORDS};
use std::str;

/// What new texts are made of: characters that change what stands around them, words, numbers.
const PARTS: &[&str] = &[
    "a", "é", "木", " ", "\n", "\t", "\u{A0}", "\u{85}", "\\", "\"", "|", "#", "!", "#!", ";", "#;", "#|", "(", ")",
    "{", "'", ",", "@", "+", "-", ".", "/", "0", "1", "e", "i", "x", ":", "<", "#<<", "#\\", "if", "λ", "...",
    "+inf.0", "\0",
];

/// The new texts of some names and strings: they must be read back, each where its old one stood.
pub fn edited(tally: &mut Tally, random: &mut Random, text: &[u8]) {
    let Ok(source) = str::from_utf8(text) else { return };
    let mut read = read(source);
    if read.records.chunks_exact(WORDS).any(|record| is_left(record[0])) {
        return;
    }
    tally.text();
    let mut expected = shapes(source, true);
    for (record, shape) in read.records.chunks_exact_mut(WORDS).zip(&mut expected) {
        if matches!(record[0], IDENTIFIER | STRING_LITERAL) && random.once_in(2) {
            let new = new_text(random);
            record[6..9].copy_from_slice(&placed(&mut read.memory, new.as_bytes()));
            shape.text = Some(new.into_bytes());
        }
    }
    let lent = Lent { records: &read.records, source: text, text: &read.memory };
    let input = || format!("{}, of {}", shown(&read.memory), shown(text));
    if let Some(written) = same_call(tally, lent, input) {
        reads_back(tally, &written, &expected, input);
    }
}

fn new_text(random: &mut Random) -> String {
    (0..random.below(4)).map(|_| random.one(PARTS)).collect()
}

/// The three words of a text that is put behind those of a text memory.
fn placed(memory: &mut Vec<u8>, text: &[u8]) -> [u32; 3] {
    let start = memory.len() as u32;
    memory.extend_from_slice(text);
    [IN_MEMORY, start, memory.len() as u32]
}

/// Words at the edges of what a record may have.
const WORDS_TRIED: &[u32] =
    &[0, 1, 2, 3, 24, COMMENT, 27, 28, 30, 31, 32, 99, 100, 101, 112, 113, 114, u32::MAX - 1, u32::MAX];

/// One to three words of records changed, words left over behind the last record, a text memory cut short: the answer and every byte.
pub fn damaged(tally: &mut Tally, random: &mut Random, text: &[u8]) {
    let Ok(source) = str::from_utf8(text) else { return };
    let Read { mut records, mut memory } = read(source);
    if records.is_empty() {
        return;
    }
    tally.text();
    for _ in 0..1 + random.below(3) {
        let at = random.below(records.len());
        records[at] = match random.below(4) {
            0 => WORDS_TRIED[random.below(WORDS_TRIED.len())],
            1 => records[at].wrapping_add(1),
            2 => records[at].wrapping_sub(1),
            _ => random.below(text.len() + 2) as u32,
        };
    }
    records.truncate(records.len() - random.below(WORDS));
    memory.truncate(memory.len() - random.below(2).min(memory.len()));
    let lent = Lent { records: &records, source: text, text: &memory };
    same_call(tally, lent, || format!("{records:?}, of {}", shown(text)));
}
