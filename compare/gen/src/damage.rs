//! Plans that something happened to: by the character, which leaves a text, or by the byte, which mostly does not.
use crate::plan::plan;
use crate::{Random, Sink};

/// Characters that change what stands around them.
const TELLING: &[&str] = &[
    "\"", "|", "\\", "#", ";", "(", ")", "[", "]", "{", "}", "'", ",", "@", "+", "-", ".", "/", "0", "9", "e", "i",
    "x", "u", "_", ":", "!", "<", " ", "\n", "\r", "\t", "é", "λ", "\u{A0}", "\u{85}", "\u{2003}", "\u{FEFF}", "😀",
    "\0",
];

/// Bytes at the borders of RFC 3629's table.
const BORDERS: &[u8] =
    &[0x00, 0x7F, 0x80, 0x8F, 0x90, 0x9F, 0xA0, 0xBF, 0xC0, 0xC1, 0xC2, 0xDF, 0xE0, 0xED, 0xEF, 0xF0, 0xF4, 0xF5, 0xFF];

pub fn characters(random: &mut Random, sink: &mut Sink) {
    loop {
        let mut text = plan(random);
        for _ in 0..1 + random.below(4) {
            text = edited(random, &text);
        }
        if !sink.put(text.as_bytes()) {
            return;
        }
    }
}

pub fn bytes(random: &mut Random, sink: &mut Sink) {
    loop {
        let mut text = plan(random).into_bytes();
        for _ in 0..1 + random.below(3) {
            spoil(random, &mut text);
        }
        if !sink.put(&text) {
            return;
        }
    }
}

/// The text with one character lost, added, changed or doubled, or with a part of it alone.
pub fn edited(random: &mut Random, text: &str) -> String {
    let places: Vec<usize> = text.char_indices().map(|(at, _)| at).chain([text.len()]).collect();
    let at = random.below(places.len());
    let next = (at + 1).min(places.len() - 1);
    let (before, here, behind) = (&text[..places[at]], &text[places[at]..places[next]], &text[places[next]..]);
    match random.below(8) {
        0 | 1 => format!("{before}{behind}"),
        2 | 3 => format!("{before}{}{here}{behind}", random.one(TELLING)),
        4 | 5 => format!("{before}{}{behind}", random.one(TELLING)),
        6 => format!("{before}{here}{here}{behind}"),
        _ if random.once_in(2) => before.to_string(),
        _ => format!("{here}{behind}"),
    }
}

/// Loses, adds or changes one byte.
fn spoil(random: &mut Random, text: &mut Vec<u8>) {
    let at = random.below(text.len() + 1);
    let byte = BORDERS[random.below(BORDERS.len())];
    match random.below(4) {
        0 => text.insert(at, byte),
        1 => text.truncate(at),
        _ if at == text.len() => text.push(byte),
        2 => text[at] = byte,
        _ => {
            text.remove(at);
        }
    }
}
