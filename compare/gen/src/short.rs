//! All short texts over alphabets of characters that some reader tells apart.
use crate::{Random, Sink};

/// All texts of up to `length` characters of `alphabet` behind a beginning, the shorter ones first.
fn all(beginning: &str, alphabet: &[&str], length: usize, sink: &mut Sink) -> bool {
    (0..=length).all(|n| {
        let mut text = beginning.as_bytes().to_vec();
        exactly(&mut text, alphabet, n, sink)
    })
}

/// The texts of exactly `n` characters behind `text`, which is left as it was.
fn exactly(text: &mut Vec<u8>, alphabet: &[&str], n: usize, sink: &mut Sink) -> bool {
    if n == 0 {
        return sink.put(text);
    }
    let kept = text.len();
    alphabet.iter().all(|character| {
        text.extend_from_slice(character.as_bytes());
        let more = exactly(text, alphabet, n - 1, sink);
        text.truncate(kept);
        more
    })
}

const CHARACTERS: &[&str] = &[
    "(", ")", "[", "{", "}", "\"", ";", "#", "|", "\\", "'", "`", ",", "@", "+", "-", ".", "/", "0", "1", "a", "e",
    "i", "x", "u", "t", "n", "<", "!", ":", " ", "\n", "\r", "é", "\u{A0}",
];

pub fn texts(_: &mut Random, sink: &mut Sink) {
    all("", CHARACTERS, 4, sink);
}

const ESCAPE_BEGINNINGS: &[&str] = &["\"\\", "|\\", "\"\\x", "|\\x", "\"\\u{", "|a\\u", "\"\\ ", "|\\\n"];
const IN_ESCAPES: &[&str] = &[
    "\"", "|", "\\", "x", "u", "{", "}", ";", "0", "4", "D", "F", "g", "+", "-", " ", "\t", "\n", "\r", "(", "é", "n",
];

pub fn escapes(_: &mut Random, sink: &mut Sink) {
    let _ = ESCAPE_BEGINNINGS.iter().all(|beginning| all(beginning, IN_ESCAPES, 4, sink));
}

const IN_HASHES: &[&str] = &[
    "t", "f", "r", "u", "e", "8", "(", "[", ")", "\\", "x", "d", "b", "'", "`", ",", "@", ":", ";", "|", "<", "!", "#",
    "%", "a", "1", " ", "\n", "é", "{", "}",
];

pub fn hashes(_: &mut Random, sink: &mut Sink) {
    all("#", IN_HASHES, 4, sink);
}

const DIGIT_BEGINNINGS: &[&str] =
    &["\"\\x", "\"\\u", "\"\\u{", "|\\x", "|\\u{", "+|\\x", "#<|\\u", "é \"é\\x", "1/0 #\\x", "#\\x", "#\\u", "#\\u{"];
/// As many digits as still fit, or one more; some with a sign or zeros before them.
const DIGITS: &[&str] = &["", "+", "FFFFFFF", "+FFFFFFF", "000fffffff", "10000000", "FFFFFFFFF", "4é"];
const IN_DIGITS: &[&str] = &["0", "f", "g", "+", "-", "é", "木", "🌲", ";", "}", "\"", "|", " "];

pub fn digits(_: &mut Random, sink: &mut Sink) {
    let _ = DIGIT_BEGINNINGS
        .iter()
        .all(|beginning| DIGITS.iter().all(|digits| all(&format!("{beginning}{digits}"), IN_DIGITS, 3, sink)));
}

pub fn characters(_: &mut Random, sink: &mut Sink) {
    all("#\\", &[";", "\"", "'", ",", "a", "x", "u", "{", "}", "é", "\\", "("], 5, sink);
}

pub fn here(_: &mut Random, sink: &mut Sink) {
    all("#<<", &["a", "b", "\n", "\r", " ", "é", "\"", "|"], 7, sink);
}

pub fn comments(_: &mut Random, sink: &mut Sink) {
    all("", &["#", "|", ";", "\n", "a", "\""], 8, sink);
}

pub fn brackets(_: &mut Random, sink: &mut Sink) {
    all("", &["(", "[", "#(", "#u8(", ")", "}", ";(\n", "a", "+b", "\"(\""], 6, sink);
}

const IN_NUMBERS: &[&str] = &["0", "1", "9", "+", "-", ".", "e", "E", "/", "i", "@", "#", "x", "b", "a", "_", "é"];

pub fn numbers(_: &mut Random, sink: &mut Sink) {
    all("", IN_NUMBERS, 6, sink);
}

const IN_BARS: &[&str] = &["0", "1", "+", "-", ".", "/", "e", "i", "n", "#x", "a", "|", ";", "\"", "\\", " "];

pub fn bars(_: &mut Random, sink: &mut Sink) {
    all("", IN_BARS, 5, sink);
}

pub fn bytes(_: &mut Random, sink: &mut Sink) {
    for n in 0..=3u32 {
        for value in 0..1u32 << (8 * n) {
            if !sink.put(&value.to_be_bytes()[4 - n as usize..]) {
                return;
            }
        }
    }
}
