//! Texts that are mostly brackets: their depth goes up and down, past 0 too.
use crate::{Random, Sink};

const OPENS: &[&str] = &["(", "[", "{", "#(", "#u8("];
const CLOSES: &[&str] = &[")", "]", "}"];
/// What stands between brackets. Some of it looks like one.
const BETWEEN: &[&str] = &[
    " ", "\n", "a ", " +b ", "1/0 ", "'", "#;", ";(\n", ";)\n", "#|(|#", "#|)|#", "\"(\"", "\")\"", "|(|", "#\\(",
    "#\\) ", "\"\\x28;\"", " #u8 ", "\"\\q\"", " 12,5 ",
];

/// How many opens and closes there are in a stretch to so many of what stands between: it goes down, up, or neither.
const STRETCHES: &[&[usize; 2]] = &[&[8, 1], &[1, 8], &[3, 3]];
const OTHERS: usize = 2;

/// Up to so many stretches of up to so many parts.
const MOST_STRETCHES: usize = 6;
const MOST_PARTS: usize = 80;

pub fn texts(random: &mut Random, sink: &mut Sink) {
    loop {
        let mut text = String::new();
        for _ in 0..1 + random.below(MOST_STRETCHES) {
            stretch(random, &mut text);
        }
        if !sink.put(text.as_bytes()) {
            return;
        }
    }
}

fn stretch(random: &mut Random, text: &mut String) {
    let [opens, closes] = *random.one(STRETCHES);
    for _ in 0..random.below(MOST_PARTS) {
        let drawn = random.below(opens + closes + OTHERS);
        let parts = match drawn {
            _ if drawn < opens => OPENS,
            _ if drawn < opens + closes => CLOSES,
            _ => BETWEEN,
        };
        text.push_str(random.one(parts));
    }
}
