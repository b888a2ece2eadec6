//! Here-strings whose delimiter repeats itself, with a body of its beginnings: the search for the delimiter agrees far at many places.
use crate::{Random, Sink};

pub fn texts(random: &mut Random, sink: &mut Sink) {
    loop {
        let delimiter = repeating(random);
        let mut text = format!("#<<{}\n", returned(random, &delimiter));
        for _ in 0..random.below(12) {
            text.push_str(&delimiter[..cut(random, &delimiter)]);
            text.push_str(random.one(&["", "", "", "a", "b", "é", "\n"]));
        }
        if !random.once_in(8) {
            text.push_str(&delimiter);
        }
        text.push_str(random.one(&["", "\n", " b", "a", ")"]));
        if !sink.put(text.as_bytes()) {
            return;
        }
    }
}

/// A few characters over and over, and what this makes over and over, up to some thousand bytes.
fn repeating(random: &mut Random) -> String {
    let mut unit = String::new();
    for _ in 0..1 + random.below(5) {
        unit.push_str(random.one(&["a", "a", "b", "é"]));
    }
    for _ in 0..random.below(4) {
        unit = unit.repeat(1 + random.below(8));
        unit.push_str(random.one(&["", "a", "b", "é"]));
    }
    unit
}

/// The delimiter as its line may have it: with carriage returns, which do not count.
fn returned(random: &mut Random, delimiter: &str) -> String {
    if random.once_in(2) {
        return delimiter.to_string();
    }
    let mut line = String::new();
    for letter in delimiter.chars() {
        line.push(letter);
        if random.once_in(9) {
            line.push('\r');
        }
    }
    line
}

/// A place between two characters, mostly in the second half.
fn cut(random: &mut Random, text: &str) -> usize {
    let mut at = random.below(text.len() + 1);
    if random.once_in(2) {
        at = at.max(text.len() / 2);
    }
    while !text.is_char_boundary(at) {
        at += 1;
    }
    at
}
