//! Items about as long as a piece state can hold: 4,096 bytes is the last length that it takes.
use crate::{Random, Sink};

const LENGTHS: std::ops::RangeInclusive<usize> = 4090..=4102;

/// How an item of any length is made: what it begins and ends with. What fills it comes from `FILLS`.
const FRAMES: &[(&str, &str)] = &[
    ("\"", "\""),
    ("\"\\n", "\""),
    ("\"", "\\x41;\""),
    ("\"", ""),
    ("|", "|"),
    ("|\\n", "|"),
    ("|", ""),
    ("", ""),
    ("+", ""),
    ("#:", ""),
    ("#\\", ""),
    ("#", ""),
    (";", "\n"),
    ("#|", "|#"),
    ("#|", ""),
    ("#<<end\n", "end"),
    ("#<<end\n", ""),
    ("#<<", "\nx"),
    ("#!", "\n"),
    (" ", " "),
];

/// Characters of one to four bytes, a digit and an escape.
const FILLS: &[&str] = &["a", "é", "€", "😀", "1", "\\t"];

/// What stands before and behind an item.
const AROUND: &[(&str, &str)] = &[("", ""), ("", " b"), ("(a ", ")"), ("\"\\q ", "\n")];

pub fn texts(_: &mut Random, sink: &mut Sink) {
    for length in LENGTHS {
        for (begin, end) in FRAMES {
            for fill in FILLS {
                let item = filled(begin, fill, end, length);
                for (before, behind) in AROUND {
                    if !sink.put(format!("{before}{item}{behind}").as_bytes()) {
                        return;
                    }
                }
            }
        }
    }
}

/// An item of exactly `length` bytes; what the fill leaves over is made up with `a`, in front.
fn filled(begin: &str, fill: &str, end: &str, length: usize) -> String {
    let inside = length - begin.len() - end.len();
    let made_up = "a".repeat(inside % fill.len());
    format!("{begin}{made_up}{}{end}", fill.repeat(inside / fill.len()))
}
