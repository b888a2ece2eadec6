//! Numbers by the grammar of R7RS 7.1.1 and what the Rust adds to it; one in four is damaged.
use crate::damage::edited;
use crate::{Random, Sink};

pub fn texts(random: &mut Random, sink: &mut Sink) {
    let mut text = String::new();
    loop {
        text.clear();
        number(random, &mut text);
        if random.once_in(4) {
            text = edited(random, &text);
        }
        if !sink.put(text.as_bytes()) {
            return;
        }
    }
}

/// A number: a prefix or none, then a real, a complex one or a polar one.
pub fn number(random: &mut Random, out: &mut String) {
    let prefix = random.one(&["", "", "", "", "#x", "#X", "#d", "#D", "#o", "#b", "#B"]);
    out.push_str(prefix);
    let digits = match prefix {
        "#x" | "#X" => "0123456789abcdefABCDEF",
        "#o" => "01234567",
        "#b" | "#B" => "01",
        _ => "0123456789",
    };
    match random.below(6) {
        0 => {
            real(random, digits, out);
            out.push('@');
            real(random, digits, out);
        }
        1 | 2 => {
            if random.once_in(2) {
                real(random, digits, out);
            }
            out.push_str(random.one(&["+", "-"]));
            if !random.once_in(3) {
                unsigned(random, digits, out);
            }
            out.push('i');
        }
        _ => real(random, digits, out),
    }
}

fn real(random: &mut Random, digits: &str, out: &mut String) {
    out.push_str(random.one(&["", "", "+", "-"]));
    unsigned(random, digits, out);
}

fn unsigned(random: &mut Random, digits: &str, out: &mut String) {
    match random.below(12) {
        0 => out.push_str(random.one(&["inf.0", "nan.0", "+inf.0", "-nan.0"])),
        1 => out.push_str(random.one(EDGES)),
        2 | 3 => {
            run(random, digits, out);
            out.push_str(random.one(&["/", "/", "/", "/-"]));
            run(random, digits, out);
        }
        4..=6 => decimal(random, digits, out),
        _ => run(random, digits, out),
    }
}

/// Integers about the ends of 64 bits, in several radices, and zeros.
const EDGES: &[&str] = &[
    "9223372036854775807",
    "9223372036854775808",
    "9223372036854775809",
    "18446744073709551616",
    "7fffffffffffffff",
    "8000000000000000",
    "8000000000000001",
    "777777777777777777777",
    "1000000000000000000000",
    "000000000000000000000000000000",
    "1/0",
    "0/00",
    "0.0",
    "1_0",
];

fn decimal(random: &mut Random, digits: &str, out: &mut String) {
    if !random.once_in(4) {
        run(random, digits, out);
    }
    if !random.once_in(4) {
        out.push('.');
        if !random.once_in(3) {
            run(random, digits, out);
        }
    }
    if random.once_in(2) {
        out.push_str(random.one(&["e", "E", "e+", "e-", "E-"]));
        run(random, digits, out);
    }
}

/// One or more digits: mostly few, at times more than 64 bits hold.
fn run(random: &mut Random, digits: &str, out: &mut String) {
    let count = if random.once_in(10) { 15 + random.below(20) } else { 1 + random.below(4) };
    for _ in 0..count {
        let at = random.below(digits.len());
        out.push_str(&digits[at..at + 1]);
    }
}
