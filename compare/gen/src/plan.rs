//! Felling plans: data of Scheme as a plan has them, with every form that the lexer knows.
use crate::real::number;
use crate::{Random, Sink};

pub fn texts(random: &mut Random, sink: &mut Sink) {
    loop {
        let text = plan(random);
        if !sink.put(text.as_bytes()) {
            return;
        }
    }
}

/// One plan: a first line at times, then a few data.
pub fn plan(random: &mut Random) -> String {
    let mut out = String::new();
    if random.once_in(20) {
        out.push_str(random.one(&["#!plan\n", "#!/usr/bin/é -x\r\n", "#!", "\u{FEFF}#!x\n"]));
    }
    for _ in 0..1 + random.below(4) {
        datum(random, 3, &mut out);
        blank(random, &mut out);
    }
    out
}

fn datum(random: &mut Random, depth: usize, out: &mut String) {
    match random.below(16) {
        0..=4 if depth > 0 => list(random, depth - 1, out),
        5 => {
            out.push_str(random.one(&["'", "`", ",", ",@", "#'", "#`", "#,", "#,@", "#;"]));
            datum(random, depth.saturating_sub(1), out);
        }
        6 => comment(random, 2, out),
        7 | 8 => string(random, out),
        9 => lines(random, out),
        10 => character(random, out),
        11 => here_string(random, out),
        12 | 13 => number(random, out),
        _ => word(random, out),
    }
}

fn list(random: &mut Random, depth: usize, out: &mut String) {
    let (open, close) = [("(", ")"), ("(", ")"), ("[", "]"), ("{", "}"), ("#(", ")"), ("#u8(", ")")][random.below(6)];
    out.push_str(open);
    for _ in 0..random.below(5) {
        datum(random, depth, out);
        blank(random, out);
    }
    out.push_str(close);
}

/// What stands between data: mostly a blank, at times nothing.
fn blank(random: &mut Random, out: &mut String) {
    out.push_str(random.one(&[" ", " ", " ", "  ", "\n", "\r\n", "\t", "\u{A0}", "\u{3000}", "\u{2028}", ""]));
}

/// Words with a kind of their own, and words that are nearly such.
const WORDS: &[&str] = &[
    ".", "...", "if", "let", "define", "defn", "#%define", "%plain-let", "return!", "begin", "lambda", "fn",
    "#%plain-lambda", "λ", "quote", "syntax-rules", "define-syntax", "set!", "require", "#t", "#f", "#true", "#false",
    "#:key", "#:", "#u8", "##", "If", "lets", "defin", "..", "#tru", "#T", "+", "-", "+5", "+foo", "-foo", "...x",
    "a|b", "a\\ b", "1+", "12,5", "14.7;gps", "stand", "spruce", "Fällung", "gps", "x", "_", "#<a", "#foo'bar", "#1=a",
    "\\",
];

fn word(random: &mut Random, out: &mut String) {
    if random.once_in(3) {
        for _ in 0..1 + random.below(6) {
            out.push_str(random.one(&["a", "b", "-", "+", ".", "1", "!", "?", "é", "/", "<", "i", "e", "#", ":"]));
        }
    } else {
        out.push_str(random.one(WORDS));
    }
}

fn string(random: &mut Random, out: &mut String) {
    out.push('"');
    inside(random, out);
    out.push('"');
}

/// An identifier in vertical lines, also behind what makes another thing of it.
fn lines(random: &mut Random, out: &mut String) {
    out.push_str(random.one(&["", "", "", "", "+", "-", "1", "#<"]));
    out.push('|');
    inside(random, out);
    out.push('|');
}

const ESCAPES: &[&str] = &[
    "\\n", "\\t", "\\a", "\\b", "\\r", "\\0", "\\\\", "\\\"", "\\|", "\\x41;", "\\xe9;", "\\x+41;", "\\x10FFFF;",
    "\\x110000;", "\\xD800;", "\\u41;", "\\u{1F600}", "\\u{}", "\\x;", "\\xg;", "\\x123456789;", "\\x41", "\\q", "\\é",
    "\\\n   ", "\\  \n\t", "\\ x", "\\\r\n",
];

/// What stands in a string: mostly plain characters, at times an escape.
fn inside(random: &mut Random, out: &mut String) {
    for _ in 0..random.below(6) {
        if random.once_in(4) {
            out.push_str(random.one(ESCAPES));
        } else {
            out.push_str(random.one(&["a", "beech", " ", "é", "日本", "😀", ";", "(", "#|", "'", "\n"]));
        }
    }
}

const CHARACTERS: &[&str] = &[
    "a", "é", "😀", "(", ")", " ", "\"", "\\", "'", "x", "u", "x41", "u41", "u{41}", "u{41", "u{}", "x+41", "xD800",
    "x110000", "xyz", "xfffffffff", "X41", "alarm", "backspace", "delete", "escape", "newline", "null", "return",
    "space", "tab", "TAB", "NewLine", "spac", "tabs", "", "ab",
];

fn character(random: &mut Random, out: &mut String) {
    out.push_str("#\\");
    out.push_str(random.one(CHARACTERS));
}

fn here_string(random: &mut Random, out: &mut String) {
    let delimiter = random.one(&["", "END", "é", "aa", "aab", "E D", "E\rD"]);
    out.push_str("#<<");
    out.push_str(delimiter);
    out.push('\n');
    for _ in 0..random.below(5) {
        out.push_str(random.one(&["a", "aa", "E", "EN", "é", "\n", "\\n", "\""]));
    }
    out.push_str(&delimiter.replace('\r', ""));
}

/// A comment to the end of the line, or one between `#|` and `|#` with others within.
fn comment(random: &mut Random, depth: usize, out: &mut String) {
    if random.once_in(2) {
        out.push_str(random.one(&["; old stock\n", ";\n", ";;; é \"a\r\n", ";"]));
        return;
    }
    out.push_str("#|");
    for _ in 0..random.below(4) {
        if depth > 0 && random.once_in(3) {
            comment(random, depth - 1, out);
        } else {
            out.push_str(random.one(&["a", "|", "#", "é", "\"", "\n", " "]));
        }
    }
    out.push_str("|#");
}
