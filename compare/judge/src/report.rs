//! Report mode's judge: the Rust with one line changed (`steel_report`), and the requests' rules put on what it answers.
//! (ii): "In report mode an error that sets no range of its own now has its extent as place." (vii): "In report mode the place of error 11
//! becomes the one failing character, or the empty position for detail 1, or the digit at which it overflowed for detail 3", and error 10
//! is "13 if the name contains `;`, `"`, `'` or `,` after its first character, with the place of the first of these".
use item::{Item, Reading};

const FIRST_ERROR: u32 = 101;
const INVALID_CHAR_NAME: u32 = 110;
const INVALID_HEX_ESCAPE_LITERAL: u32 = 111;
const INVALID_CHAR_DELIMITER: u32 = 113;
/// The detail of error 11 where there are no digits.
const EMPTY: u32 = 1;

/// Reads a text as report mode does.
pub fn read(text: &str, skip: bool, out: &mut Reading) -> u64 {
    let zeros = steel_report::read(text, skip, out);
    own_places(&mut out.items);
    for item in &mut out.items {
        match item.record[0] {
            INVALID_HEX_ESCAPE_LITERAL => at_failing(text, item),
            INVALID_CHAR_NAME => at_delimiter(text, item),
            _ => (),
        }
    }
    zeros
}

/// The Rust's place of an error is the last range that was set since the start of the text, or the extent if none was set. An error with
/// the place of the error before it has therefore set none.
fn own_places(items: &mut [Item]) {
    let mut last = None;
    for item in items {
        let [kind, _, start, end, from, to, ..] = &mut item.record;
        if *kind >= FIRST_ERROR {
            let told = (*from, *to);
            if last == Some(told) {
                (*from, *to) = (*start, *end);
            }
            last = Some(told);
        }
    }
}

/// Error 11: the Rust's place is the escape, with its closer, or the extent of a character.
fn at_failing(text: &str, item: &mut Item) {
    let [_, detail, _, _, from, to, ..] = &mut item.record;
    let escape = &text[*from as usize..*to as usize];
    let (before, digits) = digits(escape);
    let failing = if *detail == EMPTY { 0..0 } else { failing(digits) };
    *to = *from + (before + failing.end) as u32;
    *from += (before + failing.start) as u32;
}

/// The digits of `\x41;`, `\u41;`, `\u{41}`, `#\x41`, `#\u41` or `#\u{41}`, and how many bytes stand before them.
fn digits(escape: &str) -> (usize, &str) {
    let (mark, closer) = match escape.strip_prefix('#') {
        Some(character) => (1, usize::from(character.starts_with("\\u{"))),
        None => (0, 1),
    };
    let brace = usize::from(escape[mark..].starts_with("\\u{"));
    let before = mark + "\\x".len() + brace;
    (before, &escape[before..escape.len() - closer])
}

/// The character at which the digits fail: the last one of the shortest beginning that Rust's own library refuses. A `+` is refused where
/// nothing follows it.
fn failing(digits: &str) -> std::ops::Range<usize> {
    let begins = |end: usize| digits[..end] != *"+" || digits == "+";
    digits
        .char_indices()
        .map(|(start, c)| start..start + c.len_utf8())
        .find(|c| begins(c.end) && u32::from_str_radix(&digits[..c.end], 16).is_err())
        .expect("the library refuses all of them")
}

/// Error 10, which is 13 where a delimiter stands in the name after its first character.
fn at_delimiter(text: &str, item: &mut Item) {
    let [kind, _, start, end, from, to, ..] = &mut item.record;
    let name = text[*start as usize..*end as usize].strip_prefix("#\\").expect("a character");
    let first = name.char_indices().skip(1).find(|(_, c)| matches!(c, ';' | '"' | '\'' | ','));
    if let Some((at, _)) = first {
        *kind = INVALID_CHAR_DELIMITER;
        *from = *start + ("#\\".len() + at) as u32;
        *to = *from + 1;
    }
}
