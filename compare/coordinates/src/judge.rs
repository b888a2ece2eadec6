//! What a text's coordinate must be: the request's words, read anew, and Rust's `parse` for the value.
use mihadrena::{coordinate, raw, record_coordinate, NoCoordinate, Record, Refusal};
use std::fmt;
use std::str;

/// The longest text, in bytes.
const LONGEST: usize = 4_294_967_295;

/// The largest m, and the largest s either way.
const MOST_DIGITS: u128 = 9_007_199_254_740_992;
const MOST_SCALE: i128 = 22;

/// So many differences are printed.
const SHOWN: u64 = 20;

/// Where longer texts are given up: far past every bound, and far from the end of the type.
const FAR: u128 = 1 << 100;

/// Digits as a number, or some number past `FAR`.
fn number(digits: &[u8]) -> u128 {
    digits.iter().fold(0, |n, digit| if n > FAR { n } else { n * 10 + u128::from(digit - b'0') })
}

/// The digits that a text starts with, and the rest.
fn digits(text: &[u8]) -> (&[u8], &[u8]) {
    text.split_at(text.iter().take_while(|byte| byte.is_ascii_digit()).count())
}

/// A text without the sign that it starts with, and whether that is a minus.
fn unsigned(text: &[u8]) -> (&[u8], bool) {
    match text {
        [b'+', rest @ ..] => (rest, false),
        [b'-', rest @ ..] => (rest, true),
        _ => (text, false),
    }
}

/// m and s of a text that is one decimal.
fn decimal(text: &[u8]) -> Option<(u128, i128)> {
    let (text, _) = unsigned(text);
    let (whole, rest) = digits(text);
    let (fraction, rest) = rest.strip_prefix(b".").map_or((&rest[..0], rest), digits);
    let dotted = text.get(whole.len()) == Some(&b'.');
    if whole.is_empty() && fraction.is_empty() {
        return None;
    }
    let exponent = match rest {
        [] if dotted => 0,
        [b'e' | b'E', rest @ ..] => {
            let (rest, minus) = unsigned(rest);
            let (digits, []) = digits(rest) else { return None };
            if digits.is_empty() {
                return None;
            }
            let size = i128::try_from(number(digits)).expect("under 2^127");
            if minus {
                -size
            } else {
                size
            }
        }
        _ => return None,
    };
    Some((number(&[whole, fraction].concat()), exponent - fraction.len() as i128))
}

/// The coordinate that a text must have.
fn expected(text: &[u8]) -> Result<f64, NoCoordinate> {
    if text.len() > LONGEST {
        return Err(NoCoordinate::Refused(Refusal::TooLong));
    }
    let text = match str::from_utf8(text) {
        Ok(text) => text,
        Err(error) => return Err(NoCoordinate::Refused(Refusal::NotUtf8(error.valid_up_to()))),
    };
    match decimal(text.as_bytes()) {
        Some((m, s)) if m <= MOST_DIGITS && s.abs() <= MOST_SCALE => Ok(text.parse().expect("a decimal of Rust's too")),
        _ => Err(NoCoordinate::Outside),
    }
}

/// A float by its bits, so that -0.0 is not 0.0.
fn bits(answer: Result<f64, NoCoordinate>) -> Result<u64, NoCoordinate> {
    answer.map(f64::to_bits)
}

/// How many texts were compared.
#[derive(Default)]
pub struct Tally {
    texts: u64,
    values: u64,
    pub differ: u64,
}

impl Tally {
    /// Compares both calls on a text: the second one with the text as an extent among other bytes, where it is short.
    pub fn compare(&mut self, text: &[u8]) {
        let expected = bits(expected(text));
        self.texts += 1;
        self.values += u64::from(expected.is_ok());
        if bits(coordinate(text)) != expected || !Self::record_agrees(text, expected) {
            self.differ += 1;
            if self.differ <= SHOWN {
                println!("differs: {:?}, expected {expected:?}", String::from_utf8_lossy(text));
            }
        }
    }

    fn record_agrees(text: &[u8], expected: Result<u64, NoCoordinate>) -> bool {
        let mut source = [b'7'; 64];
        let Some(room) = source.get_mut(1..=text.len()) else { return true };
        room.copy_from_slice(text);
        let record = Record { kind: raw::NUMBER, start: 1, end: 1 + text.len() as u32, ..Record::default() };
        bits(record_coordinate(&source, &record)) == expected
    }

    pub fn add(&mut self, other: &Self) {
        self.texts += other.texts;
        self.values += other.values;
        self.differ += other.differ;
    }
}

impl fmt::Display for Tally {
    fn fmt(&self, f: &mut fmt::Formatter<'_>) -> fmt::Result {
        write!(f, "{} texts, {} values, {} differ", self.texts, self.values, self.differ)
    }
}
