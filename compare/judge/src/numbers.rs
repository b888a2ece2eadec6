//! The number call against the Rust's: every answer, and of a number every part.
//!
//! What the words say is put into the Rust's terms: a Small value, the digits at a Big's places as an integer, the digits at a
//! decimal's places as the float that Rust's library parses them as, bit by bit; an implied part as the 0, 1 or -1 that it is.
//! The Rust has one NaN for `+nan.0` and `-nan.0`, so its sign is compared with the text instead. Words that the layout leaves out
//! must be 0, and memory past the words must be as it was; of a refusal all but the first word, and with a word too few all.
use crate::differences::{listed, rust_number, Called};
use crate::tally::{shown, Count, Tally};
use crate::Options;
use item::{Int, Number, Real};
use num_bigint::BigInt;
use proved::NUMBER_WORDS;
use std::str;
use steel::NumberAnswer;

const FAMILIES: &[&str] = &["numbers", "reals", "short", "plans", "bad", "long"];

pub fn judge(options: &Options) -> Count {
    let mut count = Count::default();
    for name in options.wanted(FAMILIES) {
        let mut tally = Tally::new(format!("numbers number call, {name}"));
        options.each(name, u64::MAX, &mut |text| same(&mut tally, text));
        count.add(tally.close());
    }
    count
}

/// What a number call says of a text.
#[derive(Clone, Debug, PartialEq)]
enum Said {
    Called(Called),
    /// A refusal, and what it comes with.
    Refused(u32, u64),
    /// Words that are laid out in no way that the library has, or written where none are due.
    Odd(u32, [u64; NUMBER_WORDS]),
}

/// The Rust's answer, or "no number" where it differs as listed, against ours.
fn same(tally: &mut Tally, text: &[u8]) {
    tally.text();
    let expected = match str::from_utf8(text) {
        Ok(source) => {
            let called = rust_number(source);
            match listed(source, &called) {
                Some(known) => {
                    tally.know(known);
                    Said::Called(Called::Answered(NumberAnswer::NoNumber))
                }
                None => Said::Called(called),
            }
        }
        Err(error) => Said::Refused(proved::NOT_UTF8, error.valid_up_to() as u64),
    };
    tally.same(expected, proved_number(text), || shown(text));
}

/// What the memory holds before a call, and how much of it lies past the words.
const OLD: u64 = 0xA5A5_A5A5_A5A5_A5A5;
const PAST: usize = 2;

fn proved_number(text: &[u8]) -> Said {
    let mut memory = [OLD; NUMBER_WORDS + PAST];
    let answer = proved::number(text, &mut memory);
    let words: [u64; NUMBER_WORDS] = memory[..NUMBER_WORDS].try_into().expect("as many words");
    let mut short = [OLD; NUMBER_WORDS + PAST];
    let few = proved::number(text, &mut short[..NUMBER_WORDS - 1]);
    let refused = matches!(answer, proved::TOO_LONG | proved::NOT_UTF8);
    let due = if refused { (answer, memory) } else { (proved::TOO_FEW, [OLD; NUMBER_WORDS + PAST]) };
    if (few, short) != due || memory[NUMBER_WORDS..] != [OLD; PAST] {
        return Said::Odd(few, words);
    }
    let answered = |answer| Said::Called(Called::Answered(answer));
    let rest = |stands: u64| words[1..].iter().all(|&word| word == stands);
    let bare = rest(0);
    match answer {
        proved::A_NUMBER => match (Layout { text, words: &words }).number() {
            Some(number) => answered(NumberAnswer::Is(number)),
            None => Said::Odd(answer, words),
        },
        proved::NO_NUMBER if bare && words[0] == 0 => answered(NumberAnswer::NoNumber),
        proved::ZERO_DENOMINATOR if bare && words[0] == 0 => answered(NumberAnswer::ZeroDenominator),
        _ if refused && rest(OLD) => Said::Refused(answer, words[0]),
        _ => Said::Odd(answer, words),
    }
}

/// The parts of a text that is a number; none if it is none.
pub fn parts(text: &[u8]) -> Option<Number> {
    match proved_number(text) {
        Said::Called(Called::Answered(NumberAnswer::Is(number))) => Some(number),
        _ => None,
    }
}

/// A text and the words of the number that it is (crates/exports/src/number.rt).
struct Layout<'a> {
    text: &'a [u8],
    words: &'a [u64; NUMBER_WORDS],
}

const REAL_WORDS: usize = 13;
const FIGURE_WORDS: usize = 4;

/// A number's forms.
const REAL: u64 = 0;
const COMPLEX: u64 = 1;
const POLAR: u64 = 2;

/// A real's forms.
const INTEGER: u64 = 1;
const RATIONAL: u64 = 2;
const DECIMAL: u64 = 3;
const INFINITY: u64 = 4;
const NAN: u64 = 5;
const IMPLIED_ZERO: u64 = 6;
const IMPLIED_ONE: u64 = 7;

/// What a figure has.
const NOTHING: u64 = 0;
const VALUE: u64 = 1;
const PLACES: u64 = 2;

impl Layout<'_> {
    /// The number; none if a word is not as the layout has it.
    fn number(&self) -> Option<Number> {
        let (first, second) = self.words[1..].split_at(REAL_WORDS);
        match self.words[0] {
            REAL if second == [0; REAL_WORDS] => Some(Number::Real(self.real(first)?)),
            COMPLEX if self.implies_one() == (second[0] == IMPLIED_ONE) => {
                Some(Number::Complex(self.real(first)?, self.real(second)?))
            }
            POLAR => Some(Number::Polar(self.real(first)?, self.real(second)?)),
            _ => None,
        }
    }

    /// Whether the text ends with an imaginary part without digits.
    fn implies_one(&self) -> bool {
        self.text.ends_with(b"+i") || self.text.ends_with(b"-i")
    }

    fn real(&self, words: &[u64]) -> Option<Real> {
        let figures: Vec<&[u64]> = words[1..].chunks(FIGURE_WORDS).collect();
        let used = match words[0] {
            RATIONAL => 2,
            DECIMAL => 3,
            _ => 1,
        };
        if figures[used..].iter().any(|figure| *figure != [0; FIGURE_WORDS]) {
            return None;
        }
        match words[0] {
            INTEGER => Some(Real::Int(self.int(figures[0])?)),
            RATIONAL => Some(Real::Rational(self.int(figures[0])?, self.int(figures[1])?)),
            DECIMAL => self.decimal(&figures),
            INFINITY if sign(figures[0])? => Some(Real::Float(f64::NEG_INFINITY.to_bits())),
            INFINITY => Some(Real::Float(f64::INFINITY.to_bits())),
            NAN => self.nan(sign(figures[0])?),
            IMPLIED_ZERO if !sign(figures[0])? => Some(Real::Int(Int::Small(0))),
            IMPLIED_ONE => Some(Real::Int(Int::Small(if sign(figures[0])? { -1 } else { 1 }))),
            _ => None,
        }
    }

    fn int(&self, figure: &[u64]) -> Option<Int> {
        match *figure {
            [VALUE, 0, magnitude, 0] => Some(Int::Small(i64::try_from(magnitude).ok()?)),
            [VALUE, 1, magnitude, 0] => Some(Int::Small(i64::try_from(-i128::from(magnitude)).ok()?)),
            _ => {
                let (negative, digits) = self.digits(figure)?;
                let magnitude = BigInt::parse_bytes(digits.as_bytes(), self.radix())?;
                Some(Int::Big(if negative { -magnitude } else { magnitude }))
            }
        }
    }

    /// Whether a figure with places has a minus sign, and the text at its places.
    fn digits(&self, figure: &[u64]) -> Option<(bool, &str)> {
        let [PLACES, minus @ 0..=1, start, end] = *figure else {
            return None;
        };
        let digits = str::from_utf8(self.text.get(start as usize..end as usize)?).ok()?;
        digits.chars().all(|c| c.is_digit(self.radix())).then_some((minus == 1, digits))
    }

    fn decimal(&self, figures: &[&[u64]]) -> Option<Real> {
        let (negative, whole) = self.digits(figures[0])?;
        let (false, fraction) = self.digits(figures[1])? else {
            return None;
        };
        let (less, exponent) = self.digits(figures[2])?;
        let minus = |yes| if yes { "-" } else { "" };
        let exponent = if exponent.is_empty() { "0" } else { exponent };
        let text = format!("{}{whole}.{fraction}e{}{exponent}", minus(negative), minus(less));
        Some(Real::Float(text.parse::<f64>().ok()?.to_bits()))
    }

    /// The Rust's NaN, where the text has one of that sign.
    fn nan(&self, negative: bool) -> Option<Real> {
        let spelled: &[u8] = if negative { b"-nan.0" } else { b"+nan.0" };
        self.text.windows(spelled.len()).any(|part| part == spelled).then_some(Real::Float(f64::NAN.to_bits()))
    }

    /// The radix that the text's first two characters name.
    fn radix(&self) -> u32 {
        match self.text {
            [b'#', b'x' | b'X', ..] => 16,
            [b'#', b'o' | b'O', ..] => 8,
            [b'#', b'b' | b'B', ..] => 2,
            _ => 10,
        }
    }
}

/// Whether a figure that has nothing but a sign has a minus sign.
fn sign(figure: &[u64]) -> Option<bool> {
    match *figure {
        [NOTHING, minus @ 0..=1, 0, 0] => Some(minus == 1),
        _ => None,
    }
}
