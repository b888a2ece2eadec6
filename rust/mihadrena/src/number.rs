//! The parts of a number.
use crate::raw::{self, Figure, Parts};
use crate::Refusal;
use core::{fmt, str};

/// A number's sign.
#[derive(Clone, Copy, Debug, PartialEq, Eq, Hash)]
pub enum Sign {
    /// `+`, or none
    Plus,
    /// `-`
    Minus,
}

/// A decimal's digits, as they are written; each run may be empty.
#[derive(Clone, Copy, Debug, PartialEq, Eq, Hash)]
pub struct Decimal<'a> {
    /// The decimal's sign.
    pub sign: Sign,
    /// The digits before the dot.
    pub whole: &'a str,
    /// The digits behind the dot.
    pub fraction: &'a str,
    /// The exponent's sign.
    pub exponent_sign: Sign,
    /// The exponent's digits.
    pub exponent: &'a str,
}

/// An integer: a value of 64 bits, or its digits where they do not fit.
#[derive(Clone, Copy, Debug, PartialEq, Eq, Hash)]
pub enum Int<'a> {
    /// `-5`
    Small(i64),
    /// `123456789012345678901234567890`: a sign and digits of the radix that the number's text names
    Big(Sign, &'a str),
}

/// A real number, by its digits: no float is made.
#[derive(Clone, Copy, Debug, PartialEq, Eq, Hash)]
pub enum Real<'a> {
    /// `5`
    Integer(Int<'a>),
    /// `1/2`
    Rational(Int<'a>, Int<'a>),
    /// `1.5e2`
    Decimal(Decimal<'a>),
    /// `+inf.0`
    Infinity(Sign),
    /// `+nan.0`
    Nan(Sign),
    /// The real part of `+5i`.
    ImpliedZero,
    /// The imaginary part of `+i`.
    ImpliedOne(Sign),
}

/// A number's parts.
#[derive(Clone, Copy, Debug, PartialEq, Eq, Hash)]
pub enum Number<'a> {
    /// `5`
    Real(Real<'a>),
    /// `1+2i`: the real part and the imaginary part
    Complex(Real<'a>, Real<'a>),
    /// `1@2`: the magnitude and the angle
    Polar(Real<'a>, Real<'a>),
}

/// Why a text is no number.
#[derive(Clone, Copy, Debug, PartialEq, Eq, Hash)]
#[non_exhaustive]
pub enum NotNumber {
    /// It isn't written like one.
    NoNumber,
    /// A denominator is zero.
    ZeroDenominator,
    /// The call was refused.
    Refused(Refusal),
}

impl fmt::Display for NotNumber {
    fn fmt(&self, f: &mut fmt::Formatter<'_>) -> fmt::Result {
        match self {
            Self::NoNumber => write!(f, "no number"),
            Self::ZeroDenominator => crate::Error::ZeroDenominator.fmt(f),
            Self::Refused(refusal) => refusal.fmt(f),
        }
    }
}

impl core::error::Error for NotNumber {
    fn source(&self) -> Option<&(dyn core::error::Error + 'static)> {
        match self {
            Self::Refused(refusal) => Some(refusal),
            _ => None,
        }
    }
}

/// What a text is as a number.
///
/// ```
/// use mihadrena::{number, Int, NotNumber, Number, Real};
///
/// let half = Real::Rational(Int::Small(-1), Int::Small(2));
/// assert_eq!(number("-1/2"), Ok(Number::Real(half)));
/// assert_eq!(number("1/0"), Err(NotNumber::ZeroDenominator));
/// assert_eq!(number("12,5"), Err(NotNumber::NoNumber));
/// let Ok(Number::Real(Real::Decimal(decimal))) = number("611208.2") else { panic!() };
/// assert_eq!((decimal.whole, decimal.fraction, decimal.exponent), ("611208", "2", ""));
/// ```
///
/// # Errors
/// A [`NotNumber`], if it is none.
pub fn number<S: AsRef<[u8]> + ?Sized>(text: &S) -> Result<Number<'_>, NotNumber> {
    let text = text.as_ref();
    let mut parts = Parts::default();
    // SAFETY: each pointer and length is those of a slice, and `Parts` is NUMBER_WORDS words.
    let answer =
        unsafe { raw::mihadrena_number(text.as_ptr(), text.len(), (&raw mut parts).cast(), raw::NUMBER_WORDS) };
    told(text, answer, &parts)
}

/// What an answer and the parts that the library wrote for a text say.
pub(crate) fn told<'a>(text: &'a [u8], answer: u32, parts: &Parts) -> Result<Number<'a>, NotNumber> {
    match answer {
        raw::A_NUMBER => Ok(in_text(text, parts)),
        raw::NO_NUMBER => Err(NotNumber::NoNumber),
        raw::ZERO => Err(NotNumber::ZeroDenominator),
        _ => Err(NotNumber::Refused(Refusal::of(answer, [parts.form, 0]))),
    }
}

/// The number of parts that the library wrote for a text.
fn in_text<'a>(text: &'a [u8], parts: &Parts) -> Number<'a> {
    match parts.form {
        raw::REAL => Number::Real(real(text, &parts.one)),
        raw::COMPLEX => Number::Complex(real(text, &parts.one), real(text, &parts.two)),
        raw::POLAR => Number::Polar(real(text, &parts.one), real(text, &parts.two)),
        _ => unreachable!("the library writes no other form"),
    }
}

fn real<'a>(text: &'a [u8], words: &raw::Real) -> Real<'a> {
    match words.form {
        raw::INTEGER => Real::Integer(int(text, &words.one)),
        raw::RATIONAL => Real::Rational(int(text, &words.one), int(text, &words.two)),
        raw::DECIMAL => Real::Decimal(Decimal {
            sign: sign(&words.one),
            whole: digits(text, &words.one),
            fraction: digits(text, &words.two),
            exponent_sign: sign(&words.three),
            exponent: digits(text, &words.three),
        }),
        raw::INFINITY => Real::Infinity(sign(&words.one)),
        raw::NAN => Real::Nan(sign(&words.one)),
        raw::IMPLIED_ZERO => Real::ImpliedZero,
        raw::IMPLIED_ONE => Real::ImpliedOne(sign(&words.one)),
        _ => unreachable!("the library writes no other form"),
    }
}

fn int<'a>(text: &'a [u8], figure: &Figure) -> Int<'a> {
    match (figure.has, sign(figure)) {
        // A magnitude of 2^63 is that of the least value: its negation wraps to itself.
        (raw::VALUE, Sign::Minus) => Int::Small((figure.first as i64).wrapping_neg()),
        (raw::VALUE, Sign::Plus) => Int::Small(figure.first as i64),
        (_, sign) => Int::Big(sign, digits(text, figure)),
    }
}

fn sign(figure: &Figure) -> Sign {
    if figure.minus == 1 {
        Sign::Minus
    } else {
        Sign::Plus
    }
}

fn digits<'a>(text: &'a [u8], figure: &Figure) -> &'a str {
    str::from_utf8(&text[figure.first as usize..figure.second as usize]).expect("digits are ASCII")
}
