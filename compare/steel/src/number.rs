//! The Rust's number call, its answer in document 01's terms.
use crate::lexer::{number_call, TokenError};
use crate::tokens::{IntLiteral, NumberLiteral, RealLiteral};
use item::{Int, Number, Real};

/// What the number call answers for a text.
#[derive(Clone, Debug, PartialEq)]
pub enum NumberAnswer {
    Is(Number),
    NoNumber,
    ZeroDenominator,
}

/// The number call. It can panic: see difference A2 of the judge.
pub fn number(text: &str) -> NumberAnswer {
    match number_call(text) {
        Ok(Some(literal)) => NumberAnswer::Is(parts(&literal)),
        Ok(None) => NumberAnswer::NoNumber,
        Err(TokenError::ZeroDenominator) => NumberAnswer::ZeroDenominator,
        Err(other) => unreachable!("the number call knows one error, not {other}"),
    }
}

pub(crate) fn parts(literal: &NumberLiteral) -> Number {
    match literal {
        NumberLiteral::Real(x) => Number::Real(real(x)),
        NumberLiteral::Complex(x, y) => Number::Complex(real(x), real(y)),
        NumberLiteral::Polar(x, y) => Number::Polar(real(x), real(y)),
    }
}

fn real(literal: &RealLiteral) -> Real {
    match literal {
        RealLiteral::Int(n) => Real::Int(int(n)),
        RealLiteral::Rational(n, d) => Real::Rational(int(n), int(d)),
        RealLiteral::Float(x) => Real::Float(x.to_bits()),
    }
}

fn int(literal: &IntLiteral) -> Int {
    match literal {
        IntLiteral::Small(n) => Int::Small(*n as i64),
        IntLiteral::Big(n) => Int::Big((**n).clone()),
    }
}
