//! The parts of a number, with values and no places: what the Rust's literals and our digit places both come to.
use num_bigint::BigInt;
use std::fmt;

#[derive(Clone, Debug, PartialEq)]
pub enum Number {
    Real(Real),
    Complex(Real, Real),
    Polar(Real, Real),
}

/// A real: an integer, a rational not reduced, or a decimal as the bits of the float that it is read as (infinities and NaN too).
#[derive(Clone, Debug, PartialEq)]
pub enum Real {
    Int(Int),
    Rational(Int, Int),
    Float(u64),
}

/// An integer that fits in 64 bits with its sign, or any other.
#[derive(Clone, Debug, PartialEq)]
pub enum Int {
    Small(i64),
    Big(BigInt),
}

impl fmt::Display for Number {
    fn fmt(&self, f: &mut fmt::Formatter<'_>) -> fmt::Result {
        match self {
            Number::Real(real) => write!(f, "real {real}"),
            Number::Complex(real, imaginary) => write!(f, "complex {real} {imaginary}"),
            Number::Polar(length, angle) => write!(f, "polar {length} {angle}"),
        }
    }
}

impl fmt::Display for Real {
    fn fmt(&self, f: &mut fmt::Formatter<'_>) -> fmt::Result {
        match self {
            Real::Int(int) => write!(f, "{int}"),
            Real::Rational(above, below) => write!(f, "{above}/{below}"),
            Real::Float(bits) => write!(f, "float:{bits:016x}"),
        }
    }
}

impl fmt::Display for Int {
    fn fmt(&self, f: &mut fmt::Formatter<'_>) -> fmt::Result {
        match self {
            Int::Small(value) => write!(f, "{value}"),
            Int::Big(value) => write!(f, "big:{value}"),
        }
    }
}
