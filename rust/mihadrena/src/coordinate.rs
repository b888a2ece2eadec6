//! Coordinates as numbers.
use crate::raw::{self, Record};
use crate::Refusal;
use core::fmt;

/// Why there is no coordinate.
#[derive(Clone, Copy, Debug, PartialEq, Eq, Hash)]
#[non_exhaustive]
pub enum NoCoordinate {
    /// The text is no decimal, or it has too many digits or too large an exponent; or the record is no number.
    Outside,
    /// The record's extent is no part of the source.
    NoExtent,
    /// The call was refused.
    Refused(Refusal),
}

impl NoCoordinate {
    /// The number of the refusal.
    #[must_use]
    pub const fn number(self) -> u32 {
        match self {
            Self::Outside => raw::NO_COORDINATE,
            Self::NoExtent => raw::OUT_OF_BOUNDS,
            Self::Refused(refusal) => refusal.number(),
        }
    }
}

impl fmt::Display for NoCoordinate {
    fn fmt(&self, f: &mut fmt::Formatter<'_>) -> fmt::Result {
        match self {
            Self::Outside => write!(f, "no decimal that is made into a number by one exact step"),
            Self::NoExtent => write!(f, "the extent is no part of the source"),
            Self::Refused(refusal) => refusal.fmt(f),
        }
    }
}

impl core::error::Error for NoCoordinate {
    fn source(&self) -> Option<&(dyn core::error::Error + 'static)> {
        match self {
            Self::Refused(refusal) => Some(refusal),
            _ => None,
        }
    }
}

/// What a call told, by its answer.
fn told(answer: u32, value: f64, place: u64) -> Result<f64, NoCoordinate> {
    match answer {
        raw::SERVED => Ok(value),
        raw::NO_COORDINATE => Err(NoCoordinate::Outside),
        raw::OUT_OF_BOUNDS => Err(NoCoordinate::NoExtent),
        _ => Err(NoCoordinate::Refused(Refusal::of(answer, [place, 0]))),
    }
}

/// The coordinate of a text that is one decimal: its exact value rounded once, to the nearest `f64`, ties to even, the sign kept also
/// on zero. It has the bits that `parse::<f64>` gives.
///
/// ```
/// use mihadrena::{coordinate, NoCoordinate};
///
/// assert_eq!(coordinate("6892014.7"), Ok(6892014.7));
/// assert!(coordinate("-0.0").is_ok_and(f64::is_sign_negative));
/// // An integer is no decimal, and 17 digits are too many, however small their value.
/// assert_eq!(coordinate("12"), Err(NoCoordinate::Outside));
/// assert_eq!(coordinate("1.00000000000000000"), Err(NoCoordinate::Outside));
/// ```
///
/// # Errors
/// A [`NoCoordinate`], if the text is no decimal, if its digits are a number over 9,007,199,254,740,992, or if its exponent less the
/// count of its digits behind the dot is not from -22 to 22.
pub fn coordinate<S: AsRef<[u8]> + ?Sized>(text: &S) -> Result<f64, NoCoordinate> {
    let text = text.as_ref();
    let (mut value, mut place) = (0.0, 0);
    // SAFETY: the pointer and the length are those of a slice, and both places are lent for the call.
    let answer = unsafe { raw::mihadrena_coordinate(text.as_ptr(), text.len(), &raw mut value, &raw mut place) };
    told(answer, value, place)
}

/// The coordinate of a record's extent in its source.
///
/// ```
/// use mihadrena::{record_coordinate, Items, NoCoordinate, Options, Record};
///
/// let plan = "(corner 6892014.7 611208.2)";
/// let mut records = [Record::default(); 8];
/// Items::new(plan, Options::report(), &mut records, &mut [])?;
/// assert_eq!(record_coordinate(plan, &records[2]), Ok(6892014.7));
/// assert_eq!(record_coordinate(plan, &records[1]), Err(NoCoordinate::Outside));
/// assert_eq!(record_coordinate("(corner", &records[2]), Err(NoCoordinate::NoExtent));
/// # Ok::<(), mihadrena::Refusal>(())
/// ```
///
/// # Errors
/// A [`NoCoordinate`], as [`coordinate`] on the extent's text, or if the record is no number or its extent is no part of the source.
pub fn record_coordinate<S: AsRef<[u8]> + ?Sized>(source: &S, record: &Record) -> Result<f64, NoCoordinate> {
    let source = source.as_ref();
    let Record { kind, start, end, .. } = *record;
    let (mut value, mut place) = (0.0, 0);
    // SAFETY: the pointer and the length are those of a slice, and both places are lent for the call.
    let answer = unsafe {
        raw::mihadrena_record_coordinate(
            source.as_ptr(),
            source.len(),
            kind,
            start,
            end,
            &raw mut value,
            &raw mut place,
        )
    };
    told(answer, value, place)
}

/// The value of a text that is one decimal or one integer, as [`record_value`] has it: for the digits of a [`Kind::Number`](crate::Kind).
///
/// ```
/// use mihadrena::{value, NoCoordinate};
///
/// assert_eq!((value("6892014"), value("611208.2")), (Ok(6892014.0), Ok(611208.2)));
/// assert_eq!(value("1/6"), Err(NoCoordinate::Outside));
/// ```
///
/// # Errors
/// A [`NoCoordinate`], as [`record_value`].
pub fn value<S: AsRef<[u8]> + ?Sized>(text: &S) -> Result<f64, NoCoordinate> {
    let text = text.as_ref();
    let end = u32::try_from(text.len()).map_err(|_| NoCoordinate::Refused(Refusal::TooLong))?;
    record_value(text, &Record { kind: raw::NUMBER, end, ..Record::default() })
}

/// The value of a record's number in its source, a decimal or an integer: a corner is also written `6892014`. A decimal has the value of
/// its coordinate, an integer up to 9,007,199,254,740,992 its own.
///
/// ```
/// use mihadrena::{record_value, Items, NoCoordinate, Options, Record};
///
/// let plan = "(corner 6892014 611208.2)";
/// let mut records = [Record::default(); 8];
/// Items::new(plan, Options::report(), &mut records, &mut [])?;
/// assert_eq!(record_value(plan, &records[2]), Ok(6892014.0));
/// assert_eq!(record_value(plan, &records[3]), Ok(611208.2));
/// assert_eq!(record_value(plan, &records[1]), Err(NoCoordinate::Outside));
/// # Ok::<(), mihadrena::Refusal>(())
/// ```
///
/// # Errors
/// A [`NoCoordinate`], as [`record_coordinate`], and for a number that is neither, or an integer that is larger.
pub fn record_value<S: AsRef<[u8]> + ?Sized>(source: &S, record: &Record) -> Result<f64, NoCoordinate> {
    let source = source.as_ref();
    let Record { kind, start, end, .. } = *record;
    let (mut value, mut place) = (0.0, 0);
    // SAFETY: the pointer and the length are those of a slice, and both places are lent for the call.
    let answer = unsafe {
        raw::mihadrena_record_value(source.as_ptr(), source.len(), kind, start, end, &raw mut value, &raw mut place)
    };
    told(answer, value, place)
}
