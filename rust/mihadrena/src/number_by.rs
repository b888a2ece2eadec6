//! The parts of a number by a choice of reader.
use crate::number::told;
use crate::raw::{self, Parts};
use crate::{NotNumber, Number};

/// Who takes a number apart. The two differ on the texts of docs/DIFFERENCES.md's three conditions alone.
#[derive(Clone, Copy, Debug, Default, PartialEq, Eq, Hash)]
#[non_exhaustive]
pub enum NumberReader {
    /// Steel's reader, as [`number`](crate::number) and the items have it: `1@1/-2` is a number, `+I` and `#xe+1i` are none.
    #[default]
    Bought,
    /// The number grammar of R7RS 7.1.1 without exactness prefixes: `+I` and `#xe+1i` are numbers, `1@1/-2` is none.
    Standard,
}

impl NumberReader {
    /// The library's number of the choice.
    #[must_use]
    pub const fn choice(self) -> u32 {
        match self {
            Self::Bought => raw::BOUGHT,
            Self::Standard => raw::STANDARD,
        }
    }
}

/// What a text is as a number by one of the two readers.
///
/// ```
/// use mihadrena::{number, number_by, Int, NotNumber, Number, NumberReader, Real};
///
/// let parts = Number::Complex(Real::Integer(Int::Small(14)), Real::Integer(Int::Small(1)));
/// assert_eq!(number_by(NumberReader::Standard, "#xe+1i"), Ok(parts));
/// assert_eq!(number_by(NumberReader::Bought, "#xe+1i"), Err(NotNumber::NoNumber));
/// assert_eq!(number_by(NumberReader::Standard, "1@1/-2"), Err(NotNumber::NoNumber));
/// assert_eq!(number_by(NumberReader::Bought, "1@1/-2"), number("1@1/-2"));
/// ```
///
/// # Errors
/// A [`NotNumber`], if it is none.
pub fn number_by<S: AsRef<[u8]> + ?Sized>(reader: NumberReader, text: &S) -> Result<Number<'_>, NotNumber> {
    let text = text.as_ref();
    let mut parts = Parts::default();
    let words = (&raw mut parts).cast();
    // SAFETY: each pointer and length is those of a slice, and `Parts` is NUMBER_WORDS words.
    let answer =
        unsafe { raw::mihadrena_number_by(reader.choice(), text.as_ptr(), text.len(), words, raw::NUMBER_WORDS) };
    told(text, answer, &parts)
}
