//! What is wrong with a text, a number or a call.
use crate::raw::{self, Record};
use core::fmt;

/// Why the digits of a hex escape are none.
#[derive(Clone, Copy, Debug, PartialEq, Eq, Hash)]
pub enum HexError {
    /// There are no digits.
    Empty,
    /// One is no hex digit.
    InvalidDigit,
    /// The number exceeds 32 bits.
    PosOverflow,
}

/// An item that is an error, in the order and by the names of the Rust's `TokenError`. It prints as the Rust's does; the last one is not
/// the Rust's.
#[derive(Clone, Copy, Debug, PartialEq, Eq, Hash)]
#[non_exhaustive]
pub enum Error {
    /// `##`, or a blank in a here-string's first line: `#<<a b`
    UnexpectedChar(char),
    /// `"a`
    IncompleteString,
    /// `|a`
    IncompleteIdentifier,
    /// `#|`
    IncompleteComment,
    /// `"\ x"`
    InvalidWhitespace,
    /// `"\q"`
    InvalidStringEscape(char),
    /// `#\`
    InvalidCharacter,
    /// `1/0`
    ZeroDenominator,
    /// `"\x41"`, with the closer that was expected
    UnclosedHexEscape(char),
    /// `#\nothing`
    InvalidCharName,
    /// `"\x;"`
    InvalidHexEscapeLiteral(HexError),
    /// `"\xD800;"`
    InvalidHexCodePoint(u32),
    /// `#\a;` in report mode: no name of a character, and `;`, `"`, `'` or `,` stands in it after its first character. Plain mode has
    /// [`Error::InvalidCharName`].
    InvalidCharDelimiter,
}

impl Error {
    /// The error of a record; none if it is no error, or has a detail that its kind never has.
    pub(crate) fn of(record: &Record) -> Option<Self> {
        let detail = record.detail;
        Some(match record.kind {
            raw::UNEXPECTED_CHAR => Self::UnexpectedChar(char::from_u32(detail)?),
            raw::INCOMPLETE_STRING => Self::IncompleteString,
            raw::INCOMPLETE_IDENTIFIER => Self::IncompleteIdentifier,
            raw::INCOMPLETE_COMMENT => Self::IncompleteComment,
            raw::INVALID_WHITESPACE => Self::InvalidWhitespace,
            raw::INVALID_STRING_ESCAPE => Self::InvalidStringEscape(char::from_u32(detail)?),
            raw::INVALID_CHARACTER => Self::InvalidCharacter,
            raw::ZERO_DENOMINATOR => Self::ZeroDenominator,
            raw::UNCLOSED_HEX_ESCAPE => Self::UnclosedHexEscape(char::from_u32(detail)?),
            raw::INVALID_CHAR_NAME => Self::InvalidCharName,
            raw::INVALID_HEX_ESCAPE_LITERAL => Self::InvalidHexEscapeLiteral(HexError::of(detail)?),
            raw::INVALID_HEX_CODE_POINT => Self::InvalidHexCodePoint(detail),
            raw::INVALID_CHAR_DELIMITER => Self::InvalidCharDelimiter,
            _ => return None,
        })
    }
}

impl HexError {
    fn of(detail: u32) -> Option<Self> {
        match detail {
            raw::HEX_EMPTY => Some(Self::Empty),
            raw::HEX_INVALID_DIGIT => Some(Self::InvalidDigit),
            raw::HEX_OVERFLOW => Some(Self::PosOverflow),
            _ => None,
        }
    }
}

impl fmt::Display for HexError {
    fn fmt(&self, f: &mut fmt::Formatter<'_>) -> fmt::Result {
        f.write_str(match self {
            Self::Empty => "cannot parse integer from empty string",
            Self::InvalidDigit => "invalid digit found in string",
            Self::PosOverflow => "number too large to fit in target type",
        })
    }
}

impl fmt::Display for Error {
    fn fmt(&self, f: &mut fmt::Formatter<'_>) -> fmt::Result {
        match self {
            Self::UnexpectedChar(c) => write!(f, "unexpected char {c:?}"),
            Self::IncompleteString => write!(f, "incomplete string"),
            Self::IncompleteIdentifier => write!(f, "incomplete identifier"),
            Self::IncompleteComment => write!(f, "incomplete comment"),
            Self::InvalidWhitespace => write!(f, "unexpected character, expected whitespace or newline"),
            Self::InvalidStringEscape(c) => write!(f, "invalid escape {c:?}"),
            Self::InvalidCharacter => write!(f, "invalid character"),
            Self::ZeroDenominator => write!(f, "division by zero is not allowed in rational literals"),
            Self::UnclosedHexEscape(close) => write!(f, "unclosed hex escape, expected {close:?}"),
            Self::InvalidCharName => write!(f, "invalid character name"),
            Self::InvalidHexEscapeLiteral(error) => write!(f, "invalid hex escape literal, {error}"),
            Self::InvalidHexCodePoint(code) => write!(f, "invalid code point {code:x}"),
            Self::InvalidCharDelimiter => write!(f, "delimiter in a character name"),
        }
    }
}

/// ```
/// use mihadrena::{Error, HexError};
/// use std::error::Error as _;
///
/// let error = Error::InvalidHexEscapeLiteral(HexError::Empty);
/// assert_eq!(error.source().map(ToString::to_string), Some(HexError::Empty.to_string()));
/// assert!(Error::ZeroDenominator.source().is_none());
/// ```
impl core::error::Error for Error {
    fn source(&self) -> Option<&(dyn core::error::Error + 'static)> {
        match self {
            Self::InvalidHexEscapeLiteral(error) => Some(error),
            _ => None,
        }
    }
}

impl core::error::Error for HexError {}

/// A call that was refused. Of a whole text it has changed nothing that it was lent. Reading in pieces, [`Refusal::TooLong`],
/// [`Refusal::NotUtf8`] and [`Refusal::LongItem`] stop the reading: every later call is refused the same way.
#[derive(Clone, Copy, Debug, PartialEq, Eq, Hash)]
#[non_exhaustive]
pub enum Refusal {
    /// The text exceeds 4,294,967,295 bytes.
    TooLong,
    /// Bytes aren't UTF-8; the start of the first bad sequence.
    NotUtf8(usize),
    /// Records or text memory are too few; how many of each are needed.
    TooFew {
        /// How many records: one an item.
        records: usize,
        /// How many bytes of text memory.
        text: usize,
    },
    /// In pieces, an item exceeds 4,096 bytes; its start.
    LongItem(usize),
    /// A piece after the declared end.
    AfterEnd,
    /// Words that are no state of a reading in pieces: they were not all kept, or were changed.
    OutOfBounds,
}

impl Refusal {
    /// The refusal of an answer that is not `SERVED`, with its two values.
    pub(crate) fn of(answer: u32, values: [u64; raw::READ_VALUES]) -> Self {
        let [first, second] = values.map(|value| value as usize);
        match answer {
            raw::TOO_LONG => Self::TooLong,
            raw::NOT_UTF8 => Self::NotUtf8(first),
            raw::TOO_FEW => Self::TooFew { records: first, text: second },
            raw::LONG_ITEM => Self::LongItem(first),
            raw::AFTER_END => Self::AfterEnd,
            raw::OUT_OF_BOUNDS => Self::OutOfBounds,
            _ => unreachable!("the library refuses these calls for nothing else"),
        }
    }

    /// The number of the refusal.
    #[must_use]
    pub const fn number(self) -> u32 {
        match self {
            Self::TooLong => raw::TOO_LONG,
            Self::NotUtf8(_) => raw::NOT_UTF8,
            Self::TooFew { .. } => raw::TOO_FEW,
            Self::LongItem(_) => raw::LONG_ITEM,
            Self::AfterEnd => raw::AFTER_END,
            Self::OutOfBounds => raw::OUT_OF_BOUNDS,
        }
    }
}

impl fmt::Display for Refusal {
    fn fmt(&self, f: &mut fmt::Formatter<'_>) -> fmt::Result {
        match self {
            Self::TooLong => write!(f, "text exceeds {} bytes", raw::LONGEST),
            Self::NotUtf8(at) => write!(f, "invalid UTF-8 at byte {at}"),
            Self::TooFew { records, text } => {
                write!(f, "too little memory, {records} records and {text} text bytes needed")
            }
            Self::LongItem(start) => write!(f, "item at byte {start} exceeds {} bytes", raw::STATE_BYTES),
            Self::AfterEnd => write!(f, "piece after the end of the text"),
            Self::OutOfBounds => write!(f, "words that are no state of a reading"),
        }
    }
}

impl core::error::Error for Refusal {}
