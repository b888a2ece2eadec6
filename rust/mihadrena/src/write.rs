//! Writing a plan back.
use crate::raw::{self, Record};
use core::{fmt, str};

/// Records that were not written. The memory is as it was.
#[derive(Clone, Copy, Debug, PartialEq, Eq, Hash)]
#[non_exhaustive]
pub enum NotWritten {
    /// A record's kind is none, or its extent or its text is not whole characters of what is lent; its number, counted from 0.
    Alien(usize),
    /// A record is an error or a comment; its number.
    Unwritten(usize),
    /// The result would exceed 4,294,967,295 bytes.
    TooLong,
    /// The memory is too small; how many bytes are needed.
    NoRoom(usize),
}

impl NotWritten {
    /// The refusal of an answer that is not `SERVED`, with its value.
    fn of(answer: u32, value: usize) -> Self {
        match answer {
            raw::ALIEN => Self::Alien(value),
            raw::UNWRITTEN => Self::Unwritten(value),
            raw::TOO_LONG => Self::TooLong,
            raw::TOO_FEW => Self::NoRoom(value),
            _ => unreachable!("the library refuses this call for nothing else"),
        }
    }

    /// The number of the refusal.
    #[must_use]
    pub const fn number(self) -> u32 {
        match self {
            Self::Alien(_) => raw::ALIEN,
            Self::Unwritten(_) => raw::UNWRITTEN,
            Self::TooLong => raw::TOO_LONG,
            Self::NoRoom(_) => raw::TOO_FEW,
        }
    }
}

impl fmt::Display for NotWritten {
    fn fmt(&self, f: &mut fmt::Formatter<'_>) -> fmt::Result {
        match self {
            Self::Alien(record) => write!(f, "record {record} is none of this source and text memory"),
            Self::Unwritten(record) => write!(f, "record {record} is an error or a comment"),
            Self::TooLong => write!(f, "text exceeds {} bytes", raw::LONGEST),
            Self::NoRoom(needed) => write!(f, "too little memory, {needed} bytes needed"),
        }
    }
}

impl core::error::Error for NotWritten {}

/// Writes the text of records to lent memory, one space between two items. `source` and `text` are what the records' extents and texts lie
/// in: what [`Items::new`](crate::Items::new) was lent, or what a program made of it since.
///
/// An identifier is written bare where it reads back as the same identifier at its place, else in vertical lines; a string in quotes; a
/// backslash stands in both before a backslash and the closing mark. Any other item is the bytes of its extent, and a pair such as `+foo`
/// is one word where that reads back as the pair. Records with no error and no comment, of a text read in report mode, are read from the
/// result in report mode again: the same kinds, details, texts, depths and numbers, also where identifiers and strings got other texts.
///
/// ```
/// use mihadrena::{raw, write, Items, Options, Record};
///
/// let plan = "(species spruce) ; second thinning";
/// let options = Options::report().without_comments();
/// let mut records = [Record::default(); 8];
/// let count = Items::new(plan, options, &mut records, &mut [])?.len();
/// let records = &mut records[..count];
/// let mut out = [0; 64];
/// assert_eq!(write(records, plan, &[], &mut out)?, "( species spruce )");
///
/// // A name is changed by a text in the text memory.
/// let name = "Norway spruce";
/// records[2] = Record { text_source: raw::IN_MEMORY, text_start: 0, text_end: name.len() as u32, ..records[2] };
/// assert_eq!(write(records, plan, name.as_bytes(), &mut out)?, "( species |Norway spruce| )");
///
/// // One record alone, put between the parts of the old plan: the comment stays.
/// let (start, end) = (records[2].start as usize, records[2].end as usize);
/// let word = write(&records[2..3], plan, name.as_bytes(), &mut out)?;
/// assert_eq!([&plan[..start], word, &plan[end..]].concat(), "(species |Norway spruce|) ; second thinning");
/// # Ok::<(), Box<dyn std::error::Error>>(())
/// ```
///
/// A number is the bytes of its extent, so that a new one needs a source that has it:
///
/// ```
/// use mihadrena::{write, Items, Options, Record};
///
/// let plan = "(volume 412.5)".to_string();
/// let options = Options::report().without_comments();
/// let mut records = [Record::default(); 4];
/// Items::new(&plan, options, &mut records, &mut [])?;
/// let source = plan + "398.0";
/// records[2] = Record { start: 14, end: 19, ..records[2] };
/// assert_eq!(write(&records, &source, &[], &mut [0; 32])?, "( volume 398.0 )");
/// # Ok::<(), Box<dyn std::error::Error>>(())
/// ```
///
/// # Errors
/// At the first record that is refused [`NotWritten::Alien`] or [`NotWritten::Unwritten`]; then [`NotWritten::TooLong`]; last
/// [`NotWritten::NoRoom`].
pub fn write<'a, S: AsRef<[u8]> + ?Sized>(
    records: &[Record],
    source: &S,
    text: &[u8],
    out: &'a mut [u8],
) -> Result<&'a str, NotWritten> {
    let source = source.as_ref();
    let mut values = [0; raw::WRITE_VALUES];
    // SAFETY: each pointer and length is those of a slice, the mutable ones are borrowed as such, and a record is RECORD_WORDS words.
    let answer = unsafe {
        raw::mihadrena_write(
            records.as_ptr().cast(),
            records.len() * raw::RECORD_WORDS,
            source.as_ptr(),
            source.len(),
            text.as_ptr(),
            text.len(),
            out.as_mut_ptr(),
            out.len(),
            values.as_mut_ptr(),
            values.len(),
        )
    };
    let value = values[0] as usize;
    match answer {
        raw::SERVED => Ok(str::from_utf8(&out[..value]).unwrap_or_else(|_| unreachable!("the library writes UTF-8"))),
        _ => Err(NotWritten::of(answer, value)),
    }
}
