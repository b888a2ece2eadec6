//! Item files: records as numbers in groups of seven bits, and back. docs/ITEMFILE.md of the repository has the format.
use crate::raw::{self, Record};
use core::fmt;

/// An item file that was not written or not read; nothing that was lent has changed.
#[derive(Clone, Copy, Debug, PartialEq, Eq, Hash)]
#[non_exhaustive]
pub enum FileRefusal {
    /// A number of the file, or the item that it belongs to, is cut short; which number, from 0.
    CutShort(usize),
    /// A number of the file is longer than needed, over 32 bits, or has a fifth group that goes on; which number, from 0.
    WrongNumber(usize),
    /// A start or an end passes 32 bits; at which number, from 0.
    OverSum(usize),
    /// A record starts before the one before it, or its extent, place or text ends before it starts; which record, from 0. No record that
    /// the library gave does.
    GoesBack(usize),
    /// The memory lent is too small; how many bytes are needed of [`write_items`], how many records of [`read_items`].
    TooFew(usize),
}

impl FileRefusal {
    /// The refusal of an answer that is not `SERVED`, with its value.
    fn of(answer: u32, value: usize) -> Self {
        match answer {
            raw::CUT_SHORT => Self::CutShort(value),
            raw::WRONG_NUMBER => Self::WrongNumber(value),
            raw::OVER_SUM => Self::OverSum(value),
            raw::GOES_BACK => Self::GoesBack(value),
            raw::TOO_FEW => Self::TooFew(value),
            _ => unreachable!("the library refuses these calls for nothing else"),
        }
    }

    /// The number of the refusal.
    #[must_use]
    pub const fn number(self) -> u32 {
        match self {
            Self::CutShort(_) => raw::CUT_SHORT,
            Self::WrongNumber(_) => raw::WRONG_NUMBER,
            Self::OverSum(_) => raw::OVER_SUM,
            Self::GoesBack(_) => raw::GOES_BACK,
            Self::TooFew(_) => raw::TOO_FEW,
        }
    }
}

impl fmt::Display for FileRefusal {
    fn fmt(&self, f: &mut fmt::Formatter<'_>) -> fmt::Result {
        match self {
            Self::CutShort(number) => write!(f, "the file is cut short at its number {number}"),
            Self::WrongNumber(number) => write!(f, "number {number} of the file is longer than needed or over 32 bits"),
            Self::OverSum(number) => write!(f, "a place passes 32 bits at number {number} of the file"),
            Self::GoesBack(record) => write!(f, "record {record} goes back"),
            Self::TooFew(needed) => write!(f, "too little memory, {needed} needed"),
        }
    }
}

impl core::error::Error for FileRefusal {}

/// What a call told, by its answer.
fn told(answer: u32, value: u64) -> Result<usize, FileRefusal> {
    match answer {
        raw::SERVED => Ok(value as usize),
        _ => Err(FileRefusal::of(answer, value as usize)),
    }
}

/// Writes the item file of some records, from the front of `out` on, and answers how many bytes it has. [`raw::ITEM_FILE_BYTES`] bytes a
/// record always suffice.
///
/// ```
/// use mihadrena::{read_items, write_items, Items, Options, Record};
///
/// let mut records = [Record::default(); 2];
/// Items::new("(a", Options::report(), &mut records, &mut [])?;
/// let mut file = [0; 100];
/// let bytes = write_items(&records, &mut file)?;
/// assert_eq!(file[..bytes], [0, 0, 0, 1, 0, 1, 0, 0, 0, 0, 27, 0, 1, 1, 1, 1, 1, 1, 1, 1]);
///
/// let mut loaded = [Record::default(); 2];
/// assert_eq!(read_items(&file[..bytes], &mut loaded), Ok(2));
/// assert_eq!(loaded, records);
/// # Ok::<(), Box<dyn std::error::Error>>(())
/// ```
///
/// # Errors
/// [`FileRefusal::GoesBack`], of records that the library did not give; then [`FileRefusal::TooFew`].
pub fn write_items(records: &[Record], out: &mut [u8]) -> Result<usize, FileRefusal> {
    let mut values = [0; raw::ITEMS_VALUES];
    // SAFETY: each pointer and length is those of a slice, the mutable ones are borrowed as such, and a record is RECORD_WORDS words.
    let answer = unsafe {
        raw::mihadrena_items_write(
            records.as_ptr().cast(),
            records.len() * raw::RECORD_WORDS,
            out.as_mut_ptr(),
            out.len(),
            values.as_mut_ptr(),
            values.len(),
        )
    };
    told(answer, values[0])
}

/// Reads an item file, which may be any bytes, into records from the front on, and answers how many items it has. What the records point
/// at, and whether a lexer could have given them, is not known of a file that someone else wrote:
/// [`Items::stored`](crate::Items::stored) looks at both, [`records_fit`](crate::records_fit) at the first.
///
/// ```
/// use mihadrena::{read_items, FileRefusal, Record};
///
/// let mut records = [Record::default(); 2];
/// // A file made by hand: one Keyword, `#:x`, at 300..303, with its text.
/// let file = [28, 0, 172, 2, 3, 172, 2, 3, 1, 174, 2, 1, 0];
/// assert_eq!(read_items(&file, &mut records), Ok(1));
/// assert_eq!((records[0].start, records[0].end, records[0].text_start, records[0].text_end), (300, 303, 302, 303));
/// // The last number is missing.
/// assert_eq!(read_items(&file[..12], &mut records), Err(FileRefusal::CutShort(9)));
/// // 0 in two groups.
/// assert_eq!(read_items(&[28, 128, 0], &mut records), Err(FileRefusal::WrongNumber(1)));
/// ```
///
/// # Errors
/// [`FileRefusal::WrongNumber`], [`FileRefusal::CutShort`] or [`FileRefusal::OverSum`] at the first number that fails; then
/// [`FileRefusal::TooFew`].
pub fn read_items(file: &[u8], records: &mut [Record]) -> Result<usize, FileRefusal> {
    let mut values = [0; raw::ITEMS_VALUES];
    // SAFETY: each pointer and length is those of a slice, the mutable ones are borrowed as such, and a record is RECORD_WORDS words.
    let answer = unsafe {
        raw::mihadrena_items_read(
            file.as_ptr(),
            file.len(),
            records.as_mut_ptr().cast(),
            records.len() * raw::RECORD_WORDS,
            values.as_mut_ptr(),
            values.len(),
        )
    };
    told(answer, values[0])
}
