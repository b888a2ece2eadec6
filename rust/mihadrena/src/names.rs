//! One table of names for two parties.
use crate::raw;
use core::{fmt, str};

/// Who asks for a name's number.
#[derive(Clone, Copy, Debug, PartialEq, Eq, Hash)]
pub enum Party {
    /// Its first name has number 0.
    Planner,
    /// Its first name has number 512.
    Contractor,
}

impl Party {
    const fn number(self) -> u32 {
        match self {
            Self::Planner => raw::PLANNER,
            Self::Contractor => raw::CONTRACTOR,
        }
    }
}

/// Why a table gave no number or no name. It stays as it was.
#[derive(Clone, Copy, Debug, PartialEq, Eq, Hash)]
#[non_exhaustive]
pub enum NoName {
    /// The lent memory is too little, or was changed from outside: docs/NAMES.md lists its bounds.
    Outside,
    /// The name is in neither half, and the party's own half lacks the entry or the bytes.
    NoRoom,
    /// There is no such number.
    NoNumber,
}

impl NoName {
    fn of(mark: u32) -> Self {
        match mark {
            raw::OUT_OF_BOUNDS => Self::Outside,
            raw::NO_ROOM => Self::NoRoom,
            raw::NO_NAME => Self::NoNumber,
            _ => unreachable!("the library refuses these calls for nothing else"),
        }
    }

    /// The number of the refusal.
    #[must_use]
    pub const fn number(self) -> u32 {
        match self {
            Self::Outside => raw::OUT_OF_BOUNDS,
            Self::NoRoom => raw::NO_ROOM,
            Self::NoNumber => raw::NO_NAME,
        }
    }
}

impl fmt::Display for NoName {
    fn fmt(&self, f: &mut fmt::Formatter<'_>) -> fmt::Result {
        f.write_str(match self {
            Self::Outside => "memory outside the name table's bounds",
            Self::NoRoom => "no room for a name in the party's half",
            Self::NoNumber => "no name has this number",
        })
    }
}

impl core::error::Error for NoName {}

/// A table of names in lent memory: [`Names::WORDS`] words and [`Names::BYTES`] bytes, or more. Equal names have equal numbers,
/// whoever asks, and a number once given always gives the same name back.
///
/// ```
/// use mihadrena::{Names, NoName, Party};
///
/// let mut words = vec![0; Names::WORDS];
/// let mut bytes = vec![0; Names::BYTES];
/// let mut names = Names::open(&mut words, &mut bytes)?;
/// assert_eq!(names.enter(Party::Planner, "Betula"), Ok(0));
/// assert_eq!(names.enter(Party::Contractor, "Fagus"), Ok(512));
/// assert_eq!(names.enter(Party::Planner, "Fagus"), Ok(512));
/// assert_eq!(names.name_str(512), Ok(Some("Fagus")));
/// assert_eq!(names.enter(Party::Planner, b"\xFF"), Ok(1));
/// assert_eq!((names.name(1), names.name_str(1)), (Ok(&b"\xFF"[..]), Ok(None)));
/// assert_eq!(names.name(2), Err(NoName::NoNumber));
/// # Ok::<(), NoName>(())
/// ```
#[derive(Debug)]
pub struct Names<'a> {
    words: &'a mut [u32],
    bytes: &'a mut [u8],
}

impl<'a> Names<'a> {
    /// How many words a table takes.
    pub const WORDS: usize = raw::NAMES_WORDS;
    /// How many bytes it takes.
    pub const BYTES: usize = raw::NAMES_BYTES;

    /// An empty table.
    ///
    /// # Errors
    /// [`NoName::Outside`] for too little memory.
    pub fn open(words: &'a mut [u32], bytes: &'a mut [u8]) -> Result<Self, NoName> {
        // SAFETY: the slices are valid, and the words overlap with nothing else.
        let mark = unsafe { raw::mihadrena_names_open(words.as_mut_ptr(), words.len(), bytes.as_ptr(), bytes.len()) };
        served(mark).map(|()| Self { words, bytes })
    }

    /// A table as it was kept: memory that an earlier one was opened in. Whether it is within the bounds is tested by each call.
    pub fn kept(words: &'a mut [u32], bytes: &'a mut [u8]) -> Self {
        Self { words, bytes }
    }

    /// The number of a name, a `str` or any bytes; a name that neither party has entered is entered in the party's half.
    ///
    /// # Errors
    /// [`NoName::NoRoom`], and [`NoName::Outside`] for memory that was changed from outside.
    pub fn enter<S: AsRef<[u8]> + ?Sized>(&mut self, party: Party, name: &S) -> Result<u32, NoName> {
        let name = name.as_ref();
        let mut number = 0;
        // SAFETY: the slices are valid, and what is written overlaps with nothing else.
        let mark = unsafe {
            raw::mihadrena_names_enter(
                self.words.as_mut_ptr(),
                self.words.len(),
                self.bytes.as_mut_ptr(),
                self.bytes.len(),
                party.number(),
                name.as_ptr(),
                name.len(),
                &raw mut number,
            )
        };
        served(mark).map(|()| number)
    }

    /// The name that has a number.
    ///
    /// # Errors
    /// [`NoName::NoNumber`], and [`NoName::Outside`] for memory that was changed from outside.
    pub fn name(&self, number: u32) -> Result<&[u8], NoName> {
        let (mut start, mut end) = (0, 0);
        // SAFETY: the slices are valid, and what is written overlaps with nothing else.
        let mark = unsafe {
            raw::mihadrena_names_place(
                self.words.as_ptr(),
                self.words.len(),
                self.bytes.as_ptr(),
                self.bytes.len(),
                number,
                &raw mut start,
                &raw mut end,
            )
        };
        served(mark).map(|()| &self.bytes[start..end])
    }

    /// The name that has a number as a `str`; none where it is none.
    ///
    /// # Errors
    /// As [`Names::name`].
    pub fn name_str(&self, number: u32) -> Result<Option<&str>, NoName> {
        self.name(number).map(|name| str::from_utf8(name).ok())
    }
}

/// A mark as a result.
fn served(mark: u32) -> Result<(), NoName> {
    if mark == raw::SERVED {
        Ok(())
    } else {
        Err(NoName::of(mark))
    }
}
