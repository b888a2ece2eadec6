//! Line and column beside every place.
use crate::raw;
use core::fmt;

/// Where a byte place stands: both count from 1, the column in characters. It prints as `line:column`.
#[derive(Clone, Copy, Debug, PartialEq, Eq, Hash, PartialOrd, Ord)]
pub struct Position {
    /// The last line that starts at or before the place.
    pub line: usize,
    /// One more than the characters of the line before the place.
    pub column: usize,
}

impl fmt::Display for Position {
    fn fmt(&self, f: &mut fmt::Formatter<'_>) -> fmt::Result {
        write!(f, "{}:{}", self.line, self.column)
    }
}

/// A call about lines that was refused. It has changed nothing that it was lent.
#[derive(Clone, Copy, Debug, PartialEq, Eq, Hash)]
#[non_exhaustive]
pub enum LineRefusal {
    /// The text exceeds 4,294,967,295 bytes.
    TooLong,
    /// Bytes aren't UTF-8; the start of the first bad sequence.
    NotUtf8(usize),
    /// The memory is too small; how many numbers are needed.
    NoRoom(usize),
    /// The place lies past the end or inside a character.
    NoPlace(usize),
}

impl LineRefusal {
    /// The refusal of an answer that is not `SERVED`, with its first value.
    fn of(answer: u32, value: u64) -> Self {
        match answer {
            raw::TOO_LONG => Self::TooLong,
            raw::NOT_UTF8 => Self::NotUtf8(value as usize),
            raw::LINES_NO_ROOM => Self::NoRoom(value as usize),
            raw::NO_PLACE => Self::NoPlace(value as usize),
            _ => unreachable!("the library refuses these calls for nothing else"),
        }
    }

    /// The number of the refusal.
    #[must_use]
    pub const fn number(self) -> u32 {
        match self {
            Self::TooLong => raw::TOO_LONG,
            Self::NotUtf8(_) => raw::NOT_UTF8,
            Self::NoRoom(_) => raw::LINES_NO_ROOM,
            Self::NoPlace(_) => raw::NO_PLACE,
        }
    }
}

impl fmt::Display for LineRefusal {
    fn fmt(&self, f: &mut fmt::Formatter<'_>) -> fmt::Result {
        match self {
            Self::TooLong => write!(f, "text exceeds {} bytes", raw::LONGEST),
            Self::NotUtf8(at) => write!(f, "invalid UTF-8 at byte {at}"),
            Self::NoRoom(needed) => write!(f, "too little memory, {needed} numbers needed"),
            Self::NoPlace(place) => write!(f, "no character starts at byte {place}"),
        }
    }
}

impl core::error::Error for LineRefusal {}

/// The line starts of a text, with the text: so no question meets an index that is another text's.
///
/// ```
/// use mihadrena::LineIndex;
///
/// let plan = "(stand 101\n  (owner |Øyvind|))\n";
/// let mut memory = [0; 8];
/// let lines = LineIndex::new(plan, &mut memory)?;
/// let place = plan.find("|))").unwrap();
/// assert_eq!(lines.locate(place)?.to_string(), "2:17");
/// assert_eq!(lines.starts(), [0, 11, 32]);
/// # Ok::<(), mihadrena::LineRefusal>(())
/// ```
///
/// Where a text is not UTF-8, the bytes before the first bad sequence are a text, and its end is a place:
///
/// ```
/// use mihadrena::{needed, LineIndex, Options, Refusal};
///
/// let plan = b"(stand 101\n  (owner \xFF))";
/// let Err(Refusal::NotUtf8(place)) = needed(plan, Options::report()) else { panic!() };
/// let mut memory = [0; 8];
/// assert_eq!(LineIndex::new(&plan[..place], &mut memory)?.locate(place)?.to_string(), "2:10");
/// # Ok::<(), mihadrena::LineRefusal>(())
/// ```
#[derive(Clone, Copy, Debug)]
pub struct LineIndex<'a> {
    text: &'a [u8],
    starts: &'a [u32],
}

impl<'a> LineIndex<'a> {
    /// The index of a whole text, in lent memory: one number a line is needed, at most one more than the text has bytes.
    ///
    /// # Errors
    /// [`LineRefusal::TooLong`], [`LineRefusal::NotUtf8`] and [`LineRefusal::NoRoom`].
    pub fn new<S: AsRef<[u8]> + ?Sized>(text: &'a S, memory: &'a mut [u32]) -> Result<Self, LineRefusal> {
        let text = text.as_ref();
        let mut values = [0; raw::LINES_VALUES];
        // SAFETY: each pointer and length is those of a slice, and the mutable ones are borrowed as such.
        let answer = unsafe {
            raw::mihadrena_lines(
                text.as_ptr(),
                text.len(),
                memory.as_mut_ptr(),
                memory.len(),
                values.as_mut_ptr(),
                values.len(),
            )
        };
        match answer {
            raw::SERVED => Ok(Self { text, starts: &memory[..values[0] as usize] }),
            _ => Err(LineRefusal::of(answer, values[0])),
        }
    }

    /// The index of a text from line starts that were kept, or that [`LinePieces`] found; none if they are not the text's. The library looks
    /// once, with one pass over the text.
    ///
    /// ```
    /// use mihadrena::LineIndex;
    ///
    /// let lines = LineIndex::kept("a\nλb\n", &[0, 2, 6]).expect("its own");
    /// assert_eq!(lines.locate(4)?.to_string(), "2:2");
    /// assert!(LineIndex::kept("a\nλb\n", &[0, 3, 6]).is_none());
    /// # Ok::<(), mihadrena::LineRefusal>(())
    /// ```
    #[must_use]
    pub fn kept<S: AsRef<[u8]> + ?Sized>(text: &'a S, starts: &'a [u32]) -> Option<Self> {
        let text = text.as_ref();
        let mut values = [0; raw::LINES_VALUES];
        // SAFETY: each pointer and length is those of a slice, and the mutable one is borrowed as such.
        let answer = unsafe {
            raw::mihadrena_locate(
                text.as_ptr(),
                text.len(),
                starts.as_ptr(),
                starts.len(),
                0,
                values.as_mut_ptr(),
                values.len(),
            )
        };
        (answer == raw::SERVED).then_some(Self { text, starts })
    }

    /// The index that was built of this text before.
    #[cfg(feature = "alloc")]
    pub(crate) const fn of(text: &'a [u8], starts: &'a [u32]) -> Self {
        Self { text, starts }
    }

    /// The byte place of each line start.
    #[must_use]
    pub const fn starts(&self) -> &'a [u32] {
        self.starts
    }

    /// Line and column of a byte place; the end of the text is a place.
    ///
    /// The line is searched for in the index, and the characters of the line before the place are counted: the text is not passed over. The
    /// library's `mihadrena_locate` holds the index against the text at each call; here index and text are kept together, so that this was
    /// done once. This search is no proved function: a test holds it against `mihadrena_locate` on all places of the example plans, and
    /// [`LineIndex::locate_all`] asks the library.
    ///
    /// # Errors
    /// [`LineRefusal::NoPlace`].
    pub fn locate(&self, place: usize) -> Result<Position, LineRefusal> {
        if place > self.text.len() || self.text.get(place).copied().is_some_and(goes_on) {
            return Err(LineRefusal::NoPlace(place));
        }
        let line = self.starts.partition_point(|&start| start as usize <= place);
        let before = &self.text[self.starts[line - 1] as usize..place];
        Ok(Position { line, column: 1 + before.iter().filter(|&&byte| !goes_on(byte)).count() })
    }

    /// Line and column of many byte places, in any order, with one pass over the text: two numbers of the lent memory for each.
    ///
    /// ```
    /// use mihadrena::{LineIndex, LineRefusal, Position};
    ///
    /// let (mut memory, mut found) = ([0; 4], [0; 6]);
    /// let lines = LineIndex::new("a\nλb\n", &mut memory)?;
    /// let answers: Vec<_> = lines.locate_all(&[4, 3, 0], &mut found)?.collect();
    /// assert_eq!(answers, [Ok(Position { line: 2, column: 2 }), Err(LineRefusal::NoPlace(3)), Ok(Position { line: 1, column: 1 })]);
    /// # Ok::<(), LineRefusal>(())
    /// ```
    ///
    /// # Errors
    /// [`LineRefusal::NoRoom`].
    pub fn locate_all<'b>(
        &self,
        places: &'b [u32],
        found: &'b mut [usize],
    ) -> Result<impl Iterator<Item = Result<Position, LineRefusal>> + 'b, LineRefusal> {
        let mut values = [0; raw::LINES_VALUES];
        // SAFETY: each pointer and length is those of a slice, and the mutable ones are borrowed as such.
        let answer = unsafe {
            raw::mihadrena_locate_all(
                self.text.as_ptr(),
                self.text.len(),
                self.starts.as_ptr(),
                self.starts.len(),
                places.as_ptr(),
                places.len(),
                found.as_mut_ptr(),
                found.len(),
                values.as_mut_ptr(),
                values.len(),
            )
        };
        match answer {
            raw::SERVED => Ok(places.iter().zip(found.chunks_exact(2)).map(|(&place, answer)| match answer {
                [0, _] => Err(LineRefusal::NoPlace(place as usize)),
                _ => Ok(Position { line: answer[0], column: answer[1] }),
            })),
            _ => Err(LineRefusal::of(answer, values[0])),
        }
    }
}

/// Whether a byte of UTF-8 goes on with a character.
const fn goes_on(byte: u8) -> bool {
    byte & 0b1100_0000 == 0b1000_0000
}

/// The line starts of a text that comes in pieces, in lent memory. No piece is refused; the end says whether the index is built.
///
/// ```
/// use mihadrena::LinePieces;
///
/// let mut memory = [0; 4];
/// let mut lines = LinePieces::new(&mut memory);
/// lines.piece(b"a\n\xce");
/// lines.piece(b"\xbbb\n");
/// assert_eq!(lines.end(), Ok(&[0, 2, 6][..]));
/// ```
#[derive(Debug)]
pub struct LinePieces<'a> {
    state: [u32; raw::LINES_STATE_WORDS],
    memory: &'a mut [u32],
}

impl<'a> LinePieces<'a> {
    /// Opens an index.
    pub fn new(memory: &'a mut [u32]) -> Self {
        let mut state = [0; raw::LINES_STATE_WORDS];
        // SAFETY: each pointer and length is those of a slice that is borrowed mutably.
        unsafe { raw::mihadrena_lines_open(state.as_mut_ptr(), state.len(), memory.as_mut_ptr(), memory.len()) };
        Self { state, memory }
    }

    /// A piece of the text.
    pub fn piece(&mut self, piece: &[u8]) {
        // SAFETY: each pointer and length is those of a slice, and the mutable ones are borrowed as such.
        unsafe {
            raw::mihadrena_lines_piece(
                self.state.as_mut_ptr(),
                self.state.len(),
                piece.as_ptr(),
                piece.len(),
                self.memory.as_mut_ptr(),
                self.memory.len(),
            );
        }
    }

    /// Declares the end of the text: its line starts, or what the whole text's call is refused for.
    ///
    /// # Errors
    /// [`LineRefusal::TooLong`], [`LineRefusal::NotUtf8`] and [`LineRefusal::NoRoom`].
    pub fn end(self) -> Result<&'a [u32], LineRefusal> {
        let mut values = [0; raw::LINES_VALUES];
        // SAFETY: each pointer and length is those of a slice, and the mutable one is borrowed as such.
        let answer = unsafe {
            raw::mihadrena_lines_end(
                self.state.as_ptr(),
                self.state.len(),
                self.memory.as_ptr(),
                self.memory.len(),
                values.as_mut_ptr(),
                values.len(),
            )
        };
        match answer {
            raw::SERVED => Ok(&self.memory[..values[0] as usize]),
            _ => Err(LineRefusal::of(answer, values[0])),
        }
    }
}
