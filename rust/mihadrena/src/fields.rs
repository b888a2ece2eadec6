//! Many fields in one call.
use crate::raw::{self, Record, Row};
use crate::{Items, Options, Refusal};
use core::fmt;
use core::iter::FusedIterator;

/// Why no part was read. A refused call has changed nothing that it was lent.
#[derive(Clone, Copy, Debug, PartialEq, Eq, Hash)]
#[non_exhaustive]
pub enum NoFields {
    /// The ends go back or pass the source.
    BadEnds,
    /// The source exceeds 4,294,967,295 bytes.
    TooLong,
    /// Rows, records or text memory are too few; how many of each all parts need.
    TooFew {
        /// How many rows: one a part.
        rows: usize,
        /// How many records: one an item.
        records: usize,
        /// How many bytes of text memory.
        text: usize,
    },
}

impl NoFields {
    /// The refusal of an answer that is not `SERVED`, with its two values, for so many parts.
    fn of(answer: u32, values: [u64; raw::FIELDS_VALUES], rows: usize) -> Self {
        let [records, text] = values.map(|value| value as usize);
        match answer {
            raw::BAD_ENDS => Self::BadEnds,
            raw::TOO_LONG => Self::TooLong,
            raw::TOO_FEW => Self::TooFew { rows, records, text },
            _ => unreachable!("the library refuses this call for nothing else"),
        }
    }

    /// The number of the refusal.
    #[must_use]
    pub const fn number(self) -> u32 {
        match self {
            Self::BadEnds => raw::BAD_ENDS,
            Self::TooLong => raw::TOO_LONG,
            Self::TooFew { .. } => raw::TOO_FEW,
        }
    }
}

impl fmt::Display for NoFields {
    fn fmt(&self, f: &mut fmt::Formatter<'_>) -> fmt::Result {
        match self {
            Self::BadEnds => write!(f, "the ends go back or pass the source"),
            Self::TooLong => write!(f, "source exceeds {} bytes", raw::LONGEST),
            Self::TooFew { rows, records, text } => {
                write!(f, "too little memory, {rows} rows, {records} records and {text} text bytes needed")
            }
        }
    }
}

impl core::error::Error for NoFields {}

/// The parts of a source, in its order, each read as a text of its own: its items, or why it has none, which is [`Refusal::NotUtf8`] with
/// the place from the part's start. What an item has is what [`Items::new`] on the part alone gives: extents and places count from the
/// part's start, and nothing that was read in one part tells in the next. Ends, rows and records are lent as long as the parts live (`'r`),
/// the source and the text memory as long as what is taken from them (`'t`).
///
/// ```
/// use mihadrena::{Fields, Kind, Options, Record, Refusal, Row};
///
/// // A stand card: fields with tabs between them. A part is a field with the tab behind it.
/// let card = b"101\tspruce\t412.5;est\t\xFF\t";
/// let ends: Vec<u32> = (1..=card.len()).filter(|&end| card[end - 1] == b'\t').map(|end| end as u32).collect();
/// let report = Options::report().without_comments();
/// let mut rows = vec![Row::default(); ends.len()];
/// let mut records = vec![Record::default(); card.len()];
/// let mut text = vec![0; card.len()];
/// let mut fields = Fields::new(card, &ends, report, &mut rows, &mut records, &mut text)?;
///
/// let mut first = fields.next().expect("a part")?;
/// assert_eq!(first.next().expect("an item").what, Ok(Kind::Number("101")));
/// let mut second = fields.next().expect("a part")?;
/// let name = second.next().expect("an item");
/// assert_eq!((name.what, name.extent), (Ok(Kind::Identifier("spruce")), 0..6));
/// let mut third = fields.next().expect("a part")?;
/// assert_eq!((third.len(), third.next().expect("an item").what), (1, Ok(Kind::Number("412.5"))));
/// // The last part is damaged, and only that one.
/// assert_eq!(fields.next().expect("a part").err(), Some(Refusal::NotUtf8(0)));
/// assert!(fields.next().is_none());
/// # Ok::<(), Box<dyn std::error::Error>>(())
/// ```
#[derive(Clone, Debug)]
#[must_use = "parts are read when the iterator is made, and lost if it is dropped"]
pub struct Fields<'t, 'r> {
    source: &'t [u8],
    ends: &'r [u32],
    rows: &'r [Row],
    records: &'r [Record],
    text: &'t [u8],
    /// The part that is next.
    part: usize,
}

impl<'t, 'r> Fields<'t, 'r> {
    /// Reads the parts of a source: part `i` goes from the end before it, the first from 0, to `ends[i]`. Bytes past the last end belong to
    /// no part, and a part may be empty. As many rows as there are ends, and as many records and as much text memory as the source has
    /// bytes, are always enough; what is behind them stays as it was.
    ///
    /// ```
    /// use mihadrena::{Fields, NoFields, Options, Record, Row};
    ///
    /// let mut rows = [Row::default(); 2];
    /// let mut records = [Record::default(); 2];
    /// let mut refused = |ends: &[u32]| Fields::new("ab", ends, Options::report(), &mut rows, &mut records, &mut []).err();
    /// assert_eq!(refused(&[2, 1]), Some(NoFields::BadEnds));
    /// assert_eq!(refused(&[1, 3]), Some(NoFields::BadEnds));
    /// assert_eq!(refused(&[1, 2, 2]), Some(NoFields::TooFew { rows: 3, records: 2, text: 0 }));
    /// assert_eq!(refused(&[1, 2]), None);
    /// ```
    ///
    /// # Errors
    /// [`NoFields::BadEnds`], [`NoFields::TooLong`] and [`NoFields::TooFew`], in this order.
    pub fn new<S: AsRef<[u8]> + ?Sized>(
        source: &'t S,
        ends: &'r [u32],
        options: Options,
        rows: &'r mut [Row],
        records: &'r mut [Record],
        text: &'t mut [u8],
    ) -> Result<Self, NoFields> {
        let source = source.as_ref();
        let mut values = [0; raw::FIELDS_VALUES];
        // SAFETY: each pointer and length is those of a slice, the mutable ones are borrowed as such, a row is ROW_WORDS words and a record
        // RECORD_WORDS.
        let answer = unsafe {
            raw::mihadrena_read_fields(
                source.as_ptr(),
                source.len(),
                ends.as_ptr(),
                ends.len(),
                options.mode.word(),
                options.skip_comments,
                rows.as_mut_ptr().cast(),
                rows.len() * raw::ROW_WORDS,
                records.as_mut_ptr().cast(),
                records.len() * raw::RECORD_WORDS,
                text.as_mut_ptr(),
                text.len(),
                values.as_mut_ptr(),
                values.len(),
            )
        };
        let [items, bytes] = values.map(|value| value as usize);
        match answer {
            raw::SERVED => Ok(Self {
                source,
                ends,
                rows: &rows[..ends.len()],
                records: &records[..items],
                text: &text[..bytes],
                part: 0,
            }),
            _ => Err(NoFields::of(answer, values, ends.len())),
        }
    }

    /// The rows of all parts.
    #[must_use]
    pub fn rows(&self) -> &'r [Row] {
        self.rows
    }

    /// Where a part's records and text start; behind the last part, where they end.
    fn starts(&self, part: usize) -> (usize, usize) {
        self.rows
            .get(part)
            .map_or((self.records.len(), self.text.len()), |row| (row.first_record as usize, row.first_byte as usize))
    }

    /// What a part gave.
    fn read(&self, part: usize) -> Result<Items<'t, 'r>, Refusal> {
        let row = self.rows[part];
        if row.mark == raw::NOT_UTF8 {
            return Err(Refusal::NotUtf8(row.place as usize));
        }
        let from = part.checked_sub(1).map_or(0, |before| self.ends[before] as usize);
        let ((first, byte), (next, end)) = (self.starts(part), self.starts(part + 1));
        let source = &self.source[from..self.ends[part] as usize];
        Ok(Items::of(source, &self.records[first..next], &self.text[byte..end]))
    }
}

impl<'t, 'r> Iterator for Fields<'t, 'r> {
    type Item = Result<Items<'t, 'r>, Refusal>;

    fn next(&mut self) -> Option<Self::Item> {
        let part = self.part;
        if part == self.ends.len() {
            return None;
        }
        self.part += 1;
        Some(self.read(part))
    }

    fn size_hint(&self) -> (usize, Option<usize>) {
        let left = self.ends.len() - self.part;
        (left, Some(left))
    }
}

impl ExactSizeIterator for Fields<'_, '_> {}

impl FusedIterator for Fields<'_, '_> {}
