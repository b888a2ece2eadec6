//! Reading a whole text.
use crate::raw::{self, Record};
use crate::{Error, Kind, Refusal};
use core::iter::FusedIterator;
use core::ops::Range;
use core::{slice, str};

/// How a text is read. A new program takes report mode; plain mode is there to read as Steel does.
#[derive(Clone, Copy, Debug, Default, PartialEq, Eq, Hash)]
#[non_exhaustive]
pub enum Mode {
    /// As the Rust's lexer reads it.
    #[default]
    Plain,
    /// As plain, but `;`, `"` and `|` also end a number: `14.7;gps` is a number and a comment, where plain mode has an identifier. And an
    /// error points at its own place: at its own range, or at its extent if it sets none.
    ///
    /// ```
    /// use mihadrena::{Items, Options, Record};
    ///
    /// let mut records = [Record::default(); 2];
    /// let mut items = Items::new(r#""\x4G1;"#, Options::report(), &mut records, &mut [])?;
    /// let item = items.next().expect("an error");
    /// assert_eq!(&r#""\x4G1;"#[item.place], "G");
    /// # Ok::<(), mihadrena::Refusal>(())
    /// ```
    Report,
}

impl Mode {
    pub(crate) const fn word(self) -> u32 {
        match self {
            Self::Plain => raw::PLAIN,
            Self::Report => raw::REPORT,
        }
    }
}

/// How a text is read, and whether comments are skipped. The default is plain mode, comments kept; a new program takes
/// [`Options::report`].
#[derive(Clone, Copy, Debug, Default, PartialEq, Eq, Hash)]
pub struct Options {
    /// Plain or report.
    pub mode: Mode,
    /// Leaves out items of kind [`Kind::Comment`].
    pub skip_comments: bool,
}

impl Options {
    /// Report mode, comments kept.
    ///
    /// ```
    /// use mihadrena::{Mode, Options};
    ///
    /// assert_eq!(Options::report(), Options { mode: Mode::Report, skip_comments: false });
    /// assert!(Options::report().without_comments().skip_comments);
    /// ```
    #[must_use]
    pub const fn report() -> Self {
        Self { mode: Mode::Report, skip_comments: false }
    }

    /// The same, comments skipped.
    #[must_use]
    pub const fn without_comments(self) -> Self {
        Self { skip_comments: true, ..self }
    }
}

/// An item of a text. An error is an item too; reading goes on behind it. `'t` is how long its text lives: as long as the source and the
/// text memory, whatever becomes of the records.
#[derive(Clone, Debug, PartialEq, Eq, Hash)]
#[non_exhaustive]
pub struct Item<'t> {
    /// What the item is, or what is wrong with it.
    pub what: Result<Kind<'t>, Error>,
    /// Where it stands in the source, in bytes.
    pub extent: Range<usize>,
    /// What an error points at; of any other item the extent. In report mode it is empty where the digits of a hex escape are missing.
    pub place: Range<usize>,
    /// How many brackets are open before it, whatever their shapes; a close with none open leaves 0. An editor indents by it. A comment has
    /// the depth that it stands at, and skipping comments changes no other.
    ///
    /// ```
    /// use mihadrena::{Items, Options, Record};
    ///
    /// fn depths(text: &str) -> Result<Vec<usize>, mihadrena::Refusal> {
    ///     let mut records = vec![Record::default(); text.len()];
    ///     let items = Items::new(text, Options::report(), &mut records, &mut [])?;
    ///     Ok(items.map(|item| item.depth).collect())
    /// }
    ///
    /// assert_eq!(depths("(a)")?, [0, 1, 1]);
    /// assert_eq!(depths(")(")?, [0, 0]);
    /// # Ok::<(), mihadrena::Refusal>(())
    /// ```
    pub depth: usize,
}

impl<'t> Item<'t> {
    /// The item of a record with its text; none if a lexer gives no such record.
    pub(crate) fn of(record: &Record, text: &'t str) -> Option<Self> {
        let what = match Error::of(record) {
            Some(error) => Err(error),
            None => Ok(Kind::of(record, text)?),
        };
        Some(Self {
            what,
            extent: record.start as usize..record.end as usize,
            place: record.place_start as usize..record.place_end as usize,
            depth: record.depth as usize,
        })
    }

    /// The item of a record of a source and a text memory; none if a lexer gives no such record.
    fn found(record: &Record, source: &'t [u8], text: &'t [u8]) -> Option<Self> {
        let part = match record.text_source {
            raw::NO_TEXT if record.kind == raw::NUMBER => part(source, record.start, record.end),
            raw::NO_TEXT => Some(""),
            _ => text_of(record, source, text),
        };
        Self::of(record, part?)
    }

    /// The item of a record that the library wrote of a source and a text memory.
    pub(crate) fn read(record: &Record, source: &'t [u8], text: &'t [u8]) -> Self {
        Self::found(record, source, text).expect("the library writes items")
    }
}

/// A part of a text; none if it lies outside or is no text.
pub(crate) fn part(text: &[u8], start: u32, end: u32) -> Option<&str> {
    str::from_utf8(text.get(start as usize..end as usize)?).ok()
}

/// The text of a record that has one; none if it has none, or it lies outside.
pub(crate) fn text_of<'t>(record: &Record, source: &'t [u8], text: &'t [u8]) -> Option<&'t str> {
    match record.text_source {
        raw::IN_SOURCE => part(source, record.text_start, record.text_end),
        raw::IN_MEMORY => part(text, record.text_start, record.text_end),
        _ => None,
    }
}

/// Whether a record has a detail only where its kind has one, and a text where its kind always has one. What a detail is, is known to
/// [`Kind::of`] and [`Error::of`].
fn has_what_its_kind_has(record: &Record) -> bool {
    let detail = match record.kind {
        raw::OPEN_PAREN
        | raw::CLOSE_PAREN
        | raw::CHARACTER_LITERAL
        | raw::UNEXPECTED_CHAR
        | raw::INVALID_STRING_ESCAPE
        | raw::UNCLOSED_HEX_ESCAPE
        | raw::INVALID_HEX_ESCAPE_LITERAL
        | raw::INVALID_HEX_CODE_POINT => true,
        raw::BOOLEAN_LITERAL => record.detail <= 1,
        _ => record.detail == 0,
    };
    let text = !matches!(record.kind, raw::IDENTIFIER | raw::KEYWORD | raw::STRING_LITERAL);
    detail && (text || record.text_source != raw::NO_TEXT)
}

/// The memory that the items of a text need.
#[derive(Clone, Copy, Debug, Default, PartialEq, Eq, Hash)]
pub struct Needed {
    /// How many records: one an item.
    pub records: usize,
    /// How many bytes of text memory: those of the texts that have an escape.
    pub text: usize,
}

/// What the items of a text need. As many records and as much text memory as the text has bytes are always enough.
///
/// ```
/// use mihadrena::{needed, Needed, Options};
///
/// let plan = r#"(note "rain:\nno crossing")"#;
/// assert_eq!(needed(plan, Options::report()), Ok(Needed { records: 4, text: 17 }));
/// ```
///
/// # Errors
/// [`Refusal::TooLong`] and [`Refusal::NotUtf8`].
pub fn needed<S: AsRef<[u8]> + ?Sized>(source: &S, options: Options) -> Result<Needed, Refusal> {
    match read(source.as_ref(), options, &mut [], &mut []) {
        Ok(needed) => Ok(needed),
        Err(Refusal::TooFew { records, text }) => Ok(Needed { records, text }),
        Err(refusal) => Err(refusal),
    }
}

/// Writes the records of all items and their decoded texts; answers how many and how much.
pub(crate) fn read(
    source: &[u8],
    options: Options,
    records: &mut [Record],
    text: &mut [u8],
) -> Result<Needed, Refusal> {
    let mut values = [0; raw::READ_VALUES];
    // SAFETY: each pointer and length is those of a slice, the mutable ones are borrowed as such, and a record is RECORD_WORDS words.
    let answer = unsafe {
        raw::mihadrena_read(
            source.as_ptr(),
            source.len(),
            options.mode.word(),
            options.skip_comments,
            records.as_mut_ptr().cast(),
            records.len() * raw::RECORD_WORDS,
            text.as_mut_ptr(),
            text.len(),
            values.as_mut_ptr(),
            values.len(),
        )
    };
    match answer {
        raw::SERVED => Ok(Needed { records: values[0] as usize, text: values[1] as usize }),
        _ => Err(Refusal::of(answer, values)),
    }
}

/// The items of a text, in its order. The records are lent as long as the items live (`'r`), the source and the text memory as long as
/// what is taken from them (`'t`): a name outlives the records.
///
/// ```
/// use mihadrena::{Error, Items, Kind, Options, Paren, Record};
///
/// let mut records = [Record::default(); 16];
/// let mut text = [0; 64];
/// let items = Items::new(r#"(owner "Øyvind\n" 1/0)"#, Options::report(), &mut records, &mut text)?;
/// let what: Vec<_> = items.map(|item| item.what).collect();
/// assert_eq!(
///     what,
///     [
///         Ok(Kind::OpenParen(Paren::Round, None)),
///         Ok(Kind::Identifier("owner")),
///         Ok(Kind::StringLiteral("Øyvind\n")),
///         Err(Error::ZeroDenominator),
///         Ok(Kind::CloseParen(Paren::Round)),
///     ]
/// );
///
/// fn names<'t>(plan: &'t str, text: &'t mut [u8]) -> Vec<&'t str> {
///     let mut records = vec![Record::default(); plan.len()];
///     let items = Items::new(plan, Options::report(), &mut records, text).expect("as many records as bytes");
///     items.filter_map(|item| if let Ok(Kind::Identifier(name)) = item.what { Some(name) } else { None }).collect()
/// }
/// assert_eq!(names("(stand 101 (species spruce))", &mut []), ["stand", "species", "spruce"]);
/// # Ok::<(), mihadrena::Refusal>(())
/// ```
#[derive(Clone, Debug)]
#[must_use = "items are read when the iterator is made, and lost if it is dropped"]
pub struct Items<'t, 'r> {
    source: &'t [u8],
    records: slice::Iter<'r, Record>,
    text: &'t [u8],
}

impl<'t, 'r> Items<'t, 'r> {
    /// Reads a whole text: a `str`, or bytes that may turn out to be none. Records and text memory behind what is needed stay as they
    /// were; a refused call changes neither.
    ///
    /// ```
    /// use mihadrena::{Items, Options, Record, Refusal};
    ///
    /// let mut records = [Record::default(); 1];
    /// let refused = Items::new("(a b)", Options::report(), &mut records, &mut []);
    /// assert_eq!(refused.err(), Some(Refusal::TooFew { records: 4, text: 0 }));
    ///
    /// let refused = Items::new(b"(a \xFF)", Options::report(), &mut records, &mut []);
    /// assert_eq!(refused.err(), Some(Refusal::NotUtf8(3)));
    /// ```
    ///
    /// # Errors
    /// [`Refusal::TooLong`], [`Refusal::NotUtf8`] and [`Refusal::TooFew`], in this order.
    pub fn new<S: AsRef<[u8]> + ?Sized>(
        source: &'t S,
        options: Options,
        records: &'r mut [Record],
        text: &'t mut [u8],
    ) -> Result<Self, Refusal> {
        let source = source.as_ref();
        let given = read(source, options, records, text)?;
        Ok(Self::of(source, &records[..given.records], &text[..given.text]))
    }

    /// The items of records that were stored or sent, of a source and a text memory; none if they are no items of these: a kind or a detail
    /// that a lexer does not give, or an extent, a place or a text that lies outside or is cut within a character.
    ///
    /// ```
    /// use mihadrena::{read_items, Items, Kind, Record};
    ///
    /// // An item file made by hand: one Keyword, `#:x`, at 1..4.
    /// let mut records = [Record::default(); 1];
    /// assert_eq!(read_items(&[28, 0, 1, 3, 1, 3, 1, 1, 3, 0], &mut records), Ok(1));
    /// let mut items = Items::stored(" #:x", &records, &[]).expect("an item");
    /// assert_eq!(items.next().map(|item| item.what), Some(Ok(Kind::Keyword("#:x"))));
    /// assert!(Items::stored("#:x", &records, &[]).is_none());
    /// ```
    #[must_use]
    pub fn stored<S: AsRef<[u8]> + ?Sized>(source: &'t S, records: &'r [Record], text: &'t [u8]) -> Option<Self> {
        let source = source.as_ref();
        let is_item = |record: &Record| {
            part(source, record.start, record.end).is_some()
                && part(source, record.place_start, record.place_end).is_some()
                && has_what_its_kind_has(record)
                && Item::found(record, source, text).is_some()
        };
        records.iter().all(is_item).then(|| Self::of(source, records, text))
    }

    /// The items of records that the library wrote of a source and a text memory.
    pub(crate) fn of(source: &'t [u8], records: &'r [Record], text: &'t [u8]) -> Self {
        Self { source, records: records.iter(), text }
    }

    /// The records of the items that are left.
    #[must_use]
    pub fn records(&self) -> &'r [Record] {
        self.records.as_slice()
    }

    /// The item of one of the records.
    pub(crate) fn item(&self, record: &Record) -> Item<'t> {
        Item::read(record, self.source, self.text)
    }

    /// The spelling of one of the records: its text if it has one, else the bytes of its extent.
    pub(crate) fn spelling(&self, record: &Record) -> &'t str {
        text_of(record, self.source, self.text)
            .or_else(|| part(self.source, record.start, record.end))
            .expect("extents and texts are parts of what is lent")
    }

    /// What the records' extents lie in.
    pub(crate) fn source(&self) -> &'t [u8] {
        self.source
    }
}

impl<'t> Iterator for Items<'t, '_> {
    type Item = Item<'t>;

    fn next(&mut self) -> Option<Self::Item> {
        let record = self.records.next()?;
        Some(self.item(record))
    }

    fn size_hint(&self) -> (usize, Option<usize>) {
        self.records.size_hint()
    }
}

impl DoubleEndedIterator for Items<'_, '_> {
    fn next_back(&mut self) -> Option<Self::Item> {
        let record = self.records.next_back()?;
        Some(self.item(record))
    }
}

impl ExactSizeIterator for Items<'_, '_> {}

impl FusedIterator for Items<'_, '_> {}
