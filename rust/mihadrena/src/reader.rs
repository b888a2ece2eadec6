//! Reading a whole text, one item a call.
use crate::raw::{self, Record};
use crate::{Item, Options, Refusal};

/// Reads a whole text item by item, with memory for one item: each call lends text memory, and an item's decoded text is valid until the
/// memory is lent again. The items are those of [`Items`](crate::Items).
///
/// ```
/// use mihadrena::{Kind, Options, Paren, Reader};
///
/// let mut reader = Reader::new(r#"(owner "\u{D8}yvind")"#, Options::report())?;
/// let mut text = [0; 16];
/// let mut names = 0;
/// while let Some(item) = reader.next(&mut text)? {
///     match item.what {
///         Ok(Kind::StringLiteral(name)) => assert_eq!(name, "Øyvind"),
///         Ok(Kind::Identifier(name)) => assert_eq!((name, item.depth), ("owner", 1)),
///         Ok(_) => continue,
///         Err(error) => panic!("{error} at {:?}", item.place),
///     }
///     names += 1;
/// }
/// assert_eq!(names, 2);
/// # Ok::<(), mihadrena::Refusal>(())
/// ```
#[derive(Clone, Debug)]
#[must_use = "a reader reads nothing until it is asked for an item"]
pub struct Reader<'a> {
    source: &'a [u8],
    position: [u64; raw::READER_WORDS],
}

impl<'a> Reader<'a> {
    /// A reader at the start of a text: a `str`, or bytes that may turn out to be none.
    ///
    /// ```
    /// use mihadrena::{Options, Reader, Refusal};
    ///
    /// assert_eq!(Reader::new(b"(a \xFF)", Options::report()).err(), Some(Refusal::NotUtf8(3)));
    /// ```
    ///
    /// # Errors
    /// [`Refusal::TooLong`] and [`Refusal::NotUtf8`], in this order.
    pub fn new<S: AsRef<[u8]> + ?Sized>(source: &'a S, options: Options) -> Result<Self, Refusal> {
        let source = source.as_ref();
        let mut position = [0; raw::READER_WORDS];
        let mut values = [0; raw::READER_VALUES];
        // SAFETY: each pointer and length is those of a slice or an array, and the arrays are borrowed mutably.
        let answer = unsafe {
            raw::mihadrena_reader_open(
                source.as_ptr(),
                source.len(),
                options.mode.word(),
                options.skip_comments,
                position.as_mut_ptr(),
                position.len(),
                values.as_mut_ptr(),
                values.len(),
            )
        };
        match answer {
            raw::SERVED => Ok(Self { source, position }),
            _ => Err(Refusal::of(answer, values)),
        }
    }

    /// The next item; none once all were given. Its decoded text, if it has one, goes to the front of `text`. Where that is too little, the
    /// reader stays, and gives the item once it is lent enough.
    ///
    /// ```
    /// use mihadrena::{Kind, Options, Reader, Refusal};
    ///
    /// let mut reader = Reader::new(r#""rain\n""#, Options::report())?;
    /// assert_eq!(reader.next(&mut []), Err(Refusal::TooFew { records: 1, text: 5 }));
    /// let mut text = [0; 5];
    /// let item = reader.next(&mut text)?.expect("an item");
    /// assert_eq!(item.what, Ok(Kind::StringLiteral("rain\n")));
    /// assert_eq!(reader.next(&mut [])?, None);
    /// # Ok::<(), mihadrena::Refusal>(())
    /// ```
    ///
    /// # Errors
    /// [`Refusal::TooFew`], with one record and the text bytes that the item needs.
    pub fn next<'t>(&mut self, text: &'t mut [u8]) -> Result<Option<Item<'t>>, Refusal>
    where
        'a: 't,
    {
        let mut record = Record::default();
        let mut values = [0; raw::READER_VALUES];
        // SAFETY: each pointer and length is those of a slice or an array, those that are written to are borrowed mutably, and `Record` is
        // RECORD_WORDS words.
        let answer = unsafe {
            raw::mihadrena_reader_next(
                self.source.as_ptr(),
                self.source.len(),
                self.position.as_mut_ptr(),
                self.position.len(),
                text.as_mut_ptr(),
                text.len(),
                (&raw mut record).cast(),
                raw::RECORD_WORDS,
                values.as_mut_ptr(),
                values.len(),
            )
        };
        match answer {
            raw::ITEM => Ok(Some(Item::read(&record, self.source, text))),
            raw::FINISHED => Ok(None),
            _ => Err(Refusal::of(answer, values)),
        }
    }
}
