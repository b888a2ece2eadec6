//! Reading a text that comes in pieces.
use crate::items::text_of;
use crate::raw::{self, Record, State, Told};
use crate::{Item, Options, Refusal};

/// How many words the bytes of a state are.
const BYTE_WORDS: usize = raw::STATE_BYTES / size_of::<u64>();

/// Reads a text that comes in pieces, item by item: push bytes, get items. However the text is cut, within a character too, the items
/// are those of the whole text. It holds 8 KiB of its own: no item may be longer than 4,096 bytes.
///
/// An item is given once a character behind it was pushed, or the end was declared. A quote that is never closed is an item up to the end
/// of the text: [`Refusal::LongItem`] with the quote's place, once it has more bytes than an item may. A piece of 64 bytes costs hardly more
/// a byte than one of 4,096; byte by byte it is about three times as much (docs/SPEED.md).
///
/// ```
/// use mihadrena::{Kind, Options, Paren, PieceReader};
///
/// let mut reader = PieceReader::new(Options::report());
/// let mut numbers = 0;
/// for piece in ["(corner 68920", "14.7 6112", "08.2)"] {
///     let mut left = piece.as_bytes();
///     while let Some(item) = reader.push(&mut left)? {
///         match item.what {
///             Ok(Kind::Number(digits)) => {
///                 assert_eq!(digits, ["6892014.7", "611208.2"][numbers]);
///                 numbers += 1;
///             }
///             Ok(_) => (),
///             Err(error) => panic!("{error} at {:?}", item.place),
///         }
///     }
/// }
/// while let Some(item) = reader.end()? {
///     assert_eq!(item.what, Ok(Kind::CloseParen(Paren::Round)));
/// }
/// assert_eq!(numbers, 2);
/// # Ok::<(), mihadrena::Refusal>(())
/// ```
#[derive(Clone, Debug)]
#[must_use = "a reader reads nothing until bytes are pushed"]
pub struct PieceReader {
    state: State,
    record: Record,
    text: [u8; raw::PIECE_TEXT],
}

impl PieceReader {
    /// How many words [`PieceReader::into_words`] gives.
    pub const WORDS: usize = BYTE_WORDS + raw::STATE_WORDS;

    /// A reader at the start of a text.
    pub fn new(options: Options) -> Self {
        let mut state = State { bytes: [0; raw::STATE_BYTES], words: [0; raw::STATE_WORDS] };
        let State { bytes, words } = &mut state;
        // SAFETY: each pointer and length is those of an array that is borrowed mutably.
        let answer = unsafe {
            raw::mihadrena_open(
                options.mode.word(),
                options.skip_comments,
                bytes.as_mut_ptr(),
                bytes.len(),
                words.as_mut_ptr(),
                words.len(),
            )
        };
        debug_assert_eq!(answer, raw::SERVED, "the library opens these two modes");
        Self { state, record: Record::default(), text: [0; raw::PIECE_TEXT] }
    }

    /// Takes bytes from the front of `piece`, the fewest that make an item ready, and gives it; or takes them all and gives none. To be
    /// called with what is left of the piece until it gives none.
    ///
    /// ```
    /// use mihadrena::{Kind, Options, PieceReader};
    ///
    /// let mut reader = PieceReader::new(Options::report());
    /// let mut left: &[u8] = b"ab cd";
    /// let item = reader.push(&mut left)?.expect("the blank shows where it ends");
    /// assert_eq!((item.what, item.extent), (Ok(Kind::Identifier("ab")), 0..2));
    /// assert_eq!(left, b"cd");
    /// assert_eq!(reader.push(&mut left)?, None);
    /// # Ok::<(), mihadrena::Refusal>(())
    /// ```
    ///
    /// # Errors
    /// [`Refusal::TooLong`], [`Refusal::NotUtf8`] and [`Refusal::LongItem`] stop the reading; [`Refusal::AfterEnd`] takes nothing.
    pub fn push(&mut self, piece: &mut &[u8]) -> Result<Option<Item<'_>>, Refusal> {
        let mut told = Told::default();
        // SAFETY: each pointer and length is those of a slice or an array, those that are written to are borrowed mutably, `Record` is
        // RECORD_WORDS words and `Told` PIECE_VALUES.
        let answer = unsafe {
            raw::mihadrena_piece(
                self.state.bytes.as_mut_ptr(),
                raw::STATE_BYTES,
                self.state.words.as_mut_ptr(),
                raw::STATE_WORDS,
                piece.as_ptr(),
                piece.len(),
                self.text.as_mut_ptr(),
                raw::PIECE_TEXT,
                (&raw mut self.record).cast(),
                raw::RECORD_WORDS,
                (&raw mut told).cast(),
                raw::PIECE_VALUES,
            )
        };
        *piece = &piece[told.taken as usize..];
        self.given(answer, told)
    }

    /// Declares the end of the text and gives the next item; none once all were given. To be called until it gives none.
    ///
    /// ```
    /// use mihadrena::{Options, PieceReader, Refusal};
    ///
    /// let mut reader = PieceReader::new(Options::report());
    /// assert_eq!(reader.push(&mut &b"caf\xC3"[..])?, None);
    /// assert_eq!(reader.end(), Err(Refusal::NotUtf8(3)));
    /// # Ok::<(), mihadrena::Refusal>(())
    /// ```
    ///
    /// # Errors
    /// [`Refusal::NotUtf8`] if the end cuts a character, and the refusal that stopped the reading before.
    pub fn end(&mut self) -> Result<Option<Item<'_>>, Refusal> {
        let mut told = Told::default();
        // SAFETY: as in `push`.
        let answer = unsafe {
            raw::mihadrena_end(
                self.state.bytes.as_mut_ptr(),
                raw::STATE_BYTES,
                self.state.words.as_mut_ptr(),
                raw::STATE_WORDS,
                self.text.as_mut_ptr(),
                raw::PIECE_TEXT,
                (&raw mut self.record).cast(),
                raw::RECORD_WORDS,
                (&raw mut told).cast(),
                raw::PIECE_VALUES,
            )
        };
        self.given(answer, told)
    }

    /// The words of a reader that is put aside: those of its state as docs/STATE.md lists them, behind its bytes, eight a word, the first
    /// one lowest. They may be stored or sent; [`PieceReader::from_words`] reads on, in another program too.
    ///
    /// ```
    /// use mihadrena::{Kind, Options, PieceReader, Refusal};
    ///
    /// let mut reader = PieceReader::new(Options::report());
    /// assert_eq!(reader.push(&mut &b"bjerke"[..])?, None);
    /// let words = reader.into_words();
    ///
    /// let mut reader = PieceReader::from_words(&words)?;
    /// let item = reader.push(&mut &b"furu "[..])?.expect("the blank shows where it ends");
    /// assert_eq!((item.what, item.extent), (Ok(Kind::Identifier("bjerkefuru")), 0..10));
    ///
    /// let mut other = words;
    /// other[PieceReader::WORDS - 1] = 99;
    /// assert_eq!(PieceReader::from_words(&other).err(), Some(Refusal::OutOfBounds));
    /// # Ok::<(), Refusal>(())
    /// ```
    #[must_use]
    pub fn into_words(self) -> [u64; Self::WORDS] {
        let mut words = [0; Self::WORDS];
        let (front, back) = words.split_at_mut(BYTE_WORDS);
        for (word, bytes) in front.iter_mut().zip(self.state.bytes.chunks_exact(size_of::<u64>())) {
            *word = bytes.iter().rev().fold(0, |word, &byte| word << 8 | u64::from(byte));
        }
        back.copy_from_slice(&self.state.words);
        words
    }

    /// A reader that goes on where [`PieceReader::into_words`] left one. The library looks whether the words lie in a state's bounds. Words
    /// that do and that no reader left are read on as they say; once they lead to no item, the call is [`Refusal::OutOfBounds`].
    ///
    /// # Errors
    /// [`Refusal::OutOfBounds`].
    pub fn from_words(words: &[u64; Self::WORDS]) -> Result<Self, Refusal> {
        let mut state = State { bytes: [0; raw::STATE_BYTES], words: [0; raw::STATE_WORDS] };
        let (front, back) = words.split_at(BYTE_WORDS);
        for (bytes, word) in state.bytes.chunks_exact_mut(size_of::<u64>()).zip(front) {
            bytes.copy_from_slice(&word.to_le_bytes());
        }
        state.words.copy_from_slice(back);
        let reader = Self { state, record: Record::default(), text: [0; raw::PIECE_TEXT] };
        // A call on a copy, with no byte: only whether it is refused is looked at.
        match reader.clone().push(&mut &[][..]) {
            Err(Refusal::OutOfBounds) => Err(Refusal::OutOfBounds),
            _ => Ok(reader),
        }
    }

    /// What a call gave.
    fn given(&self, answer: u32, told: Told) -> Result<Option<Item<'_>>, Refusal> {
        match answer {
            raw::ITEM => self.item().map(Some).ok_or(Refusal::OutOfBounds),
            raw::MORE | raw::FINISHED => Ok(None),
            _ => Err(Refusal::of(answer, [told.place, 0])),
        }
    }

    /// The item that was given last; none if the reader goes on from words that no reader left, and these lead to none.
    fn item(&self) -> Option<Item<'_>> {
        let text = match self.record.text_source {
            raw::NO_TEXT => "",
            _ => text_of(&self.record, &[], &self.text)?,
        };
        Item::of(&self.record, text)
    }
}
