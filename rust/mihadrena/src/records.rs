//! Questions about records, those too that were stored or sent.
use crate::raw;
use crate::Record;

/// The bracket in which a record lies, and of a close the one that it closes, by their numbers; none if it lies in none, or there is no such
/// record. It goes by the depths, back from the record.
///
/// ```
/// use mihadrena::{opener, Items, Options, Record};
///
/// let mut records = [Record::default(); 6];
/// Items::new("(a (b))", Options::report(), &mut records, &mut [])?;
/// assert_eq!((opener(&records, 3), opener(&records, 4), opener(&records, 5)), (Some(2), Some(2), Some(0)));
/// assert_eq!((opener(&records, 0), opener(&records, 9)), (None, None));
/// # Ok::<(), mihadrena::Refusal>(())
/// ```
#[must_use]
pub fn opener(records: &[Record], at: usize) -> Option<usize> {
    // SAFETY: the pointer and the length are those of a slice, and a record is RECORD_WORDS words.
    let found = unsafe { raw::mihadrena_opener(records.as_ptr().cast(), records.len() * raw::RECORD_WORDS, at) };
    (found < records.len()).then_some(found)
}

/// Whether all records lie in a source and a text memory: extents and places in the source, texts where they say. Their kinds are not looked
/// at: [`Items::stored`](crate::Items::stored) does that too.
///
/// ```
/// use mihadrena::{records_fit, Items, Options, Record};
///
/// let mut records = [Record::default(); 3];
/// Items::new("(a)", Options::report(), &mut records, &mut [])?;
/// assert!(records_fit(&records, "(b)", &[]));
/// assert!(!records_fit(&records, "(b", &[]));
/// # Ok::<(), mihadrena::Refusal>(())
/// ```
#[must_use]
pub fn records_fit<S: AsRef<[u8]> + ?Sized>(records: &[Record], source: &S, text: &[u8]) -> bool {
    let words = records.len() * raw::RECORD_WORDS;
    // SAFETY: the pointer and the length are those of a slice, and a record is RECORD_WORDS words.
    unsafe { raw::mihadrena_records_fit(records.as_ptr().cast(), words, source.as_ref().len(), text.len()) }
}
