//! How a text and what is told of it are written down: a head of `HEAD` bytes, the text, the words, the text memory.
//!
//!     0        1 if comments are skipped
//!     1        the mode
//!     2        the calls it is told of: 1 the whole-text call, 2 the piece calls, 3 both
//!     3        the answer: 0, or the number of a refusal or of a stop
//!     4, 5     how many bytes the text has
//!     6, 7     how many bytes the words have, spelled as below
//!     8, 9     how many bytes the text memory has
//!     10, 11   how many words of records the whole-text call is lent
//!     12, 13   how many bytes of text memory it is lent
//!     14..18   the answer's first value
//!     18..22   its second
//!
//! Numbers have their lowest byte first. A word below `ESCAPE` is spelled as a byte, any other as `ESCAPE` and its four bytes.
use crate::told::Told;
use std::io::{self, Write};

pub const HEAD: usize = 22;
const ESCAPE: u8 = 255;

pub fn write(out: &mut impl Write, text: &[u8], told: &Told) -> io::Result<()> {
    let words = spelled(&told.words);
    let mut head = vec![u8::from(told.skip), told.mode, told.calls, told.answer];
    for length in [text.len(), words.len(), told.memory.len(), told.lent_words, told.lent_bytes] {
        head.extend(u16::try_from(length).map_err(io::Error::other)?.to_le_bytes());
    }
    for value in told.values {
        head.extend(value.to_le_bytes());
    }
    assert_eq!(head.len(), HEAD);
    out.write_all(&head)?;
    out.write_all(text)?;
    out.write_all(&words)?;
    out.write_all(&told.memory)
}

fn spelled(words: &[u32]) -> Vec<u8> {
    let mut out = Vec::new();
    for &word in words {
        match u8::try_from(word) {
            Ok(byte) if byte < ESCAPE => out.push(byte),
            _ => {
                out.push(ESCAPE);
                out.extend(word.to_le_bytes());
            }
        }
    }
    out
}
