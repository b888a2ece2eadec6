//! The name table (crates/names_exports).
use mihadrena::raw::{mihadrena_names_enter, mihadrena_names_open, mihadrena_names_place};

/// How many words and bytes a table takes.
pub const WORDS: usize = 3078;
pub const BYTES: usize = 32768;

pub fn open(words: &mut [u32], bytes: &[u8]) -> u32 {
    unsafe { mihadrena_names_open(words.as_mut_ptr(), words.len(), bytes.as_ptr(), bytes.len()) }
}

pub fn enter(words: &mut [u32], bytes: &mut [u8], party: u32, name: &[u8], number: &mut u32) -> u32 {
    let (word, byte) = (words.as_mut_ptr(), bytes.as_mut_ptr());
    unsafe { mihadrena_names_enter(word, words.len(), byte, bytes.len(), party, name.as_ptr(), name.len(), number) }
}

pub fn place(words: &[u32], bytes: &[u8], number: u32, start: &mut usize, end: &mut usize) -> u32 {
    unsafe { mihadrena_names_place(words.as_ptr(), words.len(), bytes.as_ptr(), bytes.len(), number, start, end) }
}
