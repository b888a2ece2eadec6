//! The functions about lines (crates/lines_exports).
use mihadrena::raw::{
    mihadrena_lines, mihadrena_lines_end, mihadrena_lines_open, mihadrena_lines_piece, mihadrena_locate,
    mihadrena_locate_all,
};

/// How many words the state of an index from pieces has.
pub const STATE_WORDS: usize = 8;

pub const SERVED: u32 = 0;
pub const NOT_UTF8: u32 = 21;
pub const OUT_OF_BOUNDS: u32 = 27;
pub const NO_ROOM: u32 = 33;
pub const NO_PLACE: u32 = 34;
pub const ALIEN: u32 = 48;

/// An answer's number and its two values.
pub type Answer = (u32, [u64; 2]);

fn answer(call: impl FnOnce(*mut u64, usize) -> u32) -> Answer {
    let mut values = [u64::MAX; 2];
    (call(values.as_mut_ptr(), values.len()), values)
}

pub fn build(text: &[u8], index: &mut [u32]) -> Answer {
    answer(|values, count| unsafe {
        mihadrena_lines(text.as_ptr(), text.len(), index.as_mut_ptr(), index.len(), values, count)
    })
}

pub fn locate(text: &[u8], index: &[u32], place: usize) -> Answer {
    answer(|values, count| unsafe {
        mihadrena_locate(text.as_ptr(), text.len(), index.as_ptr(), index.len(), place, values, count)
    })
}

pub fn locate_all(text: &[u8], index: &[u32], places: &[u32], found: &mut [usize]) -> Answer {
    answer(|values, count| unsafe {
        mihadrena_locate_all(
            text.as_ptr(),
            text.len(),
            index.as_ptr(),
            index.len(),
            places.as_ptr(),
            places.len(),
            found.as_mut_ptr(),
            found.len(),
            values,
            count,
        )
    })
}

pub fn open(state: &mut [u32], index: &mut [u32]) {
    unsafe { mihadrena_lines_open(state.as_mut_ptr(), state.len(), index.as_mut_ptr(), index.len()) }
}

pub fn piece(state: &mut [u32], piece: &[u8], index: &mut [u32]) {
    unsafe {
        mihadrena_lines_piece(
            state.as_mut_ptr(),
            state.len(),
            piece.as_ptr(),
            piece.len(),
            index.as_mut_ptr(),
            index.len(),
        )
    }
}

pub fn end(state: &[u32], index: &[u32]) -> Answer {
    answer(|values, count| unsafe {
        mihadrena_lines_end(state.as_ptr(), state.len(), index.as_ptr(), index.len(), values, count)
    })
}
