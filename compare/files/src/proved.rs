//! The proved calls, over slices of words.
use crate::plain::Answer;
use mihadrena::raw;

pub fn write(records: &[u32], out: &mut [u8]) -> Answer {
    let mut values = [u64::MAX; raw::ITEMS_VALUES];
    // SAFETY: each pointer and length is those of a slice, and the mutable ones are borrowed as such.
    let answer = unsafe {
        raw::mihadrena_items_write(
            records.as_ptr(),
            records.len(),
            out.as_mut_ptr(),
            out.len(),
            values.as_mut_ptr(),
            values.len(),
        )
    };
    (answer, values[0])
}

pub fn read(file: &[u8], records: &mut [u32]) -> Answer {
    let mut values = [u64::MAX; raw::ITEMS_VALUES];
    // SAFETY: as above.
    let answer = unsafe {
        raw::mihadrena_items_read(
            file.as_ptr(),
            file.len(),
            records.as_mut_ptr(),
            records.len(),
            values.as_mut_ptr(),
            values.len(),
        )
    };
    (answer, values[0])
}

/// The words of the records of a text; none if it is no text.
pub fn records_of(source: &[u8], mode: u32, skip: bool) -> Option<Vec<u32>> {
    let (mut records, mut text) = (vec![0; source.len() * raw::RECORD_WORDS], vec![0; source.len()]);
    let mut values = [0; raw::READ_VALUES];
    // SAFETY: as above.
    let answer = unsafe {
        raw::mihadrena_read(
            source.as_ptr(),
            source.len(),
            mode,
            skip,
            records.as_mut_ptr(),
            records.len(),
            text.as_mut_ptr(),
            text.len(),
            values.as_mut_ptr(),
            values.len(),
        )
    };
    records.truncate(values[0] as usize * raw::RECORD_WORDS);
    (answer == raw::SERVED).then_some(records)
}
