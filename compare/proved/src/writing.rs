//! Writing a plan back (crates/items_writing_exports).
use mihadrena::raw::mihadrena_write;

pub fn write(records: &[u32], source: &[u8], text: &[u8], out: &mut [u8], values: &mut [u64]) -> u32 {
    unsafe {
        mihadrena_write(
            records.as_ptr(),
            records.len(),
            source.as_ptr(),
            source.len(),
            text.as_ptr(),
            text.len(),
            out.as_mut_ptr(),
            out.len(),
            values.as_mut_ptr(),
            values.len(),
        )
    }
}
