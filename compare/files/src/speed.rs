//! One call many times on the records of a text in report mode, so that its instructions can be counted (bench/files).
use crate::{plain, proved};
use mihadrena::raw;
use std::hint::black_box;
use std::process::ExitCode;

pub fn once(words: &[String]) -> ExitCode {
    let [call, path, times] = words else { return ExitCode::FAILURE };
    let (Ok(source), Ok(times)) = (std::fs::read(path), times.parse::<u32>()) else { return ExitCode::FAILURE };
    let Some(records) = proved::records_of(&source, raw::REPORT, false) else { return ExitCode::FAILURE };
    let mut file = vec![0; records.len() * 5];
    let (_, bytes) = plain::write(&records, &mut file);
    let file = &file[..bytes as usize];
    let mut out = vec![0; file.len()];
    let mut back = vec![0; records.len()];
    let mut text = vec![0; source.len()];
    let mut values = [0; raw::READ_VALUES];
    // a record for each byte, so that reading does not count first
    let mut ample = vec![0; source.len() * raw::RECORD_WORDS];
    for _ in 0..times {
        match call.as_str() {
            "write" => drop(black_box(proved::write(black_box(&records), &mut out))),
            "plain-write" => drop(black_box(plain::write(black_box(&records), &mut out))),
            "read" => drop(black_box(proved::read(black_box(file), &mut back))),
            "plain-read" => drop(black_box(plain::read(black_box(file), &mut back))),
            // SAFETY: each pointer and length is those of a slice, and the mutable ones are borrowed as such.
            "text" => drop(black_box(unsafe {
                raw::mihadrena_read(
                    black_box(source.as_ptr()),
                    source.len(),
                    raw::REPORT,
                    false,
                    ample.as_mut_ptr(),
                    ample.len(),
                    text.as_mut_ptr(),
                    text.len(),
                    values.as_mut_ptr(),
                    values.len(),
                )
            })),
            "sizes" => println!("{} {} {}", source.len(), records.len() / raw::RECORD_WORDS, file.len()),
            _ => return ExitCode::FAILURE,
        }
    }
    ExitCode::SUCCESS
}
