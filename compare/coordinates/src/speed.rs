//! One call many times, so that its instructions can be counted (bench/coordinates).
use std::hint::black_box;
use std::process::ExitCode;
use std::str;

#[inline(never)]
fn proved(text: &[u8]) -> Option<f64> {
    mihadrena::coordinate(text).ok()
}

/// Rust's `parse`, which is told that the bytes are a text.
#[inline(never)]
fn parse(text: &[u8]) -> Option<f64> {
    // SAFETY: the text came as a `str`.
    unsafe { str::from_utf8_unchecked(text) }.parse().ok()
}

/// The same with the question whether they are, which the coordinate call answers too.
#[inline(never)]
fn checked(text: &[u8]) -> Option<f64> {
    str::from_utf8(text).ok()?.parse().ok()
}

pub fn once(call: &str, text: &str, calls: &str) -> ExitCode {
    let call = match call {
        "proved" => proved,
        "parse" => parse,
        "checked" => checked,
        _ => return ExitCode::FAILURE,
    };
    let Ok(calls) = calls.parse::<u32>() else { return ExitCode::FAILURE };
    for _ in 0..calls {
        black_box(call(black_box(text.as_bytes())));
    }
    ExitCode::SUCCESS
}
