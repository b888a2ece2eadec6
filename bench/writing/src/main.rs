//! `bench_writing FILE CALL TIMES` reads a file in report mode, comments skipped, and writes it back TIMES times: what one writing costs is
//! the difference of two runs. CALL is `proved`, or `rust`: the same text written in plain Rust, where Steel's lexer is asked what reads
//! back. It prints how many items there are, and how many bytes they are written in.
#[path = "../../../compare/judge/src/writing/model.rs"]
#[allow(dead_code)]
mod model;

use model::Lent;
use proved::RECORD_WORDS;
use std::hint::black_box;
use std::process::ExitCode;
use std::{env, fs};

const REPORT: u32 = 1;

/// A way to write records into memory that is large enough; how many bytes it wrote.
type Write = fn(Lent, &mut [u8]) -> Option<usize>;

#[inline(never)]
fn proved_write(lent: Lent, out: &mut [u8]) -> Option<usize> {
    let mut values = [0];
    let answer = proved::writing::write(lent.records, lent.source, lent.text, out, &mut values);
    (answer == proved::SERVED).then_some(values[0] as usize)
}

#[inline(never)]
fn rust_write(lent: Lent, out: &mut [u8]) -> Option<usize> {
    let text = lent.written().ok()?;
    out.get_mut(..text.len())?.copy_from_slice(&text);
    Some(text.len())
}

fn main() -> ExitCode {
    let words: Vec<String> = env::args().skip(1).collect();
    let words: Vec<&str> = words.iter().map(String::as_str).collect();
    let [file, call, times] = words[..] else { return usage() };
    let write: Write = match call {
        "proved" => proved_write,
        "rust" => rust_write,
        _ => return usage(),
    };
    let Ok(times) = times.parse::<u32>() else { return usage() };
    let source = fs::read(file).expect("a text");
    let (mut records, mut text, mut values) = (vec![0; source.len() * RECORD_WORDS], vec![0; source.len()], [0; 2]);
    let answer = proved::read(&source, REPORT, true, &mut records, &mut text, &mut values);
    assert_eq!(answer, proved::SERVED, "a plan");
    let [items, bytes] = values.map(|value| value as usize);
    let lent = Lent { records: &records[..items * RECORD_WORDS], source: &source, text: &text[..bytes] };
    // A word never grows to more than twice its bytes, two marks and a space.
    let mut out = vec![0; 5 * source.len() + 1];
    let mut written = 0;
    for _ in 0..times {
        written = black_box(write(black_box(lent), &mut out)).expect("records that are written");
    }
    println!("{items} {written}");
    ExitCode::SUCCESS
}

fn usage() -> ExitCode {
    eprintln!("usage: bench_writing FILE proved|rust TIMES");
    ExitCode::FAILURE
}
