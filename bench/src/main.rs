//! How fast the proved calls are, and the Rust beside them on the same texts in the same run.
//!
//! `bench [--bytes N] [--growth M,..] [TEXT..]` prints tables in the form of docs/SPEED.md: instructions a byte, MB/s and ns an item of
//! each text (of all, with 1,048,576 bytes), instructions an item of texts of one sort of item, the number call, the line index, and how cost
//! grows: the plan's, and that of texts lent as one piece (4, 16 and 64 MB; `--growth 0` leaves both out). Every figure comes from a process of
//! its own, so that no reading finds names that another one interned.
//!
//! `bench once READER FILE` and `bench time READER FILE` are those processes: one reading, or the first time and the best of several.
//! `bench count READER FILE` prints the instructions a byte of one file.
mod measure;
mod readers;
mod tables;
mod texts;

use std::path::Path;
use std::process::ExitCode;
use std::{env, fs};

/// What is asked for.
pub struct Wanted {
    bytes: usize,
    growth: Vec<usize>,
    texts: Vec<&'static texts::Text>,
}

fn main() -> ExitCode {
    let words: Vec<String> = env::args().skip(1).collect();
    let words: Vec<&str> = words.iter().map(String::as_str).collect();
    match words[..] {
        [how @ ("once" | "time"), reader, file] => {
            let reader = readers::named(reader).expect("a reader's name");
            let text = fs::read_to_string(file).expect("a text");
            let run = (reader.ready)(&text);
            println!("{}", if how == "once" { measure::once(run) } else { measure::timed(run) });
            ExitCode::SUCCESS
        }
        ["count", reader, file] => {
            let reader = readers::named(reader).expect("a reader's name");
            let bytes = fs::metadata(file).expect("a text").len();
            let found = measure::instructions(reader, Path::new(file)).expect("a text that is served");
            println!("{:.1}", found.count as f64 / bytes as f64);
            ExitCode::SUCCESS
        }
        _ => match wanted(&words) {
            Some(wanted) => {
                tables::print(&wanted);
                ExitCode::SUCCESS
            }
            None => {
                let names: Vec<&str> = texts::all().map(|text| text.name).collect();
                eprintln!("usage: bench [--bytes N] [--growth MEGABYTES,..] [{}]", names.join("|"));
                ExitCode::FAILURE
            }
        },
    }
}

/// The words as a wish; none if one of them is unknown.
fn wanted(words: &[&str]) -> Option<Wanted> {
    let mut wanted = Wanted { bytes: texts::MEGABYTE, growth: vec![4, 16, 64], texts: Vec::new() };
    let mut words = words.iter();
    while let Some(&word) = words.next() {
        match word {
            "--bytes" => wanted.bytes = words.next()?.parse().ok()?,
            "--growth" => {
                let sizes: Result<Vec<usize>, _> = words.next()?.split(',').map(str::parse).collect();
                wanted.growth = sizes.ok()?.into_iter().filter(|&size| size > 0).collect();
            }
            name => wanted.texts.push(texts::named(name)?),
        }
    }
    if wanted.texts.is_empty() {
        wanted.texts = texts::all().collect();
    }
    Some(wanted)
}
