//! The coordinate calls, compared with Rust's own `parse::<f64>` on many texts: bits, refusals and places.
//!
//! `coordinates [--seed N] [--count N] [--bytes N] [--huge] [FAMILY..]` prints a line for each family and the sum. `--count` is how many
//! texts of each random family are made (a million), `--bytes` how long the listed texts get (6; 7 are 21,435,888 texts). `--huge` adds
//! texts of 4,294,967,295 bytes and of one more.
//!
//! `coordinates once CALL TEXT N` makes one call N times, for a count of instructions: `proved`, `parse`, or `checked`, which is `from_utf8`
//! and `parse`.
mod families;
mod judge;
mod speed;

use std::env;
use std::process::ExitCode;

/// What is asked for.
struct Wanted {
    seed: u64,
    count: u64,
    bytes: usize,
    huge: bool,
    families: Vec<&'static families::Family>,
}

fn main() -> ExitCode {
    let words: Vec<String> = env::args().skip(1).collect();
    let words: Vec<&str> = words.iter().map(String::as_str).collect();
    if let ["once", call, text, calls] = words[..] {
        return speed::once(call, text, calls);
    }
    let Some(wanted) = wanted(&words) else {
        eprintln!("usage: coordinates [--seed N] [--count N] [--bytes N] [--huge] [{}]", families::names().join("|"));
        return ExitCode::FAILURE;
    };
    let mut sum = judge::Tally::default();
    for family in &wanted.families {
        let mut tally = judge::Tally::default();
        let limits = families::Limits { seed: wanted.seed, count: wanted.count, bytes: wanted.bytes };
        (family.texts)(&limits, &mut |text| tally.compare(text));
        println!("{}: {tally}", family.name);
        sum.add(&tally);
    }
    if wanted.huge {
        let mut tally = judge::Tally::default();
        families::huge(&mut |text| tally.compare(text));
        println!("huge: {tally}");
        sum.add(&tally);
    }
    println!("all: {sum}");
    if sum.differ == 0 {
        ExitCode::SUCCESS
    } else {
        ExitCode::FAILURE
    }
}

/// The words as a wish; none if one of them is unknown.
fn wanted(words: &[&str]) -> Option<Wanted> {
    let mut wanted = Wanted { seed: 1, count: 1_000_000, bytes: 6, huge: false, families: Vec::new() };
    let mut words = words.iter();
    while let Some(&word) = words.next() {
        match word {
            "--seed" => wanted.seed = words.next()?.parse().ok()?,
            "--count" => wanted.count = words.next()?.parse().ok()?,
            "--bytes" => wanted.bytes = words.next()?.parse().ok()?,
            "--huge" => wanted.huge = true,
            name => wanted.families.push(families::named(name)?),
        }
    }
    if wanted.families.is_empty() {
        wanted.families = families::FAMILIES.iter().collect();
    }
    Some(wanted)
}
