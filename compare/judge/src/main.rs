//! `judge [--seed N] [--count N] [--limit N] [--family NAME] [--file FILE].. [--huge] [PART..]` compares the proved functions with the Rust,
//! part by part, and prints a line for each comparison. The last line says how many passed; a difference that is not listed makes the
//! exit status non-zero.
//!
//! --seed     where the random texts start (0)
//! --count    how many texts of a random family are compared (1,000,000); a family that lists is compared whole
//! --limit    no more texts than this of any family: for a quick look
//! --family   no other family than this
//! --file     of the part `writing`: this file in the place of families; may be said more than once
//! --huge     texts of 4 GiB too: A3, refusal 20 and the longest text
//!
//! `judge --scale [--share N] [--jobs N] [--from N]` compares at scale, in processes of its own: see scale.rs.
mod chars;
mod coverage;
mod differences;
mod examples;
mod fields;
mod huge;
mod lexer;
mod numbers;
mod pieces;
mod report;
mod scale;
mod tally;
mod writing;

use std::path::PathBuf;
use std::process::ExitCode;
use std::{env, panic, thread};

/// The Rust calls itself for every comment that it skips (difference A4): enough stack for a few million in a row.
const STACK: usize = 1 << 30;

/// What is asked for.
struct Options {
    seed: u64,
    count: u64,
    limit: u64,
    family: Option<String>,
    files: Vec<PathBuf>,
    huge: bool,
    names: Vec<String>,
}

impl Options {
    fn new() -> Self {
        Options {
            seed: 0,
            count: 1_000_000,
            limit: u64::MAX,
            family: None,
            files: Vec::new(),
            huge: false,
            names: Vec::new(),
        }
    }

    /// Those of some families that are wanted.
    fn wanted<'a>(&self, families: &'a [&'a str]) -> impl Iterator<Item = &'a str> + use<'a, '_> {
        let only = self.family.as_deref();
        families.iter().copied().filter(move |name| only.is_none_or(|only| only == *name))
    }

    /// Hands the texts of a family to `take`, as many as are wanted and no more than `most`.
    fn each(&self, family: &str, most: u64, take: &mut dyn FnMut(&[u8])) {
        let family = gen::family(family).expect("a family");
        let count = if family.lists { self.limit } else { self.limit.min(self.count) };
        family.each(self.seed, count.min(most), take);
    }
}

/// What is compared. A part makes its comparisons and answers what it found.
type Part = (&'static str, fn(&Options) -> tally::Count);
const PARTS: &[Part] = &[
    ("examples", examples::judge),
    ("chars", chars::judge),
    ("numbers", numbers::judge),
    ("lexer", lexer::judge),
    ("fields", fields::judge),
    ("pieces", pieces::judge),
    ("edges", pieces::edges::judge),
    ("coverage", coverage::judge),
    ("writing", writing::judge),
    ("differences", differences::judge),
    ("huge", huge::judge),
];

fn main() -> ExitCode {
    let words: Vec<String> = env::args().skip(1).collect();
    match words.first().map(String::as_str) {
        Some(differences::STACK_PROBE) => return differences::probe_stack(),
        Some("--scale") => return scale::run(&words[1..]).unwrap_or_else(usage),
        _ => (),
    }
    let Some(options) = options(&words) else {
        return usage();
    };
    // A panic of the Rust is an answer here: it is caught, and its message would only stand in the way.
    panic::set_hook(Box::new(|_| ()));
    let worker = thread::Builder::new().stack_size(STACK).spawn(move || judge(&options));
    match worker.expect("a thread").join() {
        Ok(true) => ExitCode::SUCCESS,
        Ok(false) => ExitCode::FAILURE,
        Err(_) => {
            eprintln!("judge: the comparison itself panicked");
            ExitCode::FAILURE
        }
    }
}

/// The words as options; none if one of them is unknown.
fn options(words: &[String]) -> Option<Options> {
    let mut options = Options::new();
    let mut words = words.iter();
    while let Some(word) = words.next() {
        match word.as_str() {
            "--seed" => options.seed = words.next()?.parse().ok()?,
            "--count" => options.count = words.next()?.parse().ok()?,
            "--limit" => options.limit = words.next()?.parse().ok()?,
            "--family" => options.family = Some(gen::family(words.next()?)?.name.to_string()),
            "--file" => options.files.push(words.next()?.into()),
            "--huge" => options.huge = true,
            name if PARTS.iter().any(|part| part.0 == name) => options.names.push(word.clone()),
            _ => return None,
        }
    }
    Some(options)
}

/// Runs the named parts, or all; whether everything passed.
fn judge(options: &Options) -> bool {
    let mut total = tally::Count::default();
    for (name, part) in PARTS {
        if options.names.is_empty() || options.names.iter().any(|wanted| wanted == name) {
            total.add(part(options));
        }
    }
    println!("{total}");
    total.failed == 0
}

fn usage() -> ExitCode {
    let names: Vec<&str> = PARTS.iter().map(|part| part.0).collect();
    eprintln!(
        "usage: judge [--seed N] [--count N] [--limit N] [--family NAME] [--file FILE].. [--huge] [{}]",
        names.join("|")
    );
    eprintln!("       judge --scale [--share N] [--jobs N] [--from N]");
    ExitCode::FAILURE
}
