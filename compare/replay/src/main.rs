//! `replay [FOLDER]` writes the lists of texts and of the Rust's answers that the proved program crates/replay reads, to
//! crates/replay/data if no other folder is named: `answers`, what is told of the whole-text call, and `stops`, what is told of the
//! piece calls alone. It prints how many answers and items they have.
//!
//! A text is kept if the Rust's reading of it shows something that no text before it showed (`features`). The texts tried are those of
//! `gen`, family by family; of each at most `KEPT` are kept. Before them stand document 01's examples and the texts that its rules and
//! docs/DIFFERENCES.md turn on (examples.txt), behind them those that the depth turns on (depths.txt). `frame` says how a text is written
//! down.
mod features;
mod frame;
mod told;

use std::collections::HashSet;
use std::fs::File;
use std::io::{self, BufWriter, Write};
use std::path::PathBuf;
use std::{env, thread};

/// The families that texts are drawn from, and how many texts of each are looked at.
const FAMILIES: &[(&str, u64)] = &[
    ("plans", 20_000),
    ("hashes", 1_000_000),
    ("escapes", 2_000_000),
    ("here", 2_500_000),
    ("comments", 400_000),
    ("numbers", 400_000),
    ("short", 1_600_000),
    ("reals", 20_000),
    ("damaged", 50_000),
    ("bad", 50_000),
    ("long", 10_000),
];

/// How many texts of a family are kept.
const KEPT: usize = 300;

/// Texts longer than this are left out, so that the list stays small, but for those of the family of long texts.
const SHORT: usize = 160;
const LONG: usize = 4000;

/// The Rust calls itself for every comment that it skips: enough stack for all of them.
const STACK: usize = 1 << 28;

const DEFAULT: &str = concat!(env!("CARGO_MANIFEST_DIR"), "/../../crates/replay/data");

fn main() -> io::Result<()> {
    let folder = PathBuf::from(env::args().nth(1).unwrap_or_else(|| DEFAULT.into()));
    let mut answers = BufWriter::new(File::create(folder.join("answers"))?);
    let mut stops = BufWriter::new(File::create(folder.join("stops"))?);
    let worker = thread::Builder::new().stack_size(STACK).spawn(move || {
        let mut list = List { answers: &mut answers, stops: &mut stops, seen: HashSet::new(), count: Count::default() };
        list.all(include_str!("examples.txt"))?;
        for &(name, tried) in FAMILIES {
            list.family(name, tried)?;
        }
        list.all(include_str!("depths.txt"))?;
        let count = list.count;
        println!("{} answers, {} stops, {} items", count.answers, count.stops, count.items);
        answers.flush()?;
        stops.flush()
    });
    worker?.join().expect("no panic")
}

#[derive(Default)]
struct Count {
    answers: usize,
    stops: usize,
    items: usize,
}

struct List<'a, W: Write> {
    answers: &'a mut W,
    stops: &'a mut W,
    seen: HashSet<u64>,
    count: Count,
}

impl<W: Write> List<'_, W> {
    /// The texts of a file, a line each: all are kept.
    fn all(&mut self, file: &str) -> io::Result<()> {
        for text in file.lines() {
            let text = text.replace("\\LF", "\n").replace("\\CR", "\r");
            self.fresh(text.as_bytes());
            self.put(text.as_bytes())?;
        }
        Ok(())
    }

    fn family(&mut self, name: &str, tried: u64) -> io::Result<()> {
        let family = gen::family(name).expect("a family");
        let mut kept = Vec::new();
        family.each(0, tried, &mut |text| {
            let short = text.len() <= SHORT || text.len() > LONG;
            if kept.len() < KEPT && short && self.fresh(text) {
                kept.push(text.to_vec());
            }
        });
        println!("{name}: {} texts", kept.len());
        kept.iter().try_for_each(|text| self.put(text))
    }

    /// Whether a text shows something that none before it showed.
    fn fresh(&mut self, text: &[u8]) -> bool {
        let mut fresh = false;
        for feature in features::of(text) {
            fresh |= self.seen.insert(feature);
        }
        fresh
    }

    /// Writes down what is told of a text.
    fn put(&mut self, text: &[u8]) -> io::Result<()> {
        for told in told::all(text) {
            self.count.items += told.words.len() / item::WORDS;
            if told.of_pieces_alone() {
                self.count.stops += 1;
                frame::write(self.stops, text, &told)?;
            } else {
                self.count.answers += 1;
                frame::write(self.answers, text, &told)?;
            }
        }
        Ok(())
    }
}
