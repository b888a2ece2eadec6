//! Item files, the proved calls beside a plain writing of the request's words (`plain.rs`): answers, what comes with them, and every word and
//! byte of the memory lent.
//!
//! `files [--seed N] [--count N]` compares COUNT (a million) random record lists, files and damaged files, and 20,000 texts of each family
//! of `gen`, or all where it lists fewer, in both modes, comments kept and skipped. The last line has the counts.
//!
//! `files frames COUNT` prints a line for each of COUNT files: its bytes in hex after `=`, and the words of its records.
//!
//! `files once CALL FILE TIMES` makes one call many times on the records of a text (`speed.rs`).
mod families;
mod plain;
mod proved;
mod speed;

use gen::{Random, FAMILIES};
use mihadrena::raw;
use std::env;
use std::fmt::Debug;
use std::process::ExitCode;

/// What memory holds before a call.
const OLD_BYTE: u8 = 0xAA;
const OLD_WORD: u32 = 0xAAAA_AAAA;

/// How many texts of each family.
const TEXTS: u64 = 20_000;

#[derive(Default)]
struct Tally {
    served: u64,
    refused: u64,
    failed: u64,
}

impl Tally {
    /// One call of each side, with the memory that each left.
    fn same<T: PartialEq>(
        &mut self,
        what: &str,
        given: &impl Debug,
        plain: (plain::Answer, T),
        ours: (plain::Answer, T),
    ) {
        let kind = if ours.0 .0 == raw::SERVED { &mut self.served } else { &mut self.refused };
        *kind += 1;
        if plain != ours {
            self.failed += 1;
            if self.failed <= 20 {
                println!("{what} {given:?}: plain {:?}, proved {:?}, or their memory", plain.0, ours.0);
            }
        }
    }

    /// Writes records into so much memory; answers the file, if there is one.
    fn write(&mut self, records: &[u32], room: usize) -> Option<Vec<u8>> {
        let (mut plain_out, mut out) = (vec![OLD_BYTE; room], vec![OLD_BYTE; room]);
        let plain = plain::write(records, &mut plain_out);
        let answer = proved::write(records, &mut out);
        let file = (answer.0 == raw::SERVED).then(|| out[..answer.1 as usize].to_vec());
        self.same("write", &records, (plain, plain_out), (answer, out));
        file
    }

    /// Reads a file into so many words.
    fn read(&mut self, file: &[u8], room: usize) {
        let (mut plain_records, mut records) = (vec![OLD_WORD; room], vec![OLD_WORD; room]);
        let plain = plain::read(file, &mut plain_records);
        let answer = proved::read(file, &mut records);
        self.same("read", &file, (plain, plain_records), (answer, records));
    }

    /// Random records, their file, and damaged files; ample and short memory.
    fn random(&mut self, random: &mut Random) {
        let short = random.below(3) == 0;
        let records = families::records(random);
        let file = self.write(&records, if short { random.below(120) } else { 200 });
        let file = file.unwrap_or_else(|| families::bytes(random));
        let room = if short { random.below(45) } else { 60 };
        self.read(&file, room);
        self.read(&families::damaged(&file, random), room);
    }

    /// The records of a text there and back; a text's own records are never refused but for memory.
    fn text(&mut self, source: &[u8], random: &mut Random) {
        for (mode, skip) in [(raw::PLAIN, false), (raw::PLAIN, true), (raw::REPORT, false), (raw::REPORT, true)] {
            let Some(records) = proved::records_of(source, mode, skip) else { continue };
            let file = self.write(&records, records.len() * 5).expect("a plan that was read can be stored");
            let mut back = vec![OLD_WORD; records.len()];
            let answer = proved::read(&file, &mut back);
            self.same(
                "there and back",
                &source,
                ((0, (records.len() / raw::RECORD_WORDS) as u64), records),
                (answer, back),
            );
            self.read(&families::damaged(&file, random), file.len() * raw::RECORD_WORDS);
        }
    }
}

/// A number behind a word of the command line.
fn after(words: &[String], name: &str, otherwise: u64) -> u64 {
    let at = words.iter().position(|word| word == name);
    at.map_or(otherwise, |at| words.get(at + 1).and_then(|word| word.parse().ok()).expect("a number"))
}

fn frames(count: u64) {
    let mut random = Random::new(1);
    let mut left = count;
    while left > 0 {
        let mut records = families::records(&mut random);
        records.truncate(records.len() / raw::RECORD_WORDS * raw::RECORD_WORDS);
        let mut file = vec![0; records.len() * 5];
        let (answer, bytes) = proved::write(&records, &mut file);
        if answer != raw::SERVED {
            continue;
        }
        let hex: String = file[..bytes as usize].iter().map(|byte| format!("{byte:02x}")).collect();
        let words: String = records.iter().map(|word| format!(" {word}")).collect();
        println!("={hex}{words}");
        left -= 1;
    }
}

fn main() -> ExitCode {
    let words: Vec<String> = env::args().skip(1).collect();
    match words.first().map(String::as_str) {
        Some("frames") => {
            frames(after(&words, "frames", 0));
            return ExitCode::SUCCESS;
        }
        Some("once") => return speed::once(&words[1..]),
        _ => (),
    }
    let (seed, count) = (after(&words, "--seed", 1), after(&words, "--count", 1_000_000));
    let mut tally = Tally::default();
    let mut random = Random::new(seed);
    (0..count).for_each(|_| tally.random(&mut random));
    let mut texts = 0;
    for family in FAMILIES {
        family.each(seed, TEXTS, &mut |source| {
            texts += 1;
            tally.text(source, &mut random);
        });
    }
    let Tally { served, refused, failed } = tally;
    println!("files: {count} random lists and files, {texts} texts; {served} calls served, {refused} refused, {failed} failed");
    if failed == 0 {
        ExitCode::SUCCESS
    } else {
        ExitCode::FAILURE
    }
}
