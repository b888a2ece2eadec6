//! Writing a plan back. A text is read by the proved reader in report mode, comments skipped, its records are written by `mihadrena_write`,
//! and the result is held against three judges: the request's words written a second time (`model`), for the text and every refusal; the
//! Rust in report mode, which must read the result with the kinds, details, texts, depths and number parts of the text; and the call
//! itself, which must write what is read from the result alike. Memory that a call must leave alone is compared too.
//!
//! `edited` does so with records whose names and strings got other texts, `damaged` with records in which words were changed.
mod changes;
mod model;

use crate::lexer;
use crate::tally::{shown, Count, Tally};
use crate::Options;
use gen::Random;
use item::{Number, Reading};
use model::{Lent, TOO_FEW};
use proved::SERVED;
use std::{fs, str};

const REPORT: u32 = 1;

const SIDES: [&str; 2] = ["judged", "proved"];

pub fn judge(options: &Options) -> Count {
    let mut count = Count::default();
    if !options.files.is_empty() {
        count.add(files(options));
        return count;
    }
    let names: Vec<&str> = gen::FAMILIES.iter().map(|family| family.name).collect();
    for name in options.wanted(&names) {
        let mut tally = Tally::between(SIDES, format!("writing {name}"));
        options.each(name, lexer::most(name), &mut |text| {
            round_trip(&mut tally, text);
        });
        count.add(tally.close());
    }
    for name in options.wanted(&["plans", "damaged"]) {
        let mut random = Random::new(options.seed);
        let mut edited = Tally::between(SIDES, format!("writing {name}, edited"));
        options.each(name, u64::MAX, &mut |text| changes::edited(&mut edited, &mut random, text));
        count.add(edited.close());
        let mut damaged = Tally::between(SIDES, format!("writing {name}, records damaged"));
        options.each(name, u64::MAX, &mut |text| changes::damaged(&mut damaged, &mut random, text));
        count.add(damaged.close());
    }
    count
}

/// Files, in the place of families. One with an error is refused, and counted apart.
fn files(options: &Options) -> Count {
    let mut tally = Tally::between(SIDES, "writing files");
    let mut refused = 0;
    for file in &options.files {
        match fs::read(file) {
            Ok(text) => refused += u64::from(!round_trip(&mut tally, &text)),
            Err(error) => println!("{}: {error}", file.display()),
        }
    }
    println!("{} files, {refused} of them not written: no UTF-8, or an error in them", options.files.len());
    tally.close()
}

/// What is read of a text: its records, and the text memory that they name.
struct Read {
    records: Vec<u32>,
    memory: Vec<u8>,
}

/// The proved reader in report mode, comments skipped.
fn read(text: &str) -> Read {
    let mut reading = Reading::default();
    lexer::whole(text, REPORT, true, &mut reading);
    Read { records: reading.items.iter().flat_map(|item| item.record).collect(), memory: reading.memory }
}

/// Reads a text, writes it and holds the result against the judges; whether it was written.
fn round_trip(tally: &mut Tally, text: &[u8]) -> bool {
    let Ok(source) = str::from_utf8(text) else { return false };
    tally.text();
    let read = read(source);
    let lent = Lent { records: &read.records, source: text, text: &read.memory };
    let written = same_call(tally, lent, || shown(text));
    if let Some(written) = &written {
        reads_back(tally, written, &shapes(source, true), || shown(text));
    }
    written.is_some()
}

/// What the call answers, with just enough memory and with a byte less, against the model; the text that it wrote.
fn same_call(tally: &mut Tally, lent: Lent, input: impl Fn() -> String) -> Option<Vec<u8>> {
    let expected = lent.written();
    let room = expected.as_ref().map_or(8, Vec::len);
    if let (Ok(text), true) = (&expected, room > 0) {
        tally.same(Err((TOO_FEW, text.len() as u64)), call(lent, room - 1), || format!("a byte too few, {}", input()));
    }
    let answer = call(lent, room);
    tally.same(&expected, &answer, input);
    answer.ok()
}

/// What memory holds before a call, and how much of it lies past what is lent.
const OLD_BYTE: u8 = 0xA5;
const OLD_VALUE: u64 = 0xA5A5_A5A5_A5A5_A5A5;
const PAST: usize = 4;

/// The number of no refusal: the call wrote where it must not.
const OVERWROTE: u32 = 1000;

/// The proved call with so many bytes of memory: the text that it wrote, or its refusal and what that comes with.
fn call(lent: Lent, room: usize) -> Result<Vec<u8>, model::Refused> {
    let mut out = vec![OLD_BYTE; room + PAST];
    let mut values = [OLD_VALUE; 2];
    let number = proved::writing::write(lent.records, lent.source, lent.text, &mut out[..room], &mut values);
    let written = if number == SERVED { values[0] as usize } else { 0 };
    if values[1] != OLD_VALUE || out.get(written..).is_none_or(|past| past.iter().any(|&byte| byte != OLD_BYTE)) {
        return Err((OVERWROTE, values[0]));
    }
    match number {
        SERVED => Ok(out[..written].to_vec()),
        _ => Err((number, values[0])),
    }
}

/// What a round trip keeps of an item: its kind, its detail, its depth, its text and its number's parts.
#[derive(Clone, Debug, PartialEq)]
struct Shape {
    kind: u32,
    detail: u32,
    depth: u32,
    text: Option<Vec<u8>>,
    number: Option<Number>,
}

/// What the Rust reads a text as in report mode.
fn shapes(text: &str, skip: bool) -> Vec<Shape> {
    let mut reading = Reading::default();
    steel_report::read(text, skip, &mut reading);
    let items = reading.items.iter();
    items
        .map(|item| Shape {
            kind: item.record[0],
            detail: item.record[1],
            depth: item.record[item::DEPTH],
            text: reading.text(text.as_bytes(), item).map(<[u8]>::to_vec),
            number: item.number.clone(),
        })
        .collect()
}

/// A written text against what the Rust must read from it, comments kept; and against what is written for what is read from it.
fn reads_back(tally: &mut Tally, written: &[u8], expected: &[Shape], input: impl Fn() -> String) {
    let Ok(text) = str::from_utf8(written) else {
        tally.same("a text", "none", input);
        return;
    };
    tally.same(expected, &shapes(text, false), || format!("read back, {}", input()));
    let again = read(text);
    let lent = Lent { records: &again.records, source: written, text: &again.memory };
    tally.same(Ok(written.to_vec()), call(lent, written.len()), || format!("written again, {}", input()));
}
