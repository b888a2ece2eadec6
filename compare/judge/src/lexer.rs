//! The whole-text call against the Rust: every word of every record, the parts of every number and the text memory, in both modes,
//! with comments kept and skipped. Plain mode's judge is the Rust as it is; report mode's is the Rust with one line changed, and the
//! requests' rules on an error's place put on what it answers (`report`).
//!
//! Each text is read into memory that is just large enough, into memory with one record or one byte too few (22), and under a mode
//! that is none (25); a text that is not UTF-8 is refused (21). Memory that a call must leave alone is compared too.
use crate::numbers;
use crate::report;
use crate::tally::{shown, Count, Tally};
use crate::Options;
use item::{Item, Reading, WORDS};
use std::panic::{self, AssertUnwindSafe};
use std::str;

const FAMILIES: &[&str] = &[
    "short", "escapes", "hashes", "digits", "characters", "here", "comments", "brackets", "numbers", "bars", "long",
    "delimiters", "reals", "nests", "plans", "damaged", "bad",
];

/// How many texts of a family are read at most. Of the numbers those of up to 5 characters: the number call itself is compared on all
/// of them, and the Rust keeps every name that it reads.
pub fn most(family: &str) -> u64 {
    match family {
        "numbers" => 1 + 17 + 17u64.pow(2) + 17u64.pow(3) + 17u64.pow(4) + 17u64.pow(5),
        _ => u64::MAX,
    }
}

/// How a reader of texts is called: the text, whether comments are skipped, the reading. It answers how often A5 was met.
pub type Read = fn(&str, bool, &mut Reading) -> u64;

const PLAIN: u32 = 0;
const REPORT: u32 = 1;
pub const NO_MODE: u32 = 2;
/// Each mode, and who judges it.
pub const MODES: [(u32, Read); 2] = [(PLAIN, steel::read), (REPORT, report::read)];

pub fn judge(options: &Options) -> Count {
    let mut count = Count::default();
    let mut call = Call::default();
    for name in options.wanted(FAMILIES) {
        let mut tally = Tally::new(format!("lexer read, {name}"));
        options.each(name, most(name), &mut |text| same(&mut tally, &mut call, text));
        count.add(tally.close());
    }
    count
}

/// What a call answers, and whether it left alone all memory that it must.
#[derive(Debug, PartialEq)]
enum Answer {
    Served(Reading),
    Refused { number: u32, values: [u64; 2] },
    Overwrote,
    Panicked,
}

fn same(tally: &mut Tally, call: &mut Call, text: &[u8]) {
    tally.text();
    for (mode, read) in MODES {
        for skip in [false, true] {
            let input = || format!("mode {mode}, skip {skip}, {}", shown(text));
            match str::from_utf8(text) {
                Ok(source) => {
                    let Some(reading) = rust(read, source, skip, tally) else {
                        tally.same(Answer::Panicked, call.read(text, mode, skip, 0, 0), input);
                        continue;
                    };
                    same_reading(tally, call, text, mode, skip, reading);
                }
                Err(error) => {
                    let refused = refused(proved::NOT_UTF8, error.valid_up_to(), 0);
                    tally.same(refused, call.read(text, mode, skip, text.len(), text.len()), input);
                }
            }
        }
    }
    let input = || format!("mode {NO_MODE}, {}", shown(text));
    let refused = refused(proved::NO_MODE, NO_MODE as usize, 0);
    tally.same(refused, call.read(text, NO_MODE, false, text.len(), text.len()), input);
}

/// The Rust's reading against ours, in enough memory and in too little.
fn same_reading(tally: &mut Tally, call: &mut Call, text: &[u8], mode: u32, skip: bool, reading: Reading) {
    let (items, bytes) = (reading.items.len(), reading.memory.len());
    let words = items * WORDS;
    let input = |short: &str| format!("mode {mode}, skip {skip}{short}, {}", shown(text));
    if words > 0 {
        let few = call.read(text, mode, skip, words - 1, bytes);
        tally.same(refused(proved::TOO_FEW, items, bytes), few, || input(", a record too few"));
    }
    if bytes > 0 {
        let few = call.read(text, mode, skip, words, bytes - 1);
        tally.same(refused(proved::TOO_FEW, items, bytes), few, || input(", a byte too few"));
    }
    tally.same(Answer::Served(reading), call.read(text, mode, skip, words, bytes), || input(""));
}

fn refused(number: u32, first: usize, second: usize) -> Answer {
    Answer::Refused { number, values: [first as u64, second as u64] }
}

/// What the Rust reads a text as; none where it panics.
pub fn rust(read: Read, text: &str, skip: bool, tally: &mut Tally) -> Option<Reading> {
    let mut reading = Reading::default();
    let zeros = panic::catch_unwind(AssertUnwindSafe(|| read(text, skip, &mut reading))).ok()?;
    for _ in 0..zeros {
        tally.know("A5");
    }
    Some(reading)
}

/// The proved call, with memory that is kept between calls.
#[derive(Default)]
struct Call {
    records: Vec<u32>,
    text: Vec<u8>,
}

/// What memory holds before a call, and how much of it lies past what is lent.
pub const OLD_WORD: u32 = 0xA5A5_A5A5;
pub const OLD_BYTE: u8 = 0xA5;
pub const OLD_VALUE: u64 = 0xA5A5_A5A5_A5A5_A5A5;
pub const PAST: usize = 4;

impl Call {
    /// Reads a text into so many words and bytes of memory.
    fn read(&mut self, source: &[u8], mode: u32, skip: bool, words: usize, bytes: usize) -> Answer {
        self.records.clear();
        self.records.resize(words + PAST, OLD_WORD);
        self.text.clear();
        self.text.resize(bytes + PAST, OLD_BYTE);
        let mut values = [OLD_VALUE; 3];
        let number = proved::read(source, mode, skip, &mut self.records[..words], &mut self.text[..bytes], &mut values);
        let [first, second, past] = values;
        let (items, decoded) = if number == proved::SERVED { (first as usize, second as usize) } else { (0, 0) };
        let kept = past == OLD_VALUE
            && self.records[items * WORDS..].iter().all(|&word| word == OLD_WORD)
            && self.text[decoded..].iter().all(|&byte| byte == OLD_BYTE);
        match number {
            _ if !kept => Answer::Overwrote,
            proved::SERVED => Answer::Served(reading(source, &self.records[..items * WORDS], &self.text[..decoded])),
            _ => Answer::Refused { number, values: [first, second] },
        }
    }
}

/// The records and the text memory that were written of a source; a number's parts are what the number call gives for its extent.
pub fn reading(source: &[u8], records: &[u32], memory: &[u8]) -> Reading {
    const NUMBER: u32 = 29;
    let items = records.chunks_exact(WORDS).map(|words| {
        let record: item::Record = words.try_into().expect("a record");
        let [kind, _, start, end, ..] = record;
        let number = (kind == NUMBER).then(|| source.get(start as usize..end as usize).and_then(numbers::parts));
        Item { record, number: number.flatten() }
    });
    Reading { items: items.collect(), memory: memory.to_vec() }
}

/// The proved call in each mode, as the Rust's readers are called; the reading is empty where it is refused.
pub fn plain(text: &str, skip: bool, out: &mut Reading) -> u64 {
    whole(text, PLAIN, skip, out)
}

pub fn in_report(text: &str, skip: bool, out: &mut Reading) -> u64 {
    whole(text, REPORT, skip, out)
}

/// Items never outnumber bytes, and their decoded texts are shorter than the text.
pub fn whole(text: &str, mode: u32, skip: bool, out: &mut Reading) -> u64 {
    out.clear();
    let answer = Call::default().read(text.as_bytes(), mode, skip, text.len() * WORDS, text.len());
    if let Answer::Served(reading) = answer {
        *out = reading;
    }
    0
}
