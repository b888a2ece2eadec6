//! Many fields in one call against the Rust's readings of the parts, one by one: every row, every word of every record, the parts of every
//! number and the text memory, in both modes, with comments kept and skipped. The judges are those of the whole-text call.
//!
//! A source is texts of a family set one behind the other. It is cut at their ends, and once more at random: inside characters and items,
//! with empty parts, with bytes past the last end. Each is read into memory that is just large enough and into memory that is ample, into
//! memory with a row, a record or a byte too few (22), with ends that go back or pass the source (38), and under a mode that is none (25).
//! Memory that a call must leave alone is compared too.
use crate::lexer::{self, Read, MODES, NO_MODE, OLD_BYTE, OLD_VALUE, OLD_WORD, PAST};
use crate::tally::{shown, Count, Tally};
use crate::Options;
use gen::Random;
use item::{Reading, WORDS};
use std::str;

const FAMILIES: &[&str] = &[
    "short", "escapes", "hashes", "digits", "characters", "here", "comments", "brackets", "bytes", "reals", "nests",
    "plans", "damaged", "bad",
];

/// So many texts of a family are read in one call, and so many of a family at most.
const TOGETHER: usize = 32;
const MOST: u64 = 250_000;

pub fn judge(options: &Options) -> Count {
    let mut count = Count::default();
    for name in options.wanted(FAMILIES) {
        let mut tally = Tally::new(format!("fields read, {name}"));
        let mut random = Random::new(options.seed);
        let mut source = Source::default();
        options.each(name, MOST, &mut |text| {
            source.push(text);
            if source.ends.len() == TOGETHER {
                source.judge(&mut tally, &mut random);
            }
        });
        source.judge(&mut tally, &mut random);
        count.add(tally.close());
    }
    count
}

/// A source, and where its parts end.
#[derive(Default)]
struct Source {
    bytes: Vec<u8>,
    ends: Vec<u32>,
}

impl Source {
    fn push(&mut self, text: &[u8]) {
        self.bytes.extend_from_slice(text);
        self.ends.push(self.bytes.len() as u32);
    }

    /// Compares it, cut at the ends of its texts and at random, and starts anew.
    fn judge(&mut self, tally: &mut Tally, random: &mut Random) {
        let count = random.below(2 * self.ends.len() + 1);
        let mut places: Vec<u32> = (0..count).map(|_| random.below(self.bytes.len() + 1) as u32).collect();
        places.sort_unstable();
        for ends in [&self.ends, &places] {
            for (mode, read) in MODES {
                for skip in [false, true] {
                    same(tally, &self.bytes, ends, mode, skip, read);
                }
            }
            refusals(tally, &self.bytes, ends);
        }
        self.bytes.clear();
        self.ends.clear();
    }
}

/// A part: what its row says, and what it was read as.
#[derive(Debug, PartialEq)]
struct Part {
    first_record: u32,
    first_byte: u32,
    mark: u32,
    place: u32,
    reading: Reading,
}

/// What a call answers, and whether it left alone all memory that it must.
#[derive(Debug, PartialEq)]
enum Answer {
    Served(Vec<Part>),
    Refused { number: u32, values: [u64; 2] },
    Overwrote,
    Panicked,
}

fn refused(number: u32, first: usize, second: usize) -> Answer {
    Answer::Refused { number, values: [first as u64, second as u64] }
}

/// The parts of a source.
fn parts<'a>(source: &'a [u8], ends: &'a [u32]) -> impl Iterator<Item = &'a [u8]> {
    let starts = [0].into_iter().chain(ends.iter().copied());
    starts.zip(ends).map(|(start, &end)| &source[start as usize..end as usize])
}

/// The Rust's readings of the parts; none where it panics.
fn singles(tally: &mut Tally, source: &[u8], ends: &[u32], skip: bool, read: Read) -> Option<Vec<Part>> {
    let (mut first_record, mut first_byte) = (0, 0);
    let each = parts(source, ends).map(|part| {
        tally.text();
        let (mark, place, reading) = match str::from_utf8(part) {
            Ok(text) => (proved::SERVED, 0, lexer::rust(read, text, skip, tally)?),
            Err(error) => (proved::NOT_UTF8, error.valid_up_to() as u32, Reading::default()),
        };
        let told = Part { first_record, first_byte, mark, place, reading };
        first_record += told.reading.items.len() as u32;
        first_byte += told.reading.memory.len() as u32;
        Some(told)
    });
    each.collect()
}

/// The Rust's readings against ours, in enough memory, in ample memory and in too little.
fn same(tally: &mut Tally, source: &[u8], ends: &[u32], mode: u32, skip: bool, read: Read) {
    let input = |short: &str| format!("mode {mode}, skip {skip}{short}, ends {ends:?}, {}", shown(source));
    let call = |rows, words, bytes| Call { source, ends, mode, skip }.read(rows, words, bytes);
    let Some(wanted) = singles(tally, source, ends, skip, read) else {
        tally.same(Answer::Panicked, call(0, 0, 0), || input(""));
        return;
    };
    let items: usize = wanted.iter().map(|part| part.reading.items.len()).sum();
    let bytes: usize = wanted.iter().map(|part| part.reading.memory.len()).sum();
    let (rows, words) = (ends.len() * proved::ROW_WORDS, items * WORDS);
    for (short, few) in [
        (", a row too few", (rows > 0).then(|| call(rows - 1, words, bytes))),
        (", a record too few", (words > 0).then(|| call(rows, words - 1, bytes))),
        (", a byte too few", (bytes > 0).then(|| call(rows, words, bytes - 1))),
    ] {
        if let Some(few) = few {
            tally.same(refused(proved::TOO_FEW, items, bytes), few, || input(short));
        }
    }
    let ample = call(rows, source.len() * WORDS, source.len());
    let wanted = Answer::Served(wanted);
    tally.same(&wanted, &ample, || input(", ample memory"));
    tally.same(&wanted, &call(rows, words, bytes), || input(""));
}

/// Ends that are none, and a mode that is none, which is told first.
fn refusals(tally: &mut Tally, source: &[u8], ends: &[u32]) {
    let past = [ends, &[source.len() as u32 + 1]].concat();
    let mut back = ends.to_vec();
    back.reverse();
    let mut wrong = vec![past];
    wrong.extend((back != ends).then_some(back));
    for ends in &wrong {
        let input = || format!("ends {ends:?}, {}", shown(source));
        let call = |mode| Call { source, ends, mode, skip: false }.read(0, 0, 0);
        tally.same(refused(proved::BAD_ENDS, 0, 0), call(0), input);
        tally.same(refused(proved::NO_MODE, NO_MODE as usize, 0), call(NO_MODE), input);
    }
}

/// The proved call.
struct Call<'a> {
    source: &'a [u8],
    ends: &'a [u32],
    mode: u32,
    skip: bool,
}

impl Call<'_> {
    /// Reads the parts into so many words of rows, words of records and bytes.
    fn read(&self, rows: usize, words: usize, bytes: usize) -> Answer {
        let Call { source, ends, mode, skip } = *self;
        let mut row_memory = vec![OLD_WORD; rows + PAST];
        let mut records = vec![OLD_WORD; words + PAST];
        let mut text = vec![OLD_BYTE; bytes + PAST];
        let mut values = [OLD_VALUE; 3];
        let (w, r, t) = (&mut row_memory[..rows], &mut records[..words], &mut text[..bytes]);
        let number = proved::read_fields(source, ends, mode, skip, w, r, t, &mut values);
        let [first, second, past] = values;
        let served = number == proved::SERVED;
        let (items, decoded) = if served { (first as usize, second as usize) } else { (0, 0) };
        let written = if served { ends.len() * proved::ROW_WORDS } else { 0 };
        let kept = past == OLD_VALUE
            && row_memory[written..].iter().all(|&word| word == OLD_WORD)
            && records[items * WORDS..].iter().all(|&word| word == OLD_WORD)
            && text[decoded..].iter().all(|&byte| byte == OLD_BYTE);
        match number {
            _ if !kept => Answer::Overwrote,
            proved::SERVED => {
                Answer::Served(self.parts(&row_memory[..written], &records[..items * WORDS], &text[..decoded]))
            }
            _ => Answer::Refused { number, values: [first, second] },
        }
    }

    /// What each part was read as, by the rows: its records and its text go on to where the next part's start.
    fn parts(&self, rows: &[u32], records: &[u32], text: &[u8]) -> Vec<Part> {
        let rows: Vec<&[u32]> = rows.chunks_exact(proved::ROW_WORDS).collect();
        let each = parts(self.source, self.ends).enumerate().map(|(i, part)| {
            let &[first_record, first_byte, mark, place] = rows[i] else { unreachable!("four words") };
            let next = rows.get(i + 1);
            let end = next.map_or(records.len() / WORDS, |row| row[0] as usize);
            let past = next.map_or(text.len(), |row| row[1] as usize);
            let words = records.get(first_record as usize * WORDS..end * WORDS).unwrap_or_default();
            let bytes = text.get(first_byte as usize..past).unwrap_or_default();
            Part { first_record, first_byte, mark, place, reading: lexer::reading(part, words, bytes) }
        });
        each.collect()
    }
}
