//! Nothing in a text goes unseen: each text is put together again from the extents of its records and the gaps between them, and must come
//! out whole. A gap gives its blanks alone, by Rust's `char::is_whitespace`, and the opening `#!` line, so that what no record covers is
//! missing. Records of the whole-text call and of the piece calls, each text whole, byte by byte and cut at random, in both modes;
//! where comments are skipped, they are put back in from the other reading.
//!
//! Before a stop the part of the text before the unfinished item must come out: up to the place of 23, and for 21 up to the start of the
//! item in which the Rust's reading of the good bytes breaks off.
use crate::lexer::{self, rust, Read, MODES};
use crate::pieces::{drive, Answer, Cutting, Lent, What, LONG_ITEM, NOT_UTF8};
use crate::tally::{shown, Count, Tally};
use crate::Options;
use gen::Random;
use item::{Reading, Record};
use std::str;

/// So many texts of a family at most: byte by byte they take their time.
const MOST: u64 = 250_000;

const COMMENT: u32 = 25;
const IDENTIFIER: u32 = 27;

pub fn judge(options: &Options) -> Count {
    let mut count = Count::default();
    let names: Vec<&str> = gen::FAMILIES.iter().map(|family| family.name).collect();
    for name in options.wanted(&names) {
        let mut tally = Tally::between(["the text", "proved"], format!("coverage {name}"));
        let mut random = Random::new(options.seed);
        options.each(name, MOST, &mut |text| {
            tally.text();
            for (mode, judge) in MODES {
                whole(&mut tally, mode, text);
                pieces(&mut tally, mode, judge, text, random.next());
            }
        });
        count.add(tally.close());
    }
    count
}

// ---- the whole-text call

fn whole(tally: &mut Tally, mode: u32, text: &[u8]) {
    let Ok(source) = str::from_utf8(text) else {
        return;
    };
    let read = |skip| {
        let mut reading = Reading::default();
        lexer::whole(source, mode, skip, &mut reading);
        reading.items.iter().map(|item| item.record).collect::<Vec<Record>>()
    };
    let (kept, skipped) = (read(false), read(true));
    let all = put_back(&kept, &skipped, |record| *record);
    covers(tally, text, &kept, || format!("mode {mode}, {}", shown(text)));
    covers(tally, text, &all, || format!("mode {mode}, skipped, {}", shown(text)));
    tally.same(&kept, &all, || format!("mode {mode}, put back, {}", shown(text)));
}

// ---- the piece calls

/// An item as a piece call gives it.
type Given = (Record, Vec<u8>);

fn pieces(tally: &mut Tally, mode: u32, judge: Read, text: &[u8], seed: u64) {
    for cutting in [Cutting::Whole, Cutting::Bytes, Cutting::Random] {
        let input = |how: &str| format!("mode {mode}, {cutting:?}{how}, {}", shown(text));
        let (kept, last) = given(drive(&mut Lent::open(mode, false), text, cutting, seed));
        let (skipped, same_last) = given(drive(&mut Lent::open(mode, true), text, cutting, seed));
        let all = put_back(&kept, &skipped, |given| given.0);
        let Some(seen) = before_stop(judge, text, &last, tally) else {
            continue;
        };
        covers(tally, seen, &records(&kept), || input(""));
        covers(tally, seen, &records(&all), || input(", skipped"));
        tally.same((&kept, &last), (&all, &same_last), || input(", put back"));
    }
}

/// The items among the answers of all calls, and the last word.
fn given(answers: Vec<Answer>) -> (Vec<Given>, What) {
    let last = answers.last().map_or(What::More, |answer| answer.what.clone());
    let items = answers.into_iter().filter_map(|answer| match answer.what {
        What::Item(record, text) => Some((record, text)),
        _ => None,
    });
    (items.collect(), last)
}

fn records(items: &[Given]) -> Vec<Record> {
    items.iter().map(|given| given.0).collect()
}

/// The part of a text that is covered when the calls ended with this word; none where the Rust panics.
fn before_stop<'a>(judge: Read, text: &'a [u8], last: &What, tally: &mut Tally) -> Option<&'a [u8]> {
    match *last {
        What::Refused(LONG_ITEM, place) => text.get(..place),
        What::Refused(NOT_UTF8, place) => {
            let good = str::from_utf8(text.get(..place)?).ok()?;
            let reading = rust(judge, good, false, tally)?;
            let unfinished = reading.items.last().map(|item| extent(item.record)).filter(|(_, end)| *end == good.len());
            text.get(..unfinished.map_or(good.len(), |(start, _)| start))
        }
        _ => Some(text),
    }
}

// ---- records that cover a text

/// Whether the text comes out of its records, and these are no more than its bytes.
fn covers(tally: &mut Tally, text: &[u8], records: &[Record], input: impl FnOnce() -> String) {
    let few = records.len() <= text.len();
    tally.same(Some(text), rebuilt(text, records).as_deref().filter(|_| few), input);
}

/// A text put together again; none where an extent goes back, is empty or passes the end.
fn rebuilt(text: &[u8], records: &[Record]) -> Option<Vec<u8>> {
    let mut out = opening(text).to_vec();
    let mut at = out.len();
    let mut before: Option<Record> = None;
    for &record in records {
        if before.take().is_some_and(|first| is_pair(text, first, record)) {
            continue;
        }
        let (start, end) = extent(record);
        out.extend(blanks(text.get(at..start)?)?);
        out.extend(text.get(start..end).filter(|extent| !extent.is_empty())?);
        (at, before) = (end, Some(record));
    }
    out.extend(blanks(&text[at..])?);
    Some(out)
}

/// The opening line, without its newline.
fn opening(text: &[u8]) -> &[u8] {
    let line = text.split(|&byte| byte == b'\n').next().unwrap_or_default();
    if line.starts_with(b"#!") {
        line
    } else {
        b""
    }
}

/// The blanks of a gap; none if it is no UTF-8.
fn blanks(gap: &[u8]) -> Option<Vec<u8>> {
    let blanks: String = str::from_utf8(gap).ok()?.chars().filter(|c| c.is_whitespace()).collect();
    Some(blanks.into_bytes())
}

/// Two identifiers of one extent, which starts with a plus and goes on.
fn is_pair(text: &[u8], first: Record, second: Record) -> bool {
    let (start, end) = extent(first);
    let one_extent = extent(second) == (start, end) && end - start > 1;
    one_extent && first[0] == IDENTIFIER && second[0] == IDENTIFIER && text[start] == b'+'
}

fn extent(record: Record) -> (usize, usize) {
    let [_, _, start, end, ..] = record;
    (start as usize, end as usize)
}

/// What was read with comments skipped, with the comments of the other reading put back in where they stood.
fn put_back<T: Clone>(kept: &[T], skipped: &[T], record: impl Fn(&T) -> Record) -> Vec<T> {
    let mut others = skipped.iter();
    let mut all = Vec::new();
    for one in kept {
        let is_comment = record(one)[0] == COMMENT;
        all.extend(if is_comment { Some(one) } else { others.next() }.cloned());
    }
    all.extend(others.cloned());
    all
}
