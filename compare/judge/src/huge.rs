//! Texts about as long as places reach, against what document 01 says of them: 4,294,967,295 bytes are read, one more is refused with 20.
//! The texts lie in one mapping of 4 GiB, in which a few bytes are changed from one to the next, and have few items. The Rust is not
//! asked: its places wrap (A3). Long rows of comments, skipped, end the Rust's process (A4), and are read here too.
use crate::pieces::{Answer, Lent, Reads, What};
use crate::tally::{Count, Tally};
use crate::Options;
use item::{Record, DEPTH};
use proved::{lines, NUMBER_WORDS, RECORD_WORDS};

/// The longest text, and how many bytes the mapping has: one too many.
const LONGEST: usize = u32::MAX as usize;
const TOO_MANY: usize = LONGEST + 1;

const SIDES: [&str; 2] = ["01", "proved"];
const PLAIN: u32 = 0;
const NO_MODE: u32 = 2;

/// What an index's memory holds before a call.
const OLD: u32 = 0xAAAA_AAAA;

pub fn judge(options: &Options) -> Count {
    let mut count = Count::default();
    count.add(comments());
    count.add(written());
    if options.huge {
        let mut text = vec![b' '; TOO_MANY];
        count.add(refused(&mut text));
        count.add(line_index(&mut text));
        count.add(served(&mut text));
        count.add(counted(&mut text));
        drop(text);
        count.add(pieces());
    }
    count
}

/// Records that name one long extent again and again: a result of just the limit is 22 with its bytes, a byte more is 20. No text of that
/// length is made.
fn written() -> Count {
    const TOO_LONG: u32 = 20;
    const TOO_FEW: u32 = 22;
    const TIMES: usize = 256;
    const NUMBER: u32 = 29;
    let extent = (LONGEST - (TIMES - 1)) / TIMES;
    let source = vec![b'1'; extent + 1];
    let call = |last: usize| {
        let mut records = bare(NUMBER, 0, 0, extent).repeat(TIMES);
        records.splice((TIMES - 1) * RECORD_WORDS.., bare(NUMBER, 0, 0, last));
        let (mut out, mut values) = ([7; 16], [0]);
        (proved::writing::write(&records, &source, &[], &mut out, &mut values), values[0], out)
    };
    let mut tally = Tally::between(SIDES, "huge written back");
    tally.text();
    tally.same((TOO_FEW, LONGEST as u64, [7; 16]), call(extent), || "the limit".to_string());
    tally.same((TOO_LONG, LONGEST as u64, [7; 16]), call(extent + 1), || "a byte more".to_string());
    tally.close()
}

/// What the whole-text call answers: its number, both values and the first records.
#[derive(Debug, PartialEq)]
struct Told {
    number: u32,
    values: [u64; 2],
    records: Vec<Record>,
}

/// A call that is lent so many records and no text memory.
fn read(text: &[u8], mode: u32, skip: bool, records: usize) -> Told {
    let mut words = vec![0; records * RECORD_WORDS];
    let mut values = [0; 2];
    let number = proved::read(text, mode, skip, &mut words, &mut [], &mut values);
    let written = if number == proved::SERVED { values[0] as usize } else { 0 };
    let records = words.chunks_exact(RECORD_WORDS).take(written).map(|record| record.try_into().expect("a record"));
    Told { number, values, records: records.collect() }
}

fn refuses(number: u32, first: u64, second: u64) -> Told {
    Told { number, values: [first, second], records: Vec::new() }
}

fn serves(records: Vec<Record>) -> Told {
    Told { number: proved::SERVED, values: [records.len() as u64, 0], records }
}

/// A record without text, its place its extent, outside of all brackets.
fn bare(kind: u32, detail: u32, start: usize, end: usize) -> Record {
    with_text(kind, detail, start..end, [0; 3])
}

/// The same record inside so many brackets.
fn inside(depth: u32, mut record: Record) -> Record {
    record[DEPTH] = depth;
    record
}

fn with_text(kind: u32, detail: u32, extent: std::ops::Range<usize>, [source, from, to]: [usize; 3]) -> Record {
    let word = |place: usize| u32::try_from(place).expect("a place");
    let (start, end) = (word(extent.start), word(extent.end));
    [kind, detail, start, end, start, end, word(source), word(from), word(to), 0]
}

/// Kinds of document 01.
const OPEN: u32 = 0;
const CLOSE: u32 = 1;
const COMMENT: u32 = 25;
const IDENTIFIER: u32 = 27;
const STRING: u32 = 30;
const IN_SOURCE: usize = 1;
const IN_MEMORY: usize = 2;

/// One byte too many: 20 after 25 and before 21 and 22, of blanks and of bytes that are no text.
fn refused(text: &mut [u8]) -> Count {
    let mut tally = Tally::between(SIDES, "huge refusal 20, 2^32 bytes");
    let too_long = || refuses(proved::TOO_LONG, LONGEST as u64, 0);
    let mut words = [0; NUMBER_WORDS];
    for last in [b' ', b'a', 0xFF] {
        tally.text();
        text[LONGEST] = last;
        tally.same(too_long(), read(text, PLAIN, false, 1), || format!("read, the last byte {last:#x}"));
        let unknown = refuses(proved::NO_MODE, u64::from(NO_MODE), 0);
        tally.same(unknown, read(text, NO_MODE, false, 1), || "read, no mode".into());
        let number = proved::number(text, &mut words);
        tally.same((proved::TOO_LONG, LONGEST as u64), (number, words[0]), || "number call".into());
    }
    text[0] = 0xFF;
    tally.same(too_long(), read(text, PLAIN, false, 1), || "read, the first byte bad".into());
    text[0] = b' ';
    tally.close()
}

/// The longest text: blanks and three items at its end, bytes that are no text at its end, one comment, one string.
fn served(text: &mut [u8]) -> Count {
    let mut tally = Tally::between(SIDES, "huge read, 2^32 - 1 bytes");
    let text = &mut text[..LONGEST];
    let mut same = |told: Told, text: &[u8], skip, what: &str| {
        tally.text();
        tally.same(told, read(text, PLAIN, skip, 4), || what.into());
    };
    same(serves(vec![]), text, false, "blanks");
    const END: &[u8] = b"(a)";
    let first = LONGEST - END.len();
    text[first..].copy_from_slice(END);
    let word = with_text(IDENTIFIER, 0, first + 1..first + 2, [IN_SOURCE, first + 1, first + 2]);
    let close = bare(CLOSE, 0, first + 2, LONGEST);
    let items = vec![bare(OPEN, 0, first, first + 1), inside(1, word), inside(1, close)];
    same(serves(items), text, false, "blanks, then (a)");
    text[LONGEST - 1] = 0xC3;
    same(refuses(proved::NOT_UTF8, LONGEST as u64 - 1, 0), text, false, "the last sequence cut by the end");
    text[0] = b';';
    text[LONGEST - 1] = b'"';
    same(serves(vec![bare(COMMENT, 0, 0, LONGEST)]), text, false, "one comment");
    same(serves(vec![]), text, true, "one comment, skipped");
    text[0] = b'"';
    let string = with_text(STRING, 0, 0..LONGEST, [IN_SOURCE, 1, LONGEST - 1]);
    same(serves(vec![string]), text, false, "one string");
    let number = proved::number(text, &mut [0; NUMBER_WORDS]);
    tally.same(proved::NO_NUMBER, number, || "number call, one string".into());
    tally.close()
}

/// The line index of the longest text, whole and from pieces, with newline bytes at its two ends: the last place, and the place past a final
/// newline. One byte more is 20; nothing is written then, or, from pieces, the starts before that byte.
fn line_index(text: &mut [u8]) -> Count {
    let mut tally = Tally::between(SIDES, "huge line index, 2^32 - 1 bytes and one more");
    text[0] = b'\n';
    text[LONGEST - 1] = b'\n';
    text[LONGEST] = b'\n';
    let starts = [0, 1, LONGEST as u32];
    let laid = [0, 1, LONGEST as u32, OLD];
    let told = |number, first| (number, [first, 0]);
    let longest = &text[..LONGEST];

    tally.text();
    let mut index = [OLD; 4];
    tally.same(told(lines::NO_ROOM, 3), lines::build(longest, &mut index[..2]), || "build, two words".into());
    tally.same([OLD; 4], index, || "build, two words untouched".into());
    tally.same(told(lines::SERVED, 3), lines::build(longest, &mut index), || "build".into());
    tally.same(laid, index, || "build, the starts".into());
    let column = (lines::SERVED, [2, LONGEST as u64 - 1]);
    tally.same(column, lines::locate(longest, &starts, LONGEST - 1), || "locate, the last place".into());
    let past = told(lines::NO_PLACE, LONGEST as u64 + 1);
    tally.same(past, lines::locate(longest, &starts, LONGEST + 1), || "locate, past the end".into());
    let mut found = [0; 6];
    let asked = lines::locate_all(longest, &starts, &starts, &mut found);
    tally.same(told(lines::SERVED, 3), asked, || "locate_all, the line starts".into());
    tally.same([1, 1, 2, 1, 3, 1], found, || "locate_all, the answers".into());

    tally.text();
    let mut index = [OLD; 4];
    let too_long = told(proved::TOO_LONG, LONGEST as u64);
    tally.same(too_long, lines::build(text, &mut index), || "build, one byte too many".into());
    tally.same([OLD; 4], index, || "build, nothing written".into());
    tally.same(told(lines::ALIEN, 0), lines::locate(text, &starts, 0), || "locate, one byte too many".into());
    let mut state = [0; lines::STATE_WORDS];
    lines::open(&mut state, &mut index);
    for piece in longest.chunks(1 << 30) {
        lines::piece(&mut state, piece, &mut index);
    }
    tally.same(told(lines::SERVED, 3), lines::end(&state, &index), || "pieces".into());
    tally.same(laid, index, || "pieces, the starts".into());
    lines::piece(&mut state, b"\n", &mut index);
    tally.same(too_long, lines::end(&state, &index), || "pieces, one byte too many".into());
    tally.same(laid, index, || "pieces, the starts before it".into());
    text[0] = b' ';
    text[LONGEST - 1] = b' ';
    tally.close()
}

/// As many items as there can be: 22 says so.
fn counted(text: &mut [u8]) -> Count {
    let mut tally = Tally::between(SIDES, "huge read, 2^32 - 1 items");
    tally.text();
    let text = &mut text[..LONGEST];
    text.fill(b')');
    tally.same(refuses(proved::TOO_FEW, LONGEST as u64, 0), read(text, PLAIN, false, 1), || "closing brackets".into());
    tally.close()
}

/// An item may have so many bytes.
const LONGEST_ITEM: usize = 4096;

/// Reading in pieces up to the last place, with a word as long as one may be at the end: the end call gives it; one byte more is 20, which
/// goes before 21 and 23 at that byte.
fn pieces() -> Count {
    let mut tally = Tally::between(SIDES, "huge pieces, 2^32 - 1 bytes and one more");
    tally.text();
    let mut lent = Lent::open(PLAIN, false);
    let more = |taken| Answer { taken, what: What::More };
    let mut left = LONGEST - LONGEST_ITEM;
    let blanks = vec![b' '; 1 << 20];
    while left > 0 {
        let piece = &blanks[..left.min(blanks.len())];
        tally.same(more(piece.len()), lent.piece(piece), || format!("blanks, {left} left"));
        left -= piece.len();
    }
    let word = vec![b'a'; LONGEST_ITEM];
    tally.same(more(word.len()), lent.piece(&word), || "the word".into());
    for beyond in [b'a', b' ', 0xFF] {
        let mut lent = lent.clone();
        let stop = |taken| Answer { taken, what: What::Refused(proved::TOO_LONG, LONGEST) };
        tally.same(stop(1), lent.piece(&[beyond, b' ']), || format!("one byte too many: {beyond:#x}"));
        tally.same(stop(0), lent.piece(b" "), || "the stop stands".into());
        tally.same(stop(0), lent.end(), || "the stop stands, end".into());
    }
    let record = with_text(IDENTIFIER, 0, LONGEST - LONGEST_ITEM..LONGEST, [IN_MEMORY, 0, LONGEST_ITEM]);
    tally.same(Answer { taken: 0, what: What::Item(record, word) }, lent.end(), || "the end".into());
    tally.same(Answer { taken: 0, what: What::Finished }, lent.end(), || "finished".into());
    tally.close()
}

/// Comments in a row: more than the Rust's stack holds calls.
const COMMENTS: usize = 200_000;

fn comments() -> Count {
    let mut tally = Tally::between(SIDES, "huge 200,000 comments skipped");
    for comment in [";\n", "#||#", "#|#||#|#"] {
        tally.text();
        let row = comment.repeat(COMMENTS);
        let word = with_text(IDENTIFIER, 0, row.len()..row.len() + 1, [IN_SOURCE, row.len(), row.len() + 1]);
        let text = row + "a";
        tally.same(serves(vec![word]), read(text.as_bytes(), PLAIN, true, 1), || format!("{comment:?} in a row"));
        let kept = refuses(proved::TOO_FEW, COMMENTS as u64 + 1, 0);
        tally.same(kept, read(text.as_bytes(), PLAIN, false, 1), || format!("{comment:?} in a row, kept"));
    }
    tally.close()
}
