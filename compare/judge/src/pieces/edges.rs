//! Calls that are refused for what they are lent, and rows of comments longer than the Rust's stack holds calls (A4).
use super::lent::{Lent, State};
use super::{Answer, Reads, What, OUT_OF_BOUNDS};
use crate::tally::{shown, Count, Tally};
use crate::Options;
use item::WORDS;
use proved::{NO_MODE, SERVED, STATE_BYTES, STATE_WORDS, TOO_FEW};

const PLAIN: u32 = 0;
const REPORT: u32 = 1;
const NEITHER: u32 = 2;

pub fn judge(_: &Options) -> Count {
    let mut tally = Tally::between(["01", "proved"], "edges refused piece calls");
    opening(&mut tally);
    too_few(&mut tally);
    wrong_slices(&mut tally);
    outside_bounds(&mut tally);
    forged_depths(&mut tally);
    greatest_depths(&mut tally);
    comments(&mut tally);
    tally.close()
}

/// 25 with a fresh plain state handed back; 27 for slices that are no state's, which stay as they are.
fn opening(tally: &mut Tally) {
    for skip in [false, true] {
        let (_, plain) = State::opened(PLAIN, skip);
        for mode in [NEITHER, u32::MAX] {
            tally.same((NO_MODE, plain.clone()), State::opened(mode, skip), || format!("open, mode {mode}"));
        }
        let (number, report) = State::opened(REPORT, skip);
        tally.same((SERVED, true), (number, report != plain), || "open, report mode".into());
    }
    for (room, count) in [(STATE_BYTES - 1, STATE_WORDS), (STATE_BYTES, STATE_WORDS - 1)] {
        let (mut bytes, mut words) = (vec![1; room], vec![1; count]);
        let number = proved::open(PLAIN, false, &mut bytes, &mut words);
        let kept = bytes == vec![1; room] && words == vec![1; count];
        tally.same((OUT_OF_BOUNDS, true), (number, kept), || format!("open, {room} bytes, {count} words"));
    }
}

/// 22 with 0, the bytes taken, and 1, the records needed, before anything else, for a record or values that are too short; nothing else
/// changes.
fn too_few(tally: &mut Tally) {
    for (words, count) in [(WORDS - 1, 2), (0, 2), (WORDS, 1), (WORDS, 0)] {
        let (_, state) = State::opened(PLAIN, false);
        for ends in [false, true] {
            let mut lent = state.clone();
            let (mut text, mut record, mut values) = (vec![1; STATE_BYTES], vec![1; words], vec![7; count]);
            let State { bytes, words: state_words } = &mut lent;
            let number = if ends {
                proved::end(bytes, state_words, &mut text, &mut record, &mut values)
            } else {
                proved::piece(bytes, state_words, b"(a)", &mut text, &mut record, &mut values)
            };
            let told = if count < 2 { vec![7; count] } else { vec![1, 0] };
            let kept = lent == state && text == vec![1; STATE_BYTES] && record == vec![1; words];
            let input = || format!("{words} words, {count} values, end {ends}");
            tally.same((TOO_FEW, told, true), (number, values, kept), input);
        }
    }
}

/// 27 for slices that have not as many bytes and words as a state.
fn wrong_slices(tally: &mut Tally) {
    let (_, state) = State::opened(PLAIN, false);
    for (room, count) in
        [(STATE_BYTES - 1, STATE_WORDS), (0, STATE_WORDS), (STATE_BYTES, STATE_WORDS - 1), (STATE_BYTES, 0)]
    {
        let (mut bytes, mut words) = (state.bytes[..room].to_vec(), state.words[..count].to_vec());
        let (mut text, mut record, mut values) = (vec![1; STATE_BYTES], [1; WORDS], [7; 2]);
        let number = proved::piece(&mut bytes, &mut words, b"(a)", &mut text, &mut record, &mut values);
        let kept = bytes == state.bytes[..room] && words == state.words[..count] && text == vec![1; STATE_BYTES];
        tally.same((OUT_OF_BOUNDS, [0, 0], true), (number, values, kept), || format!("{room} bytes, {count} words"));
        let number = proved::end(&mut bytes, &mut words, &mut text, &mut record, &mut values);
        tally.same((OUT_OF_BOUNDS, [0, 0]), (number, values), || format!("end, {room} bytes, {count} words"));
    }
}

/// 27 for a state in which one word is larger than any state's: none has a bound that high.
fn outside_bounds(tally: &mut Tally) {
    let refused = || Answer { taken: 0, what: What::Refused(OUT_OF_BOUNDS, 0) };
    for word in 0..STATE_WORDS {
        let (_, mut state) = State::opened(PLAIN, false);
        state.words[word] = u64::MAX;
        let mut lent = Lent::with(state);
        tally.same(refused(), lent.piece(b"(a)"), || format!("word {word} out of bounds"));
        tally.same(refused(), lent.end(), || format!("word {word} out of bounds, end"));
        tally.same(refused(), lent.piece_into_small(b""), || format!("word {word} out of bounds, small"));
    }
}

/// The words of a state that are the place past the last whole character, and the depth.
const AT: usize = 9;
const DEPTH: usize = 18;

const OPEN: u32 = 0;
const IDENTIFIER: u32 = 27;

/// A bracket as a piece call gives it.
fn open(start: u32, depth: u32) -> What {
    What::Item([OPEN, 0, start, start + 1, start, start + 1, item::NO_TEXT, 0, 0, depth], Vec::new())
}

/// An item can have no more brackets before it than bytes: a greater depth is 27, any other is served, though no call left it there.
fn forged_depths(tally: &mut Tally) {
    let mut read = Lent::open(PLAIN, false);
    for (piece, what) in [(&b"(("[..], open(0, 0)), (b"a", open(1, 1)), (b"b", What::More)] {
        tally.same(Answer { taken: piece.len(), what }, read.piece(piece), || shown(piece));
    }
    for depth in 0..5 {
        let mut state = read.state().clone();
        state.words[DEPTH] = depth;
        let word = What::Item([IDENTIFIER, 0, 2, 4, 2, 4, item::IN_MEMORY, 0, 2, depth as u32], b"ab".to_vec());
        let due = if depth <= 2 { word } else { What::Refused(OUT_OF_BOUNDS, 0) };
        tally.same(Answer { taken: 0, what: due }, Lent::with(state).end(), || format!("((ab, depth {depth} forged"));
    }
}

/// As many brackets before an item as a text has room for.
fn greatest_depths(tally: &mut Tally) {
    let mut read = Lent::open(PLAIN, false);
    tally.same(Answer { taken: 1, what: What::More }, read.piece(b" "), || "a blank".into());
    let mut state = read.state().clone();
    let start = u32::MAX - 2;
    state.words[AT] = start.into();
    state.words[DEPTH] = start.into();
    let mut deep = Lent::with(state);
    tally.same(Answer { taken: 2, what: open(start, start) }, deep.piece(b"(("), || "the last bracket but one".into());
    tally.same(Answer { taken: 0, what: open(start + 1, start + 1) }, deep.end(), || "the last bracket".into());
    tally.same(Answer { taken: 0, what: What::Finished }, deep.end(), || "the end behind it".into());
}

const COMMENTS: usize = 200_000;

fn comments(tally: &mut Tally) {
    let text = ";\n".repeat(COMMENTS) + "a";
    let (start, end) = (text.len() as u32 - 1, text.len() as u32);
    let word = What::Item([IDENTIFIER, 0, start, end, start, end, item::IN_MEMORY, 0, 1, 0], b"a".to_vec());
    let mut lent = Lent::open(PLAIN, true);
    let due = Answer { taken: text.len(), what: What::More };
    tally.same(due, lent.piece(text.as_bytes()), || "comments in a row, skipped".into());
    tally.same(Answer { taken: 0, what: word }, lent.end(), || "the word behind them".into());
    tally.same(Answer { taken: 0, what: What::Finished }, lent.end(), || "the end".into());
}
