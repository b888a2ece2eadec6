//! The piece calls against what document 01 makes of the Rust's reading of the whole text (due.rs): every answer of every call, with the
//! bytes that it takes. Each text is handed over whole, byte by byte and cut at random (some pieces empty, some cut inside a
//! character), in both modes, with comments kept and skipped; then the end is declared, and calls go on past the last answer.
//! The text memory, the record and, where a call is refused, the state are compared whole.
mod due;
pub mod edges;
mod lent;

use crate::lexer::MODES;
use crate::tally::{shown, Count, Tally};
use crate::Options;
use due::Due;
use gen::Random;
use item::Record;
pub use lent::Lent;

const FAMILIES: &[&str] = &[
    "short", "escapes", "hashes", "digits", "characters", "here", "comments", "brackets", "bars", "long",
    "delimiters", "reals", "nests", "plans", "damaged", "bad",
];

/// So many texts of a random family at most: byte by byte they take their time.
const MOST: u64 = 250_000;

/// Refusals of 01 that are met here.
pub const NOT_UTF8: u32 = 21;
pub const LONG_ITEM: u32 = 23;
const LITTLE_TEXT: u32 = 24;
const AFTER_END: u32 = 26;
const OUT_OF_BOUNDS: u32 = 27;

pub fn judge(options: &Options) -> Count {
    let mut count = Count::default();
    for name in options.wanted(FAMILIES) {
        let mut tally = Tally::between(["01", "proved"], format!("pieces {name}"));
        let mut random = Random::new(options.seed);
        let most = if gen::family(name).is_some_and(|family| family.lists) { u64::MAX } else { MOST };
        options.each(name, most, &mut |text| same(&mut tally, &mut random, text));
        count.add(tally.close());
    }
    count
}

/// What a call answers: the bytes taken, and what it gives.
#[derive(Clone, Debug, PartialEq)]
pub struct Answer {
    pub taken: usize,
    pub what: What,
}

#[derive(Clone, Debug, PartialEq)]
pub enum What {
    /// An item and its text.
    Item(Record, Vec<u8>),
    More,
    Finished,
    Refused(u32, usize),
    /// Memory was changed that must stay.
    Overwrote,
}

/// A reader of pieces: the one that is due, and the proved one.
pub trait Reads {
    fn piece(&mut self, bytes: &[u8]) -> Answer;
    fn end(&mut self) -> Answer;
    /// The same calls with a byte too little of text memory.
    fn piece_into_small(&mut self, bytes: &[u8]) -> Answer;
    fn end_into_small(&mut self) -> Answer;
}

fn same(tally: &mut Tally, random: &mut Random, text: &[u8]) {
    tally.text();
    for (mode, read) in MODES {
        for skip in [false, true] {
            let Some(due) = Due::of(read, text, skip, tally) else {
                continue;
            };
            let seed = random.next();
            for cutting in [Cutting::Whole, Cutting::Bytes, Cutting::Random] {
                let expected = drive(&mut due.clone(), text, cutting, seed);
                let given = drive(&mut Lent::open(mode, skip), text, cutting, seed);
                // Of many answers the first that differs is told, if one does.
                let at = expected.iter().zip(&given).take_while(|(one, other)| one == other).count();
                let input = || format!("mode {mode}, skip {skip}, {cutting:?}, call {at}, {}", shown(text));
                tally.same(expected.get(at), given.get(at), input);
            }
        }
    }
}

/// How a text is cut into pieces.
#[derive(Clone, Copy, Debug)]
pub enum Cutting {
    Whole,
    Bytes,
    Random,
}

impl Cutting {
    /// The pieces of a text.
    fn pieces<'a>(&self, text: &'a [u8], random: &mut Random) -> Vec<&'a [u8]> {
        match self {
            Cutting::Whole => vec![text],
            Cutting::Bytes => text.chunks(1).collect(),
            Cutting::Random => {
                let mut pieces = Vec::new();
                let mut rest = text;
                while !rest.is_empty() {
                    let (piece, behind) = rest.split_at(length(random).min(rest.len()));
                    pieces.push(piece);
                    rest = behind;
                }
                pieces.push(rest);
                pieces
            }
        }
    }
}

/// The length of a piece: mostly a few bytes, at times none or many.
fn length(random: &mut Random) -> usize {
    match random.below(8) {
        0 | 1 => 0,
        2 => 1 + random.below(5000),
        _ => 1 + random.below(9),
    }
}

/// More calls than any reader needs that takes what it must.
fn too_many(text: &[u8]) -> usize {
    4 * text.len() + 64
}

/// Hands over the pieces, each until it is all taken or, at times, until "more"; then the end, until it is finished; then some calls
/// more. At times a call comes with too little text memory, or a piece after the end.
pub fn drive(reader: &mut impl Reads, text: &[u8], cutting: Cutting, seed: u64) -> Vec<Answer> {
    let mut random = Random::new(seed);
    let mut answers = Vec::new();
    for piece in cutting.pieces(text, &mut random) {
        if random.once_in(16) {
            answers.push(reader.piece_into_small(piece));
        }
        hand_over(reader, piece, random.once_in(2), too_many(text), &mut answers);
    }
    while answers.len() < too_many(text) {
        let answer = reader.end();
        let over = matches!(answer.what, What::Finished | What::Refused(..));
        answers.push(answer);
        if over {
            break;
        }
        if random.once_in(4) {
            answers.push(reader.piece(text));
        }
    }
    answers.extend([reader.piece(text), reader.piece(&[]), reader.end(), reader.piece_into_small(text)]);
    answers.extend([reader.end_into_small(), reader.end()]);
    answers
}

/// Hands a piece over until it is all taken; an eager caller asks on until nothing is ready.
fn hand_over(reader: &mut impl Reads, piece: &[u8], eager: bool, most: usize, answers: &mut Vec<Answer>) {
    let mut rest = piece;
    loop {
        let answer = reader.piece(rest);
        rest = rest.get(answer.taken..).unwrap_or_default();
        let over = match answer.what {
            What::Item(..) => rest.is_empty() && !eager,
            _ => true,
        };
        answers.push(answer);
        if over || answers.len() > most {
            return;
        }
    }
}
