//! `names [TABLES] [CALLS]` compares the name table with a model of two `HashMap`s and two lists, on random calls: TABLES tables (400) of
//! CALLS calls each (4,000), each answer, what is kept on a refusal and outside the own half, and at times every number's name.
//! The model is written from the request's text alone. The last line has the counts; a difference makes the exit status non-zero.
mod random;

use proved::names::{enter, open, place, BYTES, WORDS};
use random::Random;
use std::collections::HashMap;
use std::env;
use std::process::ExitCode;

const HALF_NAMES: usize = 512;
const HALF_BYTES: usize = 16384;
const SERVED: u32 = 0;
const NO_PARTY: u32 = 35;
const NO_ROOM: u32 = 36;
const NO_NUMBER: u32 = 37;

/// Words and bytes behind the table, which no call may touch.
const SPARE: usize = 5;

/// The request's text: who entered what, in order.
#[derive(Default)]
struct Model {
    numbers: HashMap<Vec<u8>, u32>,
    names: [Vec<Vec<u8>>; 2],
    bytes: [usize; 2],
}

impl Model {
    fn enter(&mut self, party: u32, name: &[u8]) -> Result<u32, u32> {
        let Some(names) = self.names.get_mut(party as usize) else { return Err(NO_PARTY) };
        if let Some(&number) = self.numbers.get(name) {
            return Ok(number);
        }
        let used = &mut self.bytes[party as usize];
        if names.len() >= HALF_NAMES || *used + name.len() > HALF_BYTES {
            return Err(NO_ROOM);
        }
        let number = (names.len() + HALF_NAMES * party as usize) as u32;
        *used += name.len();
        names.push(name.to_vec());
        self.numbers.insert(name.to_vec(), number);
        Ok(number)
    }

    fn name(&self, number: u32) -> Result<&[u8], u32> {
        let number = number as usize;
        let names = self.names.get(number / HALF_NAMES).ok_or(NO_NUMBER)?;
        names.get(number % HALF_NAMES).map(Vec::as_slice).ok_or(NO_NUMBER)
    }
}

/// A table, its memory and the model of it.
struct Pair {
    words: Vec<u32>,
    bytes: Vec<u8>,
    model: Model,
}

impl Pair {
    /// Memory with anything in it, opened.
    fn new(random: &mut Random) -> Self {
        let mut words: Vec<u32> = (0..WORDS + SPARE).map(|_| random.next() as u32).collect();
        let bytes: Vec<u8> = (0..BYTES + SPARE).map(|_| random.next() as u8).collect();
        assert_eq!(open(&mut words, &bytes), SERVED);
        Pair { words, bytes, model: Model::default() }
    }

    /// One call of both: whether they agree, and nothing else changed.
    fn enter(&mut self, party: u32, name: &[u8]) -> bool {
        let before = (self.words.clone(), self.bytes.clone());
        let mut number = 7;
        let mark = enter(&mut self.words, &mut self.bytes, party, name, &mut number);
        let answer = if mark == SERVED { Ok(number) } else { Err(mark) };
        let kept = |word: usize, byte: usize| {
            self.words[word * WORDS / 2..][..WORDS / 2] == before.0[word * WORDS / 2..][..WORDS / 2]
                && self.bytes[byte * HALF_BYTES..][..HALF_BYTES] == before.1[byte * HALF_BYTES..][..HALF_BYTES]
        };
        let behind = self.words[WORDS..] == before.0[WORDS..] && self.bytes[BYTES..] == before.1[BYTES..];
        let own_may_change = answer.is_ok() && party < 2;
        let halves = (0..2).all(|half| (own_may_change && half == party as usize) || kept(half, half));
        answer == self.model.enter(party, name) && (mark == SERVED || number == 0) && behind && halves
    }

    /// Whether every number, and some that are none, has the model's name.
    fn names_agree(&self) -> bool {
        (0..2 * HALF_NAMES as u32 + 6).chain([u32::MAX]).all(|number| {
            let (mut start, mut end) = (7, 7);
            let mark = place(&self.words, &self.bytes, number, &mut start, &mut end);
            let answer = if mark == SERVED { Ok(&self.bytes[start..end]) } else { Err(mark) };
            answer == self.model.name(number) && (mark == SERVED || (start, end) == (0, 0))
        })
    }
}

/// A name of eight bytes whose hash is 0, by the hash of specs/Call.antt: the second block of four takes back what the first one makes. More of
/// them than 64 do not find room in the index, and are found by reading the names.
fn colliding(number: u32) -> Vec<u8> {
    const FACTOR: u32 = 1_640_531_527;
    let second = number.wrapping_mul(FACTOR).wrapping_neg();
    [number.to_le_bytes(), second.to_le_bytes()].concat()
}

/// A random name of one of several kinds: few or many, short or long, alike or not, made to collide.
fn name(random: &mut Random, kind: u64) -> Vec<u8> {
    match kind {
        0 => format!("n{}", random.below(700)).into_bytes(),
        1 => format!("Betula-pendula-{:04}", random.below(2000)).into_bytes(),
        2 => (0..random.below(40)).map(|_| random.below(3) as u8).collect(),
        3 => vec![b'a' + random.below(2) as u8; random.below(700) as usize],
        4 => colliding(random.below(1200) as u32),
        _ => (0..random.below(6)).map(|_| random.next() as u8).collect(),
    }
}

fn main() -> ExitCode {
    let mut words = env::args().skip(1).map(|word| word.parse::<u64>().expect("a number"));
    let tables = words.next().unwrap_or(400);
    let calls = words.next().unwrap_or(4000);
    let (mut different, mut compared) = (0u64, 0u64);
    for table in 0..tables {
        let mut random = Random::new(table);
        let mut pair = Pair::new(&mut random);
        for call in 0..calls {
            let party = if random.below(50) == 0 { random.next() as u32 } else { random.below(2) as u32 };
            let kind = if table % 7 == 6 { random.below(6) } else { table % 7 };
            let name = name(&mut random, kind);
            different += u64::from(!pair.enter(party, &name));
            compared += 1;
            if call % 500 == 499 {
                different += u64::from(!pair.names_agree());
            }
        }
    }
    println!("names: {compared} calls in {tables} tables, {different} different");
    if different == 0 {
        ExitCode::SUCCESS
    } else {
        ExitCode::FAILURE
    }
}
