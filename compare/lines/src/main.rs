//! `lines [SEED] [COUNT]` compares line and column with Rust's own library: `str::lines`, `str::char_indices` and `str::from_utf8`. Of
//! every family of `gen` COUNT texts (20,000) are compared, or all where it lists fewer: the index built whole and from pieces cut
//! at random, every word of the memory, every place of the text and one past its end, one question at a time and all at once, memory
//! that is too small, and indexes and states that are another text's. The last line has the counts; a difference makes the exit status
//! non-zero.
use gen::{Random, FAMILIES};
use proved::lines::{self, Answer, ALIEN, NOT_UTF8, NO_PLACE, NO_ROOM, OUT_OF_BOUNDS, SERVED, STATE_WORDS};
use std::process::ExitCode;
use std::{env, str};

/// What memory holds before a call.
const OLD: u32 = 0xAAAA_AAAA;
const OLD_FOUND: usize = usize::MAX;

/// More places than these are not asked one at a time: each question is a pass over the text.
const ASKED_SINGLY: usize = 64;

/// The answers to the places of a text, 0 to one past its end, by Rust's library.
struct Expected {
    starts: Vec<u32>,
    places: Vec<Answer>,
}

fn expected(text: &str) -> Expected {
    let newlines = text.char_indices().filter(|&(_, c)| c == '\n');
    let starts: Vec<u32> = std::iter::once(0).chain(newlines.map(|(at, _)| at as u32 + 1)).collect();
    // `lines` leaves out the empty line after a final newline, and of an empty text its only one.
    let left_out = usize::from(text.is_empty() || text.ends_with('\n'));
    assert_eq!(starts.len(), text.lines().count() + left_out, "the lines of Rust's own library");
    let mut places = vec![(NO_PLACE, [0, 0]); text.len() + 2];
    for (place, answer) in places.iter_mut().enumerate() {
        answer.1[0] = place as u64;
    }
    let (mut line, mut column) = (1, 1);
    for (at, c) in text.char_indices() {
        places[at] = (SERVED, [line, column]);
        (line, column) = if c == '\n' { (line + 1, 1) } else { (line, column + 1) };
    }
    places[text.len()] = (SERVED, [line, column]);
    Expected { starts, places }
}

#[derive(Default)]
struct Tally {
    texts: u64,
    passed: u64,
    failed: u64,
}

impl Tally {
    fn same<T: PartialEq + std::fmt::Debug>(&mut self, what: &str, text: &[u8], rust: &T, ours: &T) {
        if rust == ours {
            self.passed += 1;
        } else {
            self.failed += 1;
            if self.failed <= 20 {
                println!("{what} of {:?}: Rust {rust:?}, proved {ours:?}", String::from_utf8_lossy(text));
            }
        }
    }
}

/// The answer to a text in one piece, and the memory after it.
fn whole(text: &[u8], room: usize) -> (Answer, Vec<u32>) {
    let mut memory = vec![OLD; room];
    (lines::build(text, &mut memory), memory)
}

/// The same from pieces cut at random.
fn pieced(text: &[u8], room: usize, random: &mut Random) -> (Answer, Vec<u32>) {
    let (mut state, mut memory) = ([OLD; STATE_WORDS], vec![OLD; room]);
    lines::open(&mut state, &mut memory);
    let mut rest = text;
    while !rest.is_empty() {
        let (piece, behind) = rest.split_at(1 + random.below(rest.len().min(9)));
        lines::piece(&mut state, piece, &mut memory);
        rest = behind;
    }
    let answer = lines::end(&state, &memory);
    assert_eq!(lines::end(&state[1..], &memory).0, OUT_OF_BOUNDS, "seven words are no state");
    (answer, memory)
}

/// As many of the starts as fit, and the rest of the memory as it was.
fn laid(starts: &[u32], room: usize) -> Vec<u32> {
    starts.iter().copied().chain(std::iter::repeat(OLD)).take(room).collect()
}

fn judge_good(tally: &mut Tally, text: &str, random: &mut Random) {
    let bytes = text.as_bytes();
    let Expected { starts, places } = expected(text);
    let needed = starts.len();
    for room in [needed + 2, needed, needed - 1, 0] {
        let (answer, written) = match room < needed {
            true => ((NO_ROOM, [needed as u64, 0]), laid(&[], room)),
            false => ((SERVED, [needed as u64, 0]), laid(&starts, room)),
        };
        tally.same("build", bytes, &(answer, written), &whole(bytes, room));
        tally.same("pieces", bytes, &(answer, laid(&starts, room)), &pieced(bytes, room, random));
    }
    let asked: Vec<u32> = (0..places.len() as u32).collect();
    let mut found = vec![OLD_FOUND; 2 * asked.len() + 1];
    let numbers = places.iter().flat_map(|(number, [line, column])| match *number {
        SERVED => [*line as usize, *column as usize],
        number => [0, number as usize],
    });
    let all: Vec<usize> = numbers.chain([OLD_FOUND]).collect();
    let answer = lines::locate_all(bytes, &starts, &asked, &mut found);
    tally.same("locate_all", bytes, &((SERVED, [asked.len() as u64, 0]), &all), &(answer, &found));
    let mut small = vec![OLD_FOUND; 2 * asked.len() - 1];
    let answer = lines::locate_all(bytes, &starts, &asked, &mut small);
    let untouched = small.iter().all(|&word| word == OLD_FOUND);
    tally.same("locate_all, short", bytes, &((NO_ROOM, [2 * asked.len() as u64, 0]), true), &(answer, untouched));
    for (place, answer) in places.iter().enumerate().rev().take(ASKED_SINGLY) {
        tally.same("locate", bytes, answer, &lines::locate(bytes, &starts, place));
    }
    let other = random.below(needed);
    let mut index = starts;
    index[other] += 1;
    tally.same("locate, other index", bytes, &(ALIEN, [0, 0]), &lines::locate(bytes, &index, 0));
    index.pop();
    tally.same("locate, short index", bytes, &(ALIEN, [0, 0]), &lines::locate(bytes, &index, 0));
}

/// A text that is no UTF-8: its starts before the byte after which no valid text can follow are in the memory from pieces.
fn judge_bad(tally: &mut Tally, bytes: &[u8], error: str::Utf8Error, random: &mut Random) {
    let good = error.valid_up_to();
    let answer = (NOT_UTF8, [good as u64, 0]);
    let room = bytes.len() + 1;
    tally.same("build, bad", bytes, &(answer, laid(&[], room)), &whole(bytes, room));
    let starts = expected(str::from_utf8(&bytes[..good]).expect("the good part")).starts;
    tally.same("pieces, bad", bytes, &(answer, laid(&starts, room)), &pieced(bytes, room, random));
    tally.same("locate, bad", bytes, &(ALIEN, [0, 0]), &lines::locate(bytes, &starts, 0));
}

fn main() -> ExitCode {
    let mut words = env::args().skip(1).map(|word| word.parse::<u64>().expect("a number"));
    let seed = words.next().unwrap_or(0);
    let count = words.next().unwrap_or(20_000);
    let mut sum = Tally::default();
    for family in FAMILIES {
        let mut tally = Tally::default();
        let mut random = Random::new(seed ^ 0x6C69_6E65);
        family.each(seed, count, &mut |text| {
            tally.texts += 1;
            match str::from_utf8(text) {
                Ok(text) => judge_good(&mut tally, text, &mut random),
                Err(error) => judge_bad(&mut tally, text, error, &mut random),
            }
        });
        println!("lines {}: {} texts, {} passed, {} failed", family.name, tally.texts, tally.passed, tally.failed);
        sum.texts += tally.texts;
        sum.passed += tally.passed;
        sum.failed += tally.failed;
    }
    println!("{} texts, {} passed, {} failed", sum.texts, sum.passed, sum.failed);
    ExitCode::from(u8::from(sum.failed > 0))
}
