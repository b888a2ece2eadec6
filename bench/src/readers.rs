//! What is measured: each reader reads a whole text once, and answers how many items it met. Memory is cleared before the first
//! reading, and not between two. Callgrind counts in the functions named here and in what they call, and nowhere else.
use proved::RECORD_WORDS;
use std::hint::black_box;

/// A reader with its memory, ready to read one text as often as wanted. It answers how many items it met; none if it is refused, as piece
/// calls are for an item of more than 4,096 bytes.
pub type Run<'a> = Box<dyn FnMut() -> Option<u64> + 'a>;

pub struct Reader {
    pub name: &'static str,
    /// The column's head.
    pub title: &'static str,
    /// The functions in which instructions are counted.
    pub inside: &'static [&'static str],
    pub ready: for<'a> fn(&'a str) -> Run<'a>,
}

const READ: &[&str] = &["mihadrena_read"];
const PIECES: &[&str] = &["mihadrena_piece", "mihadrena_end"];
const RUST_READ: &[&str] = &["rust_read"];
const BARE_READ: &[&str] = &["bare_read"];

/// The readers of a text, whole or in pieces.
pub const READERS: &[Reader] = &[
    Reader { name: "ample", title: "ample", inside: READ, ready: |text| ample(text, PLAIN) },
    Reader { name: "counted", title: "counted", inside: READ, ready: |text| counted(text, PLAIN) },
    Reader { name: "report-ample", title: "report: ample", inside: READ, ready: |text| ample(text, REPORT) },
    Reader { name: "report-counted", title: "counted", inside: READ, ready: |text| counted(text, REPORT) },
    Reader { name: "pieces-4096", title: "pieces of 4,096", inside: PIECES, ready: |text| pieces(text, PLAIN, 4096) },
    Reader { name: "report-4096", title: "in report mode", inside: PIECES, ready: |text| pieces(text, REPORT, 4096) },
    Reader { name: "pieces-512", title: "of 512", inside: PIECES, ready: |text| pieces(text, PLAIN, 512) },
    Reader { name: "pieces-64", title: "of 64", inside: PIECES, ready: |text| pieces(text, PLAIN, 64) },
    Reader { name: "pieces-1", title: "of 1", inside: PIECES, ready: |text| pieces(text, PLAIN, 1) },
    Reader {
        name: "rust",
        title: "the Rust as published",
        inside: RUST_READ,
        ready: |text| Box::new(|| Some(rust_read(text))),
    },
    Reader {
        name: "bare",
        title: "without interning",
        inside: BARE_READ,
        ready: |text| Box::new(|| Some(bare_read(text))),
    },
];

/// The piece calls, each lent all that is left of the text.
pub const ONE_PIECE: Reader =
    Reader { name: "one-piece", title: "one piece", inside: PIECES, ready: |text| pieces(text, PLAIN, text.len()) };

/// The checks for UTF-8; none has items.
pub const CHECKS: &[Reader] = &[
    Reader { name: "check", title: "UTF-8 check", inside: &["mihadrena_good_bytes"], ready: check },
    Reader { name: "from_utf8", title: "Rust's `from_utf8`", inside: &["rust_check"], ready: rust_checks },
];

/// The number calls, on each number of a text; their items are the numbers.
pub const NUMBERS: &[Reader] = &[
    Reader { name: "number", title: "number call", inside: &["mihadrena_number"], ready: number },
    Reader { name: "by-standard", title: "by the standard", inside: &["mihadrena_number_by"], ready: by_standard },
    Reader { name: "rust-number", title: "the Rust's", inside: &["rust_number"], ready: rust_numbers },
];

/// Building the index of line starts, and counting newline bytes; their items are the line starts.
pub const LINES: &[Reader] = &[
    Reader { name: "lines", title: "index of lines", inside: &["mihadrena_lines"], ready: lines },
    Reader {
        name: "lines-counted",
        title: "in as many words as lines",
        inside: &["mihadrena_lines"],
        ready: lines_counted,
    },
    Reader {
        name: "lines-pieces",
        title: "in pieces of 4,096",
        inside: &["mihadrena_lines_piece", "mihadrena_lines_end"],
        ready: lines_pieces,
    },
    Reader { name: "rust-count", title: "Rust's count of newline bytes", inside: &["rust_count"], ready: rust_counts },
    Reader {
        name: "rust-lines",
        title: "Rust's `from_utf8` and line starts",
        inside: &["rust_starts"],
        ready: rust_lines,
    },
];

pub fn named(name: &str) -> Option<&'static Reader> {
    [READERS, CHECKS, NUMBERS, LINES, &[ONE_PIECE]].into_iter().flatten().find(|reader| reader.name == name)
}

/// The modes. The Rust has the first alone.
const PLAIN: u32 = 0;
const REPORT: u32 = 1;

/// A whole-text call into so many records and bytes of text memory.
fn whole(text: &str, mode: u32, items: usize, bytes: usize) -> Run<'_> {
    let mut records = vec![0; items * RECORD_WORDS];
    let mut memory = vec![0; bytes];
    let mut values = [0; 2];
    Box::new(move || {
        let answer = proved::read(text.as_bytes(), mode, false, &mut records, &mut memory, &mut values);
        (answer == proved::SERVED).then_some(values[0])
    })
}

/// A record and a byte of text memory for each byte of the text: items never outnumber bytes, so that the call need not count first.
fn ample(text: &str, mode: u32) -> Run<'_> {
    whole(text, mode, text.len(), text.len())
}

/// A byte less than ample: enough, but the call must count to know it.
fn counted(text: &str, mode: u32) -> Run<'_> {
    whole(text, mode, text.len(), text.len() - 1)
}

/// What a piece call is lent beside a state: the least text memory, a record and its values.
struct Lent {
    bytes: [u8; proved::STATE_BYTES],
    words: [u64; proved::STATE_WORDS],
    text: [u8; proved::STATE_BYTES],
    record: [u32; RECORD_WORDS],
    values: [u64; 2],
}

/// A text in pieces of so many bytes.
fn pieces(text: &str, mode: u32, length: usize) -> Run<'_> {
    let mut lent = Box::new(Lent {
        bytes: [0; proved::STATE_BYTES],
        words: [0; proved::STATE_WORDS],
        text: [0; proved::STATE_BYTES],
        record: [0; RECORD_WORDS],
        values: [0; 2],
    });
    Box::new(move || {
        let Lent { bytes, words, text: memory, record, values } = &mut *lent;
        assert_eq!(proved::open(mode, false, bytes, words), proved::SERVED);
        let mut items = 0;
        for piece in text.as_bytes().chunks(length) {
            let mut rest = piece;
            while !rest.is_empty() {
                let answer = proved::piece(bytes, words, rest, memory, record, values);
                match answer {
                    proved::ITEM => items += 1,
                    proved::MORE => (),
                    _ => return None,
                }
                rest = &rest[values[1] as usize..];
            }
        }
        while proved::end(bytes, words, memory, record, values) == proved::ITEM {
            items += 1;
        }
        Some(items)
    })
}

#[no_mangle]
#[inline(never)]
fn rust_read(text: &str) -> u64 {
    steel::run(text)
}

#[no_mangle]
#[inline(never)]
fn bare_read(text: &str) -> u64 {
    steel_bare::run(text)
}

fn check(text: &str) -> Run<'_> {
    Box::new(|| {
        assert_eq!(proved::good_bytes(text.as_bytes()), text.len());
        Some(0)
    })
}

fn rust_checks(text: &str) -> Run<'_> {
    Box::new(|| {
        assert!(rust_check(text.as_bytes()));
        Some(0)
    })
}

#[no_mangle]
#[inline(never)]
fn rust_check(text: &[u8]) -> bool {
    core::str::from_utf8(black_box(text)).is_ok()
}

/// The numbers of a text.
pub fn numbers_of(text: &str) -> Vec<&str> {
    const NUMBER: u32 = 29;
    let mut records = vec![0; text.len() * RECORD_WORDS];
    let mut values = [0; 2];
    proved::read(text.as_bytes(), PLAIN, false, &mut records, &mut vec![0; text.len()], &mut values);
    let records = records.chunks_exact(RECORD_WORDS).take(values[0] as usize);
    records.filter(|record| record[0] == NUMBER).map(|record| &text[record[2] as usize..record[3] as usize]).collect()
}

fn number(text: &str) -> Run<'_> {
    let numbers = numbers_of(text);
    let mut words = [0; proved::NUMBER_WORDS];
    Box::new(move || {
        numbers.iter().for_each(|number| assert_eq!(proved::number(number.as_bytes(), &mut words), proved::A_NUMBER));
        Some(numbers.len() as u64)
    })
}

fn by_standard(text: &str) -> Run<'_> {
    let numbers = numbers_of(text);
    let mut words = [0; proved::NUMBER_WORDS];
    Box::new(move || {
        for number in &numbers {
            assert_eq!(proved::number_by(proved::STANDARD, number.as_bytes(), &mut words), proved::A_NUMBER);
        }
        Some(numbers.len() as u64)
    })
}

fn rust_numbers(text: &str) -> Run<'_> {
    let numbers = numbers_of(text);
    Box::new(move || {
        numbers.iter().for_each(|number| assert!(rust_number(number)));
        Some(numbers.len() as u64)
    })
}

#[no_mangle]
#[inline(never)]
fn rust_number(text: &str) -> bool {
    steel::run_number(text)
}

fn lines(text: &str) -> Run<'_> {
    lines_into(text, text.len() + 1)
}

/// Memory that is no longer than the text has its lines counted first.
fn lines_counted(text: &str) -> Run<'_> {
    lines_into(text, rust_count(text.as_bytes()) as usize)
}

fn lines_into(text: &str, words: usize) -> Run<'_> {
    let mut index = vec![0; words];
    Box::new(move || {
        let (answer, [count, _]) = proved::lines::build(text.as_bytes(), &mut index);
        (answer == proved::lines::SERVED).then_some(count)
    })
}

fn lines_pieces(text: &str) -> Run<'_> {
    let mut index = vec![0; text.len() + 1];
    let mut state = [0; proved::lines::STATE_WORDS];
    Box::new(move || {
        proved::lines::open(&mut state, &mut index);
        text.as_bytes().chunks(4096).for_each(|piece| proved::lines::piece(&mut state, piece, &mut index));
        let (answer, [count, _]) = proved::lines::end(&state, &index);
        (answer == proved::lines::SERVED).then_some(count)
    })
}

fn rust_counts(text: &str) -> Run<'_> {
    Box::new(|| Some(rust_count(text.as_bytes())))
}

/// As `memchr` counts: one more than the newline bytes.
#[no_mangle]
#[inline(never)]
fn rust_count(text: &[u8]) -> u64 {
    1 + black_box(text).iter().filter(|&&byte| byte == b'\n').count() as u64
}

fn rust_lines(text: &str) -> Run<'_> {
    let mut index = vec![0; text.len() + 1];
    Box::new(move || Some(rust_starts(text.as_bytes(), &mut index)))
}

/// What the call does, in the shortest Rust: the check for UTF-8, and the place after each newline byte.
#[no_mangle]
#[inline(never)]
fn rust_starts(text: &[u8], index: &mut [u32]) -> u64 {
    let text = std::str::from_utf8(black_box(text)).expect("UTF-8");
    let mut count = 1;
    index[0] = 0;
    for (at, _) in text.match_indices('\n') {
        index[count] = at as u32 + 1;
        count += 1;
    }
    count as u64
}
