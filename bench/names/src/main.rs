//! The name table beside Rust's `HashMap<Vec<u8>, u32>`, for a counter of instructions: `bench_names WHAT` fills a table, or a map, and then
//! makes 500 calls; `bench_names WHAT idle` does the same without these. bench/names/run counts both and prints the difference.
//!
//! there         a name that is there, in the own half        map-there    the same of the map
//! other         a name that is there, in the other's half
//! new           a new name                                   map-new      the same of the map
//! refused       36, the own half being full
//! collide       a name that is there, all names made so that their hashes are equal
//! collide-new   a new name of that kind
//! collide-full  36 for a name of that kind, both halves being full of such names
use proved::names::{enter, open, BYTES, WORDS};
use std::collections::HashMap;
use std::env;
use std::hint::black_box;

const NAMES: usize = 500;
const HALF: usize = 512;
const SERVED: u32 = 0;
const NO_ROOM: u32 = 36;

struct Table {
    words: Vec<u32>,
    bytes: Vec<u8>,
}

impl Table {
    fn new(party: u32, names: &[Vec<u8>]) -> Self {
        let mut table = Table { words: vec![0; WORDS], bytes: vec![0; BYTES] };
        assert_eq!(open(&mut table.words, &table.bytes), SERVED);
        table.fill(party, names);
        table
    }

    fn fill(&mut self, party: u32, names: &[Vec<u8>]) {
        names.iter().for_each(|name| assert_eq!(self.ask(party, name), SERVED));
    }

    fn ask(&mut self, party: u32, name: &[u8]) -> u32 {
        let mut number = 0;
        enter(&mut self.words, &mut self.bytes, party, name, &mut number)
    }
}

/// The calls that are counted, by party 0: each must have this mark.
#[inline(never)]
fn ask_table(table: &mut Table, names: &[Vec<u8>], mark: u32) {
    names.iter().for_each(|name| assert_eq!(table.ask(0, name), mark));
}

/// The same of a map: the number of a name, or the next one.
#[inline(never)]
fn ask_map(map: &mut HashMap<Vec<u8>, u32>, names: &[Vec<u8>]) {
    for name in names {
        let next = map.len() as u32;
        let number = match map.get(name) {
            Some(&number) => number,
            None => {
                map.insert(name.clone(), next);
                next
            }
        };
        black_box(number);
    }
}

/// Names such as `Betula-pendula`, of 14 bytes on the average.
fn species(count: usize) -> Vec<Vec<u8>> {
    const GENERA: [&str; 25] = [
        "Betula", "Quercus", "Fagus", "Pinus", "Picea", "Abies", "Larix", "Acer", "Alnus", "Salix", "Populus", "Tilia",
        "Ulmus", "Carpinus", "Fraxinus", "Sorbus", "Prunus", "Malus", "Pyrus", "Juglans", "Corylus", "Ilex", "Taxus",
        "Robinia", "Castanea",
    ];
    const KINDS: [&str; 25] = [
        "pendula", "pubescens", "robur", "petraea", "sylvatica", "sylvestris", "abies", "alba", "decidua", "campestre",
        "pseudoplatanus", "glutinosa", "incana", "caprea", "tremula", "nigra", "cordata", "minor", "glabra", "betulus",
        "excelsior", "aucuparia", "avium", "torminalis", "laevis",
    ];
    let all = GENERA.iter().flat_map(|genus| KINDS.iter().map(move |kind| format!("{genus}-{kind}").into_bytes()));
    all.take(count).collect()
}

/// The hash of specs/Call.antt, of blocks of four bytes.
const FACTOR: u64 = 1_640_531_527;

/// Names of eight bytes whose hashes are all equal: the second block takes back what the first one makes.
fn colliding(count: usize) -> Vec<Vec<u8>> {
    let turn = |h: u64, x: u64| ((h + x) * FACTOR) % (1 << 32);
    let made = |first: u64| {
        let second = (1u64 << 32) - turn(0, first);
        [(first as u32).to_le_bytes(), (second as u32).to_le_bytes()].concat()
    };
    (1..=count as u64).map(made).collect()
}

fn main() {
    let words: Vec<String> = env::args().skip(1).collect();
    let what = words.first().expect("what is measured");
    let asked = if words.len() > 1 { 0 } else { NAMES };
    let names = species(NAMES);
    let strange: Vec<Vec<u8>> = names.iter().map(|name| [b"x-", name.as_slice()].concat()).collect();
    let full: Vec<Vec<u8>> = (0..HALF).map(|number| format!("stand-{number}").into_bytes()).collect();
    let made = colliding(2 * HALF + NAMES);
    let (half, more) = made.split_at(HALF);
    match what.as_str() {
        "there" => ask_table(&mut Table::new(0, &names), &names[..asked], SERVED),
        "other" => ask_table(&mut Table::new(1, &names), &names[..asked], SERVED),
        "new" => ask_table(&mut Table::new(0, &[]), &names[..asked], SERVED),
        "refused" => ask_table(&mut Table::new(0, &full), &strange[..asked], NO_ROOM),
        "collide" => ask_table(&mut Table::new(0, half), &half[..asked], SERVED),
        "collide-new" => ask_table(&mut Table::new(0, &[]), &half[..asked], SERVED),
        "collide-full" => {
            let mut table = Table::new(0, half);
            table.fill(1, &more[..HALF]);
            ask_table(&mut table, &more[HALF..][..asked], NO_ROOM);
        }
        "map-there" => ask_map(&mut names.iter().cloned().zip(0..).collect(), &names[..asked]),
        "map-new" => ask_map(&mut HashMap::new(), &names[..asked]),
        other => panic!("not measured: {other}"),
    }
}
