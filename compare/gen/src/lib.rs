//! Texts to compare readers on. A family makes its texts in an order fixed by its seed, so that a text can be made again.
mod damage;
mod delimiter;
mod frame;
mod long;
mod nest;
mod plan;
mod random;
mod real;
mod short;

pub use frame::{read_frame, write_frame};
pub use random::Random;

/// Takes the texts of a family, one after the other, until it has enough of them.
pub struct Sink<'a> {
    left: u64,
    take: &'a mut dyn FnMut(&[u8]),
}

impl Sink<'_> {
    /// Hands a text on. Says whether more are wanted.
    fn put(&mut self, text: &[u8]) -> bool {
        if self.left == 0 {
            return false;
        }
        self.left -= 1;
        (self.take)(text);
        self.left > 0
    }
}

/// A named family of texts.
pub struct Family {
    pub name: &'static str,
    pub about: &'static str,
    /// Whether it lists all its texts and ends, or draws them at random for ever.
    pub lists: bool,
    make: Make,
}

impl Family {
    /// Hands at most `count` texts of the family to `take`. One that lists needs no seed.
    pub fn each(&self, seed: u64, count: u64, take: &mut dyn FnMut(&[u8])) {
        (self.make)(&mut Random::new(seed), &mut Sink { left: count, take });
    }
}

type Make = fn(&mut Random, &mut Sink);

const fn lists(name: &'static str, about: &'static str, make: Make) -> Family {
    Family { name, about, lists: true, make }
}

const fn draws(name: &'static str, about: &'static str, make: Make) -> Family {
    Family { name, about, lists: false, make }
}

pub const FAMILIES: &[Family] = &[
    lists("short", "all texts of up to 4 of 35 characters that the lexer tells apart", short::texts),
    lists("escapes", "all beginnings of an escape in \"..\" and |..|, up to 4 of 22 characters more", short::escapes),
    lists("hashes", "# and up to 4 of 31 characters", short::hashes),
    lists(
        "digits",
        "hex digits in every form that has them, about 32 bits long, and up to 3 of 13 characters more",
        short::digits,
    ),
    lists("characters", "#\\ and up to 5 of 12 characters", short::characters),
    lists("here", "#<< and up to 7 of 8 characters", short::here),
    lists("comments", "all texts of up to 8 of 6 characters that make comments", short::comments),
    lists("brackets", "all texts of up to 6 of 10 brackets, comments, words and strings", short::brackets),
    lists("numbers", "all texts of up to 6 of 17 characters that make numbers", short::numbers),
    lists(
        "bars",
        "all texts of up to 5 of 16 characters that make number runs and what ends them, vertical lines among it",
        short::bars,
    ),
    lists("bytes", "all byte sequences of up to 3 bytes", short::bytes),
    lists("long", "every kind of item, 4,090 to 4,102 bytes long", long::texts),
    draws("reals", "numbers by their grammar, some damaged", real::texts),
    draws("nests", "brackets of every shape, up to some hundred deep, and closes too many", nest::texts),
    draws(
        "delimiters",
        "here-strings whose delimiters repeat themselves, up to some thousand bytes, with bodies of their beginnings",
        delimiter::texts,
    ),
    draws("plans", "felling plans by their grammar", plan::texts),
    draws("damaged", "plans with some characters lost, added or changed", damage::characters),
    draws("bad", "plans with some bytes lost, added or changed: mostly no UTF-8", damage::bytes),
];

/// The family of a name.
pub fn family(name: &str) -> Option<&'static Family> {
    FAMILIES.iter().find(|family| family.name == name)
}
