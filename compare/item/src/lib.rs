//! Items as document 01 writes them down, whoever read them: the words of a record, its depth (02, (vi)) the last of them, the text memory,
//! the parts of a number.
//! Both judge and judged are put into these types, so that a comparison is `==`.
use std::fmt;

mod number;
pub use number::{Int, Number, Real};

/// The words of a record: 01's, in its order, and the depth.
pub const WORDS: usize = 10;
pub type Record = [u32; WORDS];

/// Which of them is the depth.
pub const DEPTH: usize = 9;

/// Where a record's text lies: its seventh word.
pub const NO_TEXT: u32 = 0;
pub const IN_SOURCE: u32 = 1;
pub const IN_MEMORY: u32 = 2;

/// One item: its record and, for a Number, its parts.
#[derive(Clone, Debug, PartialEq)]
pub struct Item {
    pub record: Record,
    pub number: Option<Number>,
}

/// What a whole text is read as: the items, and the text memory that their decoded texts fill in order.
#[derive(Clone, Debug, Default, PartialEq)]
pub struct Reading {
    pub items: Vec<Item>,
    pub memory: Vec<u8>,
}

impl Reading {
    pub fn clear(&mut self) {
        self.items.clear();
        self.memory.clear();
    }

    /// The text of an item of this reading of `source`; none if it has none.
    pub fn text<'a>(&'a self, source: &'a [u8], item: &Item) -> Option<&'a [u8]> {
        let [.., place, start, end, _depth] = item.record;
        let range = start as usize..end as usize;
        match place {
            IN_SOURCE => source.get(range),
            IN_MEMORY => self.memory.get(range),
            _ => None,
        }
    }

    /// The reading as lines, one an item: the record's words, the text in hex (`-` for none), the number's parts if it is one.
    pub fn lines<'a>(&'a self, source: &'a [u8]) -> Lines<'a> {
        Lines { reading: self, source }
    }
}

/// Prints a reading; see `Reading::lines`.
pub struct Lines<'a> {
    reading: &'a Reading,
    source: &'a [u8],
}

impl fmt::Display for Lines<'_> {
    fn fmt(&self, f: &mut fmt::Formatter<'_>) -> fmt::Result {
        for item in &self.reading.items {
            for word in item.record {
                write!(f, "{word} ")?;
            }
            match self.reading.text(self.source, item) {
                None => write!(f, "-")?,
                Some(text) => write!(f, "x{}", hex(text))?,
            }
            if let Some(number) = &item.number {
                write!(f, " {number}")?;
            }
            writeln!(f)?;
        }
        Ok(())
    }
}

/// Bytes as hex digits, two a byte.
pub fn hex(bytes: &[u8]) -> String {
    bytes.iter().map(|byte| format!("{byte:02x}")).collect()
}
