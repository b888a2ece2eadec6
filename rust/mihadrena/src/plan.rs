//! A plan with all that is known of it, in memory of its own.
use crate::items::read;
use crate::nested::build;
use crate::{
    needed, Error, Item, Items, LineIndex, LineRefusal, NodeRecord, Nodes, NotNested, Options, Position, Record,
    Refusal,
};
use alloc::string::String;
use alloc::vec;
use alloc::vec::Vec;
use core::fmt;
use core::ops::Range;

/// A plan that owns its text, its items, its nested lists and its lines.
///
/// ```
/// use mihadrena::{Options, Plan};
///
/// let plan = Plan::read("(stand 101\n  (corner 6892014 611208.2))", Options::report())?;
/// assert_eq!(plan.errors().count(), 0);
/// for stand in plan.nodes()?.filter(|node| node.head() == Some("stand")) {
///     let corner = stand.children().find(|node| node.head() == Some("corner")).expect("a corner");
///     let coordinates: Result<Vec<f64>, _> = corner.children().skip(1).map(|node| node.number()).collect();
///     assert_eq!(coordinates?, [6892014.0, 611208.2]);
///     assert_eq!(plan.locate(corner.item().place.start)?.to_string(), "2:3");
/// }
///
/// // Errors are told at line and column, columns in characters; the nested lists are refused at an item.
/// let plan = Plan::read("(owner |Øyvind|\n  \"bjørk\" 1/0)", Options::report())?;
/// let told: Vec<String> = plan.errors().map(|found| found.to_string()).collect();
/// assert_eq!(told, ["2:11: division by zero is not allowed in rational literals"]);
/// let refused_at = plan.nodes().unwrap_err().item().expect("an item");
/// assert_eq!(plan.position(refused_at).expect("a place").to_string(), "2:11");
/// # Ok::<(), Box<dyn std::error::Error>>(())
/// ```
#[derive(Clone, Debug)]
pub struct Plan {
    source: String,
    text: Vec<u8>,
    records: Vec<Record>,
    nodes: Result<Vec<NodeRecord>, NotNested>,
    starts: Vec<u32>,
}

impl Plan {
    /// Reads a plan: a string, or bytes that may turn out to be none.
    ///
    /// # Errors
    /// [`Refusal::TooLong`] and [`Refusal::NotUtf8`]; [`LineIndex`] shows how the latter is told at line and column.
    pub fn read(source: impl Into<Vec<u8>>, options: Options) -> Result<Self, Refusal> {
        let bytes = source.into();
        let room = needed(&bytes, options)?;
        let (mut records, mut text) = (vec![Record::default(); room.records], vec![0; room.text]);
        read(&bytes, options, &mut records, &mut text)?;
        let mut nodes = vec![NodeRecord::default(); records.len()];
        let nodes = build(&records, &mut nodes).map(|count| {
            nodes.truncate(count);
            nodes
        });
        let starts = line_starts(&bytes);
        let source = String::from_utf8(bytes).unwrap_or_else(|_| unreachable!("the library read it"));
        Ok(Self { source, text, records, nodes, starts })
    }

    /// The text that was read.
    #[must_use]
    pub fn source(&self) -> &str {
        &self.source
    }

    /// The items, errors among them.
    pub fn items(&self) -> Items<'_, '_> {
        Items::of(self.source.as_bytes(), &self.records, &self.text)
    }

    /// The nested lists.
    ///
    /// # Errors
    /// What rules a reading out, at its first item: an error, too.
    pub fn nodes(&self) -> Result<Nodes<'_, '_>, NotNested> {
        match &self.nodes {
            Ok(nodes) => Ok(Nodes::of(self.items(), nodes)),
            Err(refusal) => Err(*refusal),
        }
    }

    /// The line starts.
    #[must_use]
    pub fn lines(&self) -> LineIndex<'_> {
        LineIndex::of(self.source.as_bytes(), &self.starts)
    }

    /// Line and column of a byte place.
    ///
    /// # Errors
    /// [`LineRefusal::NoPlace`].
    pub fn locate(&self, place: usize) -> Result<Position, LineRefusal> {
        self.lines().locate(place)
    }

    /// Where an item points at, by its number; how many items there are is the end of the text, as [`NotNested::item`] has it.
    #[must_use]
    pub fn position(&self, item: usize) -> Option<Position> {
        let end = (item == self.records.len()).then_some(self.source.len());
        let place = self.records.get(item).map(|record| record.place_start as usize).or(end)?;
        self.locate(place).ok()
    }

    /// The items that are errors, each with its place in bytes and at line and column.
    pub fn errors(&self) -> impl Iterator<Item = Found> + '_ {
        self.items().filter_map(|Item { what, place, .. }| {
            let error = what.err()?;
            let position =
                self.locate(place.start).unwrap_or_else(|_| unreachable!("it points at a place of its text"));
            Some(Found { error, place, position })
        })
    }
}

/// An error of a plan, where it was found. It prints as `line:column: error`.
#[derive(Clone, Debug, PartialEq, Eq, Hash)]
#[non_exhaustive]
pub struct Found {
    /// What is wrong.
    pub error: Error,
    /// What it points at, in bytes.
    pub place: Range<usize>,
    /// Where that starts.
    pub position: Position,
}

impl fmt::Display for Found {
    fn fmt(&self, f: &mut fmt::Formatter<'_>) -> fmt::Result {
        write!(f, "{}: {}", self.position, self.error)
    }
}

impl core::error::Error for Found {
    fn source(&self) -> Option<&(dyn core::error::Error + 'static)> {
        Some(&self.error)
    }
}

/// The line starts of a text that was read: the library says how many there are, then writes them.
fn line_starts(text: &[u8]) -> Vec<u32> {
    let Err(LineRefusal::NoRoom(count)) = LineIndex::new(text, &mut []) else {
        unreachable!("a text that was read has a line start");
    };
    let mut starts = vec![0; count];
    let index = LineIndex::new(text, &mut starts);
    debug_assert!(index.is_ok(), "these are all");
    starts
}
