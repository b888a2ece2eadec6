//! The nested lists of a text, as a tree over lent nodes.
use crate::raw;
use crate::{record_value, Item, Items, NoCoordinate, NodeRecord, Record};
use core::fmt;
use core::iter::FusedIterator;

/// What a node is. A datum that `#;` drops, a comment and a dot leave no node.
#[derive(Clone, Copy, Debug, PartialEq, Eq, Hash)]
pub enum NodeKind {
    /// `#t`
    Boolean,
    /// `1`
    Number,
    /// `#\a`
    Character,
    /// `""`
    String,
    /// `a`: an identifier, a keyword, or a word such as `if`
    Symbol,
    /// `()`, in any of the three brackets
    List,
    /// `(a . a)`: its last child is the datum behind the dot
    DottedList,
    /// `#()`
    Vector,
    /// `#u8()`
    ByteList,
    /// `'a`: a quoting mark, its child is its datum; its item tells which of the eight
    Mark,
}

impl NodeKind {
    fn of(kind: u32) -> Self {
        match kind {
            raw::NODE_BOOLEAN => Self::Boolean,
            raw::NODE_NUMBER => Self::Number,
            raw::NODE_CHARACTER => Self::Character,
            raw::NODE_STRING => Self::String,
            raw::NODE_SYMBOL => Self::Symbol,
            raw::NODE_LIST => Self::List,
            raw::NODE_DOTTED_LIST => Self::DottedList,
            raw::NODE_VECTOR => Self::Vector,
            raw::NODE_BYTE_LIST => Self::ByteList,
            raw::NODE_MARK => Self::Mark,
            _ => unreachable!("the library writes no other kind"),
        }
    }
}

/// Items that are no sequence of data, at the first one that rules a reading out; at the end, how many items there are.
#[derive(Clone, Copy, Debug, PartialEq, Eq, Hash)]
#[non_exhaustive]
pub enum NotNested {
    /// The end with a bracket open: `(`
    BracketOpen(usize),
    /// A wrong or stray close: `)`
    WrongClose(usize),
    /// A dot outside a list, a second one, one without a datum before it, or not exactly one datum behind it: `.`
    MisplacedDot(usize),
    /// A close, a dot or the end where a mark waits for its datum: `'`
    MarkWaits(usize),
    /// A bracket, a mark or `#;` inside 64 others.
    TooDeep(usize),
    /// An error: `##`
    ErrorItem(usize),
    /// The nodes do not fit. As many as there are items always do.
    FewNodes,
}

impl NotNested {
    /// The refusal of an answer that is not `SERVED`, with its value.
    fn of(answer: u32, item: usize) -> Self {
        match answer {
            raw::BRACKET_OPEN => Self::BracketOpen(item),
            raw::WRONG_CLOSE => Self::WrongClose(item),
            raw::MISPLACED_DOT => Self::MisplacedDot(item),
            raw::MARK_WAITS => Self::MarkWaits(item),
            raw::TOO_DEEP => Self::TooDeep(item),
            raw::ERROR_ITEM => Self::ErrorItem(item),
            raw::FEW_NODES => Self::FewNodes,
            _ => unreachable!(
                "the library's own records, and those that are taken as its own, are refused for nothing else"
            ),
        }
    }

    /// The number of the refusal.
    #[must_use]
    pub const fn number(self) -> u32 {
        match self {
            Self::BracketOpen(_) => raw::BRACKET_OPEN,
            Self::WrongClose(_) => raw::WRONG_CLOSE,
            Self::MisplacedDot(_) => raw::MISPLACED_DOT,
            Self::MarkWaits(_) => raw::MARK_WAITS,
            Self::TooDeep(_) => raw::TOO_DEEP,
            Self::ErrorItem(_) => raw::ERROR_ITEM,
            Self::FewNodes => raw::FEW_NODES,
        }
    }

    /// The item at which it is refused, at the end how many items there are; none of [`NotNested::FewNodes`].
    ///
    /// ```
    /// use mihadrena::NotNested;
    ///
    /// assert_eq!((NotNested::WrongClose(3).item(), NotNested::FewNodes.item()), (Some(3), None));
    /// ```
    #[must_use]
    pub const fn item(self) -> Option<usize> {
        match self {
            Self::BracketOpen(item)
            | Self::WrongClose(item)
            | Self::MisplacedDot(item)
            | Self::MarkWaits(item)
            | Self::TooDeep(item)
            | Self::ErrorItem(item) => Some(item),
            Self::FewNodes => None,
        }
    }
}

impl fmt::Display for NotNested {
    fn fmt(&self, f: &mut fmt::Formatter<'_>) -> fmt::Result {
        match self {
            Self::BracketOpen(_) => write!(f, "a bracket is open at the end"),
            Self::WrongClose(item) => write!(f, "item {item} closes nothing or another bracket"),
            Self::MisplacedDot(item) => write!(f, "a dot is misplaced, item {item}"),
            Self::MarkWaits(item) => write!(f, "a mark has no datum, item {item}"),
            Self::TooDeep(item) => write!(f, "item {item} lies deeper than {} levels", raw::DEEPEST),
            Self::ErrorItem(item) => write!(f, "item {item} is an error"),
            Self::FewNodes => write!(f, "too few nodes"),
        }
    }
}

impl core::error::Error for NotNested {}

/// The data of a text, from items of which none was taken yet. As many nodes as there are items are always enough. The nodes are lent as
/// long as the data live, with the records (`'r`); a name that is taken from them lives as long as the source and the text memory (`'t`).
///
/// ```
/// use mihadrena::{nest, Items, Node, NodeRecord, Options, Record};
///
/// /// The names of the lists, each beneath the one that it lies in.
/// fn outline(node: &Node, indent: usize, out: &mut String) {
///     if let Some(name) = node.head() {
///         *out += &format!("{:indent$}{name}\n", "");
///     }
///     node.children().for_each(|child| outline(&child, indent + 2, out));
/// }
///
/// let plan = std::fs::read("../../examples/plan.scm")?;
/// let mut records = vec![Record::default(); plan.len()];
/// let mut text = vec![0; plan.len()];
/// let items = Items::new(&plan, Options::report(), &mut records, &mut text)?;
/// let mut nodes = vec![NodeRecord::default(); items.len()];
/// let mut out = String::new();
/// nest(&items, &mut nodes)?.for_each(|node| outline(&node, 0, &mut out));
/// assert!(out.starts_with(
///     "plan
///   owner
///   zone
///   stand
///     species
///     volume
///     outline
///       corner
///       corner
///       corner
///       corner
///     note
///   stand
/// "
/// ));
/// # Ok::<(), Box<dyn std::error::Error>>(())
/// ```
///
/// # Errors
/// What rules a reading out, at its first item; last [`NotNested::FewNodes`].
pub fn nest<'t, 'r>(items: &Items<'t, 'r>, nodes: &'r mut [NodeRecord]) -> Result<Nodes<'t, 'r>, NotNested> {
    let count = build(items.records(), nodes)?;
    Ok(Nodes::of(items.clone(), &nodes[..count]))
}

/// Writes the nodes of records; answers how many.
pub(crate) fn build(records: &[Record], nodes: &mut [NodeRecord]) -> Result<usize, NotNested> {
    let mut values = [0; raw::NEST_VALUES];
    // SAFETY: each pointer and length is those of a slice, the mutable ones are borrowed as such, a record is RECORD_WORDS words and a node
    // NODE_WORDS.
    let answer = unsafe {
        raw::mihadrena_nest(
            records.as_ptr().cast(),
            records.len() * raw::RECORD_WORDS,
            nodes.as_mut_ptr().cast(),
            nodes.len() * raw::NODE_WORDS,
            values.as_mut_ptr(),
            values.len(),
        )
    };
    let value = values[0] as usize;
    match answer {
        raw::SERVED => Ok(value),
        _ => Err(NotNested::of(answer, value)),
    }
}

/// Data that stand side by side: those of a text, the children of a node, or those behind it.
#[derive(Clone, Debug)]
pub struct Nodes<'t, 'r> {
    items: Items<'t, 'r>,
    nodes: &'r [NodeRecord],
}

impl<'t, 'r> Nodes<'t, 'r> {
    /// The data of nodes that the library wrote of these items.
    pub(crate) fn of(items: Items<'t, 'r>, nodes: &'r [NodeRecord]) -> Self {
        Self { items, nodes }
    }

    /// Other nodes of the same items.
    fn among(&self, nodes: &'r [NodeRecord]) -> Self {
        Self { items: self.items.clone(), nodes }
    }
}

impl<'t, 'r> Iterator for Nodes<'t, 'r> {
    type Item = Node<'t, 'r>;

    fn next(&mut self) -> Option<Self::Item> {
        let (first, rest) = self.nodes.split_first()?;
        let (beneath, after) = rest.split_at(first.beneath as usize);
        self.nodes = after;
        Some(Node { own: *first, below: self.among(beneath), after })
    }
}

impl FusedIterator for Nodes<'_, '_> {}

/// A datum of a text.
///
/// ```
/// use mihadrena::{nest, Items, NodeRecord, Options, Record};
///
/// let plan = "(stand fn (corner 6892014 611208.2))";
/// let mut records = [Record::default(); 16];
/// let items = Items::new(plan, Options::report(), &mut records, &mut [])?;
/// let mut nodes = [NodeRecord::default(); 16];
/// let stand = nest(&items, &mut nodes)?.next().expect("a list");
/// assert_eq!(stand.head(), Some("stand"));
///
/// // A stand may be named by a word of Scheme: it has a name all the same.
/// let name = stand.children().nth(1).expect("a name");
/// assert_eq!(name.name(), Some("fn"));
/// let corner = name.siblings().next().expect("a list");
/// let coordinates: Result<Vec<f64>, _> = corner.children().skip(1).map(|node| node.number()).collect();
/// assert_eq!(coordinates?, [6892014.0, 611208.2]);
/// # Ok::<(), Box<dyn std::error::Error>>(())
/// ```
#[derive(Clone, Debug)]
pub struct Node<'t, 'r> {
    own: NodeRecord,
    below: Nodes<'t, 'r>,
    after: &'r [NodeRecord],
}

impl<'t, 'r> Node<'t, 'r> {
    /// What it is.
    #[must_use]
    pub fn kind(&self) -> NodeKind {
        NodeKind::of(self.own.kind)
    }

    /// The item that it starts with: a bracket, a mark, or the datum itself.
    #[must_use]
    pub fn item(&self) -> Item<'t> {
        self.below.items.item(self.record())
    }

    /// The record of that item.
    #[must_use]
    pub fn record(&self) -> &'r Record {
        &self.below.items.records()[self.own.item as usize]
    }

    /// The spelling of that item: its text if it has one, else the bytes of its extent.
    #[must_use]
    pub fn spelling(&self) -> &'t str {
        self.below.items.spelling(self.record())
    }

    /// The spelling of a symbol, which may be a word of Scheme such as `fn`; none of any other datum.
    #[must_use]
    pub fn name(&self) -> Option<&'t str> {
        (self.kind() == NodeKind::Symbol).then(|| self.spelling())
    }

    /// The name that a list starts with; none of a list that starts with anything else, and of any other datum.
    #[must_use]
    pub fn head(&self) -> Option<&'t str> {
        let first = (self.kind() == NodeKind::List).then(|| self.children().next());
        first.flatten()?.name()
    }

    /// The value of a number, a decimal or an integer, as [`record_value`] has it.
    ///
    /// # Errors
    /// [`NoCoordinate::Outside`], if it is no number, or one that no exact step makes.
    pub fn number(&self) -> Result<f64, NoCoordinate> {
        record_value(self.below.items.source(), self.record())
    }

    /// The data that lie directly beneath it.
    #[must_use]
    pub fn children(&self) -> Nodes<'t, 'r> {
        self.below.clone()
    }

    /// The data that stand behind it, beneath the same datum or at the top of the text.
    #[must_use]
    pub fn siblings(&self) -> Nodes<'t, 'r> {
        self.below.among(self.after)
    }
}
