//! An office edits a plan: it renames a species in all stands and sets the volume of the first one.
//!
//! First the plan is written back whole, without its comments. Then only what changed is written, each item by itself, and put between the
//! parts of the old plan, so that every comment and blank stays: the lines that differ are printed, the old one and the new one.
use mihadrena::{raw, write, Items, NotWritten, Options, Record, Refusal};

const PLAN: &str = include_str!("../../../examples/office.scm");

/// What is changed: a name in the lists of species, and the first number behind `volume`.
const OLD_NAME: &str = "spruce";
const NEW_NAME: &str = "Norway spruce";
const NEW_VOLUME: &str = "398.0";

/// A text with the records of its items in report mode, comments left out.
#[derive(Clone)]
struct Plan {
    source: String,
    text: Vec<u8>,
    records: Vec<Record>,
}

impl Plan {
    fn read(source: &str) -> Result<Self, Refusal> {
        let options = Options::report().without_comments();
        let (mut records, mut text) = (vec![Record::default(); source.len()], vec![0; source.len()]);
        let count = Items::new(source, options, &mut records, &mut text)?.len();
        records.truncate(count);
        Ok(Self { source: source.to_string(), text, records })
    }

    /// The text of some of its records. Lent no memory, the call tells how much it needs.
    fn written(&self, records: &[Record]) -> Result<String, NotWritten> {
        let needed = match write(records, &self.source, &self.text, &mut []) {
            Err(NotWritten::NoRoom(needed)) => needed,
            other => return other.map(str::to_string),
        };
        write(records, &self.source, &self.text, &mut vec![0; needed]).map(str::to_string)
    }

    /// Whether a record is an identifier with this text.
    fn is_named(&self, record: &Record, name: &str) -> bool {
        let from = if record.text_source == raw::IN_MEMORY { &self.text } else { self.source.as_bytes() };
        let text = &from[record.text_start as usize..record.text_end as usize];
        record.kind == raw::IDENTIFIER && text == name.as_bytes()
    }

    /// The places of the records behind each opening of a list of this name, and behind the name.
    fn lists_of(&self, name: &str) -> Vec<usize> {
        let opens = |two: &[Record]| two[0].kind == raw::OPEN_PAREN && self.is_named(&two[1], name);
        (2..self.records.len()).filter(|&at| opens(&self.records[at - 2..at])).collect()
    }

    /// A name is changed by a text in the text memory: the new one is put behind the texts that are there, once, and the records say so.
    fn rename_species(&mut self) {
        let text_start = self.text.len() as u32;
        self.text.extend_from_slice(NEW_NAME.as_bytes());
        let text_end = self.text.len() as u32;
        for first in self.lists_of("species") {
            for at in first..self.records.len() {
                let record = self.records[at];
                if record.kind != raw::IDENTIFIER {
                    break;
                }
                if self.is_named(&record, OLD_NAME) {
                    self.records[at] = Record { text_source: raw::IN_MEMORY, text_start, text_end, ..record };
                }
            }
        }
    }

    /// A number is the bytes of its extent, so the new one is put behind the source, and the record's extent is there.
    fn set_volume(&mut self) {
        let start = self.source.len() as u32;
        self.source += NEW_VOLUME;
        let end = self.source.len() as u32;
        let volumes = self.lists_of("volume");
        if let Some(&at) = volumes.iter().find(|&&at| self.records[at].kind == raw::NUMBER) {
            self.records[at] = Record { start, end, ..self.records[at] };
        }
    }

    /// Whether two plans have the same kinds, details and texts; of items without a text the bytes of their extents.
    fn has_the_items_of(&self, other: &Self) -> bool {
        let one = |plan: &Self, record: &Record| (record.kind, record.detail, plan.written(&[*record]));
        let all = |plan: &Self| plan.records.iter().map(|record| one(plan, record)).collect::<Vec<_>>();
        all(self) == all(other)
    }

    /// The source with each item that is another in the edited plan written by itself in the place of the old one.
    fn spliced(&self, edited: &Self) -> Result<String, NotWritten> {
        let (mut out, mut at) = (String::new(), 0);
        for (old, new) in self.records.iter().zip(&edited.records).filter(|(old, new)| old != new) {
            out += &self.source[at..old.start as usize];
            out += &edited.written(&[*new])?;
            at = old.end as usize;
        }
        Ok(out + &self.source[at..])
    }
}

/// What the program prints.
fn edited(plan: &str) -> Result<String, Box<dyn std::error::Error>> {
    let old = Plan::read(plan)?;
    let mut new = old.clone();
    new.rename_species();
    new.set_volume();
    let whole = new.written(&new.records)?;
    let kept = old.spliced(&new)?;
    for text in [&whole, &kept] {
        if !Plan::read(text)?.has_the_items_of(&new) {
            return Err("a new word runs into its neighbour".into());
        }
    }
    let lines = plan.lines().zip(kept.lines()).filter(|(old, new)| old != new);
    Ok(whole + "\n" + &lines.map(|(old, new)| format!("-{old}\n+{new}\n")).collect::<String>())
}

fn main() -> Result<(), Box<dyn std::error::Error>> {
    print!("{}", edited(PLAN)?);
    Ok(())
}

/// What the program in C prints.
#[test]
fn the_same_as_in_c() {
    assert_eq!(edited(PLAN).expect("a plan"), include_str!("../../../examples/c/write.out"));
}

/// A name that ends in a backslash takes what stands behind it with it, and the reading tells.
#[test]
fn a_word_that_runs_on() {
    let old = Plan::read("(species a)").expect("a plan");
    let mut new = old.clone();
    new.text = b"a\\".to_vec();
    new.records[2] = Record { text_source: raw::IN_MEMORY, text_start: 0, text_end: 2, ..new.records[2] };
    let kept = old.spliced(&new).expect("a text");
    assert!(!Plan::read(&kept).expect("a text").has_the_items_of(&new));
    let whole = new.written(&new.records).expect("a text");
    assert_eq!(whole, r"( species |a\\| )");
    assert!(Plan::read(&whole).expect("a text").has_the_items_of(&new));
}
