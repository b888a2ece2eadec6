//! Counts what a comparison finds, prints its first differences and, at its end, one line.
use std::collections::BTreeMap;
use std::fmt::{self, Debug};
use std::str::FromStr;
use std::time::Instant;

/// So many differences of a comparison are printed; the others are counted.
const SHOWN: u64 = 5;

/// What was found so far: comparisons that passed and failed, the texts that they were made on, the single answers compared, how many
/// of these differ, and how often each listed difference was met.
#[derive(Clone, Debug, Default, PartialEq)]
pub struct Count {
    pub passed: u64,
    pub failed: u64,
    pub texts: u64,
    pub compared: u64,
    pub different: u64,
    pub known: BTreeMap<String, u64>,
}

impl Count {
    pub fn add(&mut self, other: Count) {
        self.passed += other.passed;
        self.failed += other.failed;
        self.texts += other.texts;
        self.compared += other.compared;
        self.different += other.different;
        for (name, times) in other.known {
            *self.known.entry(name).or_default() += times;
        }
    }
}

/// A count is a line of numbers, each with what it counts: `1 passed, 0 failed, 20 texts, 40 compared, 0 different, 3 A1`.
impl fmt::Display for Count {
    fn fmt(&self, f: &mut fmt::Formatter<'_>) -> fmt::Result {
        let Count { passed, failed, texts, compared, different, known } = self;
        write!(f, "{passed} passed, {failed} failed, {texts} texts, {compared} compared, {different} different")?;
        known.iter().try_for_each(|(name, times)| write!(f, ", {times} {name}"))
    }
}

impl FromStr for Count {
    type Err = String;

    fn from_str(line: &str) -> Result<Count, String> {
        let mut count = Count::default();
        for part in line.split(", ") {
            let number = part.split_once(' ').and_then(|(number, what)| Some((number.parse().ok()?, what)));
            match number.ok_or_else(|| line.to_string())? {
                (number, "passed") => count.passed = number,
                (number, "failed") => count.failed = number,
                (number, "texts") => count.texts = number,
                (number, "compared") => count.compared = number,
                (number, "different") => count.different = number,
                (number, name) => drop(count.known.insert(name.to_string(), number)),
            }
        }
        Ok(count)
    }
}

/// One comparison: a name, what the two sides are called, and what was found so far.
pub struct Tally {
    name: String,
    sides: [&'static str; 2],
    count: Count,
    start: Instant,
}

impl Tally {
    /// The Rust against the proved functions.
    pub fn new(name: impl Into<String>) -> Self {
        Tally::between(["the Rust", "proved"], name)
    }

    pub fn between(sides: [&'static str; 2], name: impl Into<String>) -> Self {
        Tally { name: name.into(), sides, count: Count::default(), start: Instant::now() }
    }

    /// Counts a text on which answers are compared.
    pub fn text(&mut self) {
        self.count.texts += 1;
    }

    /// Compares the two sides' answers for one input. `input` is asked only for a difference.
    pub fn same<T: PartialEq + Debug>(&mut self, left: T, right: T, input: impl FnOnce() -> String) {
        self.count.compared += 1;
        if left != right {
            self.count.different += 1;
            if self.count.different <= SHOWN {
                let [first, second] = self.sides;
                println!("DIFFERENCE in {}: {}\n    {first}: {left:?}\n    {second}: {right:?}", self.name, input());
            }
        }
    }

    /// Counts a difference that docs/DIFFERENCES.md lists under this name.
    pub fn know(&mut self, name: &'static str) {
        match self.count.known.get_mut(name) {
            Some(times) => *times += 1,
            None => drop(self.count.known.insert(name.to_string(), 1)),
        }
    }

    /// Prints the comparison's line.
    pub fn close(self) -> Count {
        let Tally { name, mut count, start, .. } = self;
        let known: String = count.known.iter().map(|(name, times)| format!(", {name} {times} times")).collect();
        let (compared, different, seconds) = (count.compared, count.different, start.elapsed().as_secs_f64());
        println!("{name:36} {compared:>11} compared, {different} differences{known}, {seconds:.1} s");
        count.failed = u64::from(different > 0);
        count.passed = 1 - count.failed;
        count
    }
}

/// An input as a message shows it: its first bytes, as a text and in hex.
pub fn shown(text: &[u8]) -> String {
    const ENOUGH: usize = 100;
    let first = &text[..text.len().min(ENOUGH)];
    let more = if text.len() > ENOUGH { ".." } else { "" };
    format!("{:?}{more} ({}{more}, {} bytes)", String::from_utf8_lossy(first), item::hex(first), text.len())
}
