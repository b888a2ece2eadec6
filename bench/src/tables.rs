//! The tables, in the form of docs/SPEED.md. A row is printed as soon as it is measured.
use crate::measure::{instructions, times, Times};
use crate::readers::{self, Reader, CHECKS, LINES, NUMBERS, ONE_PIECE, READERS};
use crate::texts::{in_one_piece, Text, ITEMS, MEGABYTE, TEXTS};
use crate::Wanted;
use std::fs;
use std::path::PathBuf;

pub fn print(wanted: &Wanted) {
    println!("Memory is cleared before the first reading and not between two; no call clears any.\n");
    let texts: Vec<Written> = wanted.texts.iter().map(|text| Written::of(text, text.name, wanted.bytes)).collect();
    let (sorts, mixed): (Vec<&Written>, Vec<&Written>) =
        texts.iter().partition(|text| ITEMS.iter().any(|sort| sort.name == text.name));
    println!("## Instructions a byte\n");
    let readers: Vec<&Reader> = READERS.iter().chain(CHECKS).collect();
    head(&["text"], &readers);
    mixed.iter().for_each(|text| counts(text, &readers, text.bytes()));
    println!("\n## MB/s (ns an item), best of nine readings\n");
    head(&["text"], &main_readers());
    mixed.iter().for_each(|text| speeds(text, &main_readers()));
    println!("\n## Instructions an item\n");
    head(&["text"], &main_readers());
    sorts.iter().for_each(|text| counts(text, &main_readers(), text.items()));
    println!("\n## The number call: instructions a byte of the numbers, ns a number\n");
    head(&["text", "bytes of each"], &NUMBERS.iter().collect::<Vec<_>>());
    texts.iter().for_each(numbers);
    println!("\n## The line index: instructions a byte\n");
    let indexers: Vec<&Reader> = LINES.iter().collect();
    head(&["text"], &indexers);
    mixed.iter().for_each(|text| counts(text, &indexers, text.bytes()));
    if !wanted.growth.is_empty() {
        growth(&wanted.growth);
        one_piece(&wanted.growth);
    }
}

/// A text in a file, for the processes that read it.
struct Written {
    name: String,
    text: String,
    file: PathBuf,
}

impl Written {
    fn of(text: &Text, name: impl Into<String>, bytes: usize) -> Written {
        let folder = PathBuf::from("target/bench");
        fs::create_dir_all(&folder).expect("a folder");
        let file = folder.join(format!("{}-{bytes}", text.name));
        let made = (text.make)(bytes);
        fs::write(&file, &made).expect("a file");
        Written { name: name.into(), text: made, file }
    }

    fn bytes(&self) -> u64 {
        self.text.len() as u64
    }

    /// How many items the text has.
    fn items(&self) -> u64 {
        (READERS[0].ready)(&self.text)().expect("a text that is served")
    }
}

/// The readers of every table but the first, which has all.
fn main_readers() -> Vec<&'static Reader> {
    const MAIN: &[&str] = &["ample", "counted", "pieces-4096", "rust", "bare"];
    READERS.iter().filter(|reader| MAIN.contains(&reader.name)).collect()
}

fn head(first: &[&str], readers: &[&Reader]) {
    let columns: Vec<&str> = first.iter().copied().chain(readers.iter().map(|reader| reader.title)).collect();
    println!("| {} |", columns.join(" | "));
    println!("|{}", "---|".repeat(columns.len()));
}

/// What stands for a reader that is refused: piece calls stop at an item of more than 4,096 bytes.
const STOPS: &str = " stops |";

/// The instructions of each reader, by so many bytes or items. All that are not refused must have met the same items.
fn counts(text: &Written, readers: &[&Reader], by: u64) {
    let items = text.items();
    let row: String = readers
        .iter()
        .map(|reader| {
            let Some(found) = instructions(reader, &text.file) else {
                return STOPS.to_string();
            };
            assert!(!reads(reader) || found.items == items, "{} meets other items of {}", reader.name, text.name);
            format!(" {:.1} |", found.count as f64 / by as f64)
        })
        .collect();
    println!("| {} |{row}", text.name);
}

/// The speed of each reader; of the Rust as published, which finds its names interned from the second reading on, the first's too.
fn speeds(text: &Written, readers: &[&Reader]) {
    let items = text.items();
    let row: String = readers
        .iter()
        .map(|reader| {
            let Some(Times { first, best }) = times(reader, &text.file) else {
                return STOPS.to_string();
            };
            let speed = |seconds: f64| short(text.text.len() as f64 / seconds / 1e6);
            let each = reads(reader) && items > 0;
            let each = if each { format!(" ({})", short(best * 1e9 / items as f64)) } else { String::new() };
            let cold = if reader.name == "rust" { format!(", first {}", speed(first)) } else { String::new() };
            format!(" {}{each}{cold} |", speed(best))
        })
        .collect();
    println!("| {} |{row}", text.name);
}

/// Whether a reader has items.
fn reads(reader: &Reader) -> bool {
    READERS.iter().any(|one| one.name == reader.name)
}

/// The number calls on a text's numbers, if it has any.
fn numbers(text: &Written) {
    let numbers = readers::numbers_of(&text.text);
    if numbers.is_empty() {
        return;
    }
    let bytes: usize = numbers.iter().map(|number| number.len()).sum();
    let row: String = NUMBERS
        .iter()
        .map(|reader| {
            let found = instructions(reader, &text.file).zip(times(reader, &text.file));
            let (count, time) = found.expect("a number is not refused");
            format!(" {:.1}, {:.0} ns |", count.count as f64 / bytes as f64, time.best * 1e9 / numbers.len() as f64)
        })
        .collect();
    let each = bytes as f64 / numbers.len() as f64;
    println!("| {} | {each:.1} |{row}", text.name);
}

/// The instructions a byte of the plan, by its size in megabytes.
fn growth(sizes: &[usize]) {
    println!("\n## How cost grows: the plan, instructions a byte\n");
    head(&["MB"], &main_readers());
    for size in sizes {
        let plan = Written::of(&TEXTS[0], size.to_string(), size * MEGABYTE);
        counts(&plan, &main_readers(), plan.bytes());
    }
}

/// The instructions a byte of texts lent as one piece, by their size in megabytes: what a call costs that is lent much.
fn one_piece(sizes: &[usize]) {
    println!("\n## How cost grows: the text in one piece, instructions a byte\n");
    let texts = in_one_piece();
    println!("| MB | {} |", texts.iter().map(|text| text.name).collect::<Vec<_>>().join(" | "));
    println!("|---|{}", "---|".repeat(texts.len()));
    for size in sizes {
        let row: String = texts
            .iter()
            .map(|text| {
                let text = Written::of(text, text.name, size * MEGABYTE);
                let found = instructions(&ONE_PIECE, &text.file).expect("items of 4,096 bytes at most");
                format!(" {:.1} |", found.count as f64 / text.text.len() as f64)
            })
            .collect();
        println!("| {size} |{row}");
    }
}

/// A figure with three digits or so.
fn short(figure: f64) -> String {
    if figure < 100.0 {
        format!("{figure:.1}")
    } else {
        grouped(figure.round() as u64)
    }
}

/// A number with its thousands set apart.
fn grouped(number: u64) -> String {
    let digits = number.to_string();
    let first = digits.len() % 3;
    let groups = digits.as_bytes()[first..].chunks(3).map(|group| std::str::from_utf8(group).expect("digits"));
    let groups: Vec<&str> =
        Some(&digits[..first]).filter(|group| !group.is_empty()).into_iter().chain(groups).collect();
    groups.join(",")
}
