//! What the piece calls must give for a text, by document 01's section "Piecewise" and the Rust's reading of the whole text: each item
//! with the byte count at which it is ready, and the stop, if there is one, with the byte that shows it.
use super::{Answer, Reads, What, AFTER_END, LITTLE_TEXT, LONG_ITEM, NOT_UTF8};
use crate::lexer::{rust, Read};
use crate::tally::Tally;
use item::{Item, Reading, Record, IN_MEMORY, NO_TEXT};
use std::str;

/// An item may have so many bytes.
const LONGEST_ITEM: usize = 4096;

const COMMENT: u32 = 25;
const NUMBER: u32 = 29;

/// An item as a piece call gives it, and how many bytes of the text make it ready; none if the end does.
#[derive(Clone)]
struct Given {
    record: Record,
    text: Vec<u8>,
    ready: Option<usize>,
}

/// A stop: its number and place, and how many bytes show it; none if the end does.
#[derive(Clone, Copy)]
struct Stop {
    number: u32,
    place: usize,
    shown: Option<usize>,
}

/// What is due, and how much of it was given.
#[derive(Clone)]
pub struct Due {
    items: Vec<Given>,
    stop: Option<Stop>,
    given: usize,
    at: usize,
    stopped: bool,
    ended: bool,
}

impl Due {
    /// What is due for a text; none where the Rust panics. Comments that are skipped can be too long all the same.
    pub fn of(read: Read, text: &[u8], skip: bool, tally: &mut Tally) -> Option<Due> {
        let bad = str::from_utf8(text).err().map(|error| bad_stop(text, error.valid_up_to()));
        let good = str::from_utf8(&text[..bad.map_or(text.len(), |stop| stop.place)]).expect("good up to here");
        let reading = rust(read, good, false, tally)?;
        let Some((stop, before)) = long_stop(good, &reading) else {
            let items = givens(good, &reading, skip, bad.is_some());
            return Some(Due::new(items, bad));
        };
        let reading = rust(read, before, false, tally)?;
        Some(Due::new(givens(before, &reading, skip, true), Some(stop)))
    }

    fn new(items: Vec<Given>, stop: Option<Stop>) -> Due {
        Due { items, stop, given: 0, at: 0, stopped: false, ended: false }
    }

    /// The next item, if it is ready when so many bytes are read.
    fn ready(&self, read: usize) -> Option<&Given> {
        self.items.get(self.given).filter(|item| item.ready.is_some_and(|ready| ready <= read))
    }

    fn give(&mut self, taken: usize) -> Answer {
        let Given { record, text, .. } = self.items[self.given].clone();
        self.given += 1;
        self.at += taken;
        Answer { taken, what: What::Item(record, text) }
    }

    fn halt(&mut self, taken: usize, stop: Stop) -> Answer {
        self.stopped = true;
        Answer { taken, what: What::Refused(stop.number, stop.place) }
    }
}

impl Reads for Due {
    fn piece(&mut self, bytes: &[u8]) -> Answer {
        let read = self.at + bytes.len();
        match self.stop {
            Some(stop) if self.stopped => return self.halt(0, stop),
            _ if self.ended => return Answer { taken: 0, what: What::Refused(AFTER_END, 0) },
            _ => (),
        }
        if let Some(item) = self.ready(read) {
            let taken = item.ready.map_or(0, |ready| ready.saturating_sub(self.at));
            return self.give(taken);
        }
        match self.stop {
            Some(stop @ Stop { shown: Some(shown), .. }) if shown <= read => self.halt(shown - self.at, stop),
            _ => {
                self.at = read;
                Answer { taken: bytes.len(), what: What::More }
            }
        }
    }

    fn end(&mut self) -> Answer {
        match self.stop {
            Some(stop) if self.stopped => return self.halt(0, stop),
            _ => self.ended = true,
        }
        if self.given < self.items.len() {
            return self.give(0);
        }
        match self.stop {
            Some(stop) => self.halt(0, stop),
            None => Answer { taken: 0, what: What::Finished },
        }
    }

    fn piece_into_small(&mut self, _: &[u8]) -> Answer {
        Answer { taken: 0, what: What::Refused(LITTLE_TEXT, 0) }
    }

    fn end_into_small(&mut self) -> Answer {
        Answer { taken: 0, what: What::Refused(LITTLE_TEXT, 0) }
    }
}

/// 21 "at the first byte after which no valid text can follow", with the start of its sequence; a sequence cut by the end is shown by it.
fn bad_stop(text: &[u8], start: usize) -> Stop {
    let hopeless = |end: &usize| str::from_utf8(&text[start..*end]).is_err_and(|error| error.error_len().is_some());
    Stop { number: NOT_UTF8, place: start, shown: (start + 1..=text.len()).find(hopeless) }
}

/// 23 "at the last byte of the character that makes the extent too long", with the item's start, and the text before that character.
fn long_stop<'a>(text: &'a str, reading: &Reading) -> Option<(Stop, &'a str)> {
    let extents = reading.items.iter().map(|item| (item.record[2] as usize, item.record[3] as usize));
    let (start, end) = extents.into_iter().find(|(start, end)| end - start > LONGEST_ITEM)?;
    let mut characters = text[start..end].char_indices().map(|(at, c)| (start + at, start + at + c.len_utf8()));
    let (before, shown) = characters.find(|(_, past)| past - start > LONGEST_ITEM)?;
    Some((Stop { number: LONG_ITEM, place: start, shown: Some(shown) }, &text[..before]))
}

/// The items of a text as piece calls give them. Before a stop those alone whose extents end before the text does.
fn givens(text: &str, reading: &Reading, skip: bool, stops: bool) -> Vec<Given> {
    let wanted = |item: &&Item| {
        let [kind, _, _, end, ..] = item.record;
        !(skip && kind == COMMENT) && !(stops && end as usize == text.len())
    };
    reading.items.iter().filter(wanted).map(|item| given(text, reading, item)).collect()
}

/// "Text is always copied here (text source 2, starting at 0), a number's whole extent included".
fn given(text: &str, reading: &Reading, item: &Item) -> Given {
    let [kind, detail, start, end, from, to, .., depth] = item.record;
    let extent = start as usize..end as usize;
    let copied = match kind {
        NUMBER => Some(&text.as_bytes()[extent.clone()]),
        _ => reading.text(text.as_bytes(), item),
    };
    let [source, length] = copied.map_or([NO_TEXT, 0], |text| [IN_MEMORY, text.len() as u32]);
    let record = [kind, detail, start, end, from, to, source, 0, length, depth];
    let beyond = text[extent.end..].chars().next();
    Given { record, text: copied.unwrap_or_default().to_vec(), ready: beyond.map(|c| extent.end + c.len_utf8()) }
}
