//! The proved piece calls on a state and memory that this side keeps, all of which is watched.
use super::{Answer, Reads, What, AFTER_END, LITTLE_TEXT, OUT_OF_BOUNDS};
use item::WORDS;
use proved::{STATE_BYTES, STATE_WORDS};

/// What memory holds before the first call, and how much of it lies past what is lent.
const OLD_BYTE: u8 = 0xA5;
const OLD_WORD: u32 = 0xA5A5_A5A5;
const OLD_VALUE: u64 = 0xA5A5_A5A5_A5A5_A5A5;
const PAST: usize = 4;

/// The least text memory that a call takes.
const ENOUGH: usize = 4096;

/// The numbers that a piece state is.
#[derive(Clone, Debug, PartialEq)]
pub struct State {
    pub bytes: [u8; STATE_BYTES],
    pub words: [u64; STATE_WORDS],
}

impl State {
    pub fn opened(mode: u32, skip: bool) -> (u32, State) {
        let mut state = State { bytes: [OLD_BYTE; STATE_BYTES], words: [OLD_VALUE; STATE_WORDS] };
        let number = proved::open(mode, skip, &mut state.bytes, &mut state.words);
        (number, state)
    }
}

/// The state, whether a call answered a stop, the memory as it is and as it must be.
#[derive(Clone)]
pub struct Lent {
    state: State,
    stopped: bool,
    text: [u8; ENOUGH + PAST],
    text_due: [u8; ENOUGH + PAST],
    record: [u32; WORDS + PAST],
    record_due: [u32; WORDS + PAST],
}

impl Lent {
    pub fn open(mode: u32, skip: bool) -> Lent {
        let (number, state) = State::opened(mode, skip);
        assert_eq!(number, proved::SERVED);
        Lent::with(state)
    }

    /// Calls on a state that anyone made.
    pub fn with(state: State) -> Lent {
        let text = [OLD_BYTE; ENOUGH + PAST];
        let record = [OLD_WORD; WORDS + PAST];
        Lent { state, stopped: false, text, text_due: text, record, record_due: record }
    }

    /// The state as the last call left it.
    pub fn state(&self) -> &State {
        &self.state
    }

    /// A piece, or the end, with so much text memory.
    fn call(&mut self, piece: Option<&[u8]>, room: usize) -> Answer {
        let before = self.state.clone();
        let mut values = [OLD_VALUE; 3];
        let State { bytes, words } = &mut self.state;
        let text = &mut self.text[..room];
        let number = match piece {
            Some(piece) => proved::piece(bytes, words, piece, text, &mut self.record, &mut values),
            None => proved::end(bytes, words, text, &mut self.record, &mut values),
        };
        let [place, taken, past] = values;
        let what = self.what(number, place);
        let stood = !self.must_stand(&what) || self.state == before;
        let kept = past == OLD_VALUE && self.text == self.text_due && self.record == self.record_due;
        self.stopped |= matches!(what, What::Refused(..)) && !self.must_stand(&what);
        Answer { taken: taken as usize, what: if stood && kept { what } else { What::Overwrote } }
    }

    /// What a call gave. An item's record and text are now due in memory.
    fn what(&mut self, number: u32, place: u64) -> What {
        match number {
            proved::ITEM => {
                self.record_due[..WORDS].copy_from_slice(&self.record[..WORDS]);
                let record: item::Record = self.record[..WORDS].try_into().expect("a record");
                let length = (record[8] as usize).min(ENOUGH);
                self.text_due[..length].copy_from_slice(&self.text[..length]);
                What::Item(record, self.text[..length].to_vec())
            }
            proved::MORE => What::More,
            proved::FINISHED => What::Finished,
            number => What::Refused(number, place as usize),
        }
    }

    /// Whether a call that gave this must leave the state as it was: refusals that take nothing, and a stop that stood before.
    fn must_stand(&self, what: &What) -> bool {
        match what {
            What::Refused(LITTLE_TEXT | AFTER_END | OUT_OF_BOUNDS, _) => true,
            What::Refused(..) => self.stopped,
            _ => false,
        }
    }
}

impl Reads for Lent {
    fn piece(&mut self, bytes: &[u8]) -> Answer {
        self.call(Some(bytes), ENOUGH)
    }

    fn end(&mut self) -> Answer {
        self.call(None, ENOUGH)
    }

    fn piece_into_small(&mut self, bytes: &[u8]) -> Answer {
        self.call(Some(bytes), ENOUGH - 1)
    }

    fn end_into_small(&mut self) -> Answer {
        self.call(None, ENOUGH - 1)
    }
}
