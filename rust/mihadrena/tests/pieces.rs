//! Reading in pieces: the items of the whole text however it is cut, the stops, and the refusals that the raw calls give.
use mihadrena::raw::{self, State, Told};
use mihadrena::{needed, Error, Item, Items, Kind, Mode, Options, PieceReader, Record, Refusal};
use std::ops::Range;

const PLAIN: Options = Options { mode: Mode::Plain, skip_comments: false };

/// Texts with every reader's forms in them, errors at their ends, characters of one to four bytes, and a first line `#!`.
const TEXTS: [&str; 15] = [
    "",
    "(stand 101 (volume 412.5)) ; solid cubic metres\n",
    "+foo -bar 1/0 1@1/-2 14.7;gps",
    "\"beech\\n\\x41; bj\\u00F8;rk\" |a b| |a\\x41;b|",
    "#!/usr/bin/env plan\n(a)",
    ")([{#(#u8( ;a\n +foo #|b|# 1/0)]}))) x (",
    "(\"(\" #\\( |(| ;(\n #|(|# '() \"\\x28;\" {])",
    "#t #false #\\a #\\newline #u8(1) #(2) #:key #;x #|a #|b|# c|# ,@x ,y",
    "#<<end\nsome text\nend x",
    "\"\\xD800;\"",
    "\"\\q\" \"\\ x\" #\\nothing #\\xyz \"open",
    "\"\\x4é; |\\x;| #\\u{木} #\\x100000000 #\\é; #\\u{}",
    "λ 木 🌲 |🌲\\n| \"木\"",
    "|a\\|",
    "#",
];

const PLAN: &str = include_str!("../../../examples/plan.scm");

/// An item that outlives the reader's memory.
type Owned = (Result<String, Error>, Range<usize>, Range<usize>, usize);

fn owned(item: &Item<'_>) -> Owned {
    (item.what.map(|kind| format!("{kind:?}")), item.extent.clone(), item.place.clone(), item.depth)
}

fn whole(text: &str, options: Options) -> Vec<Owned> {
    let room = needed(text, options).expect("a text");
    let mut records = vec![Record::default(); room.records];
    let mut memory = vec![0; room.text];
    let items = Items::new(text, options, &mut records, &mut memory).expect("enough memory");
    items.map(|item| owned(&item)).collect()
}

/// The items of a text that is pushed in these pieces, and the refusal that ended it.
fn pieces<'a>(cut: impl IntoIterator<Item = &'a [u8]>, options: Options) -> (Vec<Owned>, Option<Refusal>) {
    let mut reader = PieceReader::new(options);
    let mut items = Vec::new();
    for mut left in cut {
        loop {
            match reader.push(&mut left) {
                Ok(Some(item)) => items.push(owned(&item)),
                Ok(None) => break,
                Err(refusal) => return (items, Some(refusal)),
            }
        }
        assert_eq!(left, b"", "without an item all of the piece is taken");
    }
    loop {
        match reader.end() {
            Ok(Some(item)) => items.push(owned(&item)),
            Ok(None) => return (items, None),
            Err(refusal) => return (items, Some(refusal)),
        }
    }
}

#[test]
fn the_items_of_the_whole_text_however_it_is_cut() {
    for mode in [Mode::Plain, Mode::Report] {
        for skip_comments in [false, true] {
            let options = Options { mode, skip_comments };
            for text in TEXTS {
                let expected = (whole(text, options), None);
                let bytes = text.as_bytes();
                assert_eq!(pieces([bytes], options), expected, "{text}");
                assert_eq!(pieces(bytes.chunks(1), options), expected, "{text}, byte by byte");
                for at in 0..bytes.len() {
                    let (first, second) = bytes.split_at(at);
                    assert_eq!(pieces([first, b"", second], options), expected, "{text}, cut at {at}");
                }
            }
        }
    }
}

#[test]
fn skipped_comments_change_no_other_item() {
    for mode in [Mode::Plain, Mode::Report] {
        for text in TEXTS.into_iter().chain([PLAN]) {
            let [kept, skipped] = [false, true].map(|skip_comments| Options { mode, skip_comments });
            let mut others = whole(text, kept);
            others.retain(|(what, ..)| what.as_deref() != Ok("Comment"));
            assert_eq!(whole(text, skipped), others, "{text}");
            assert_eq!(pieces(text.as_bytes().chunks(1), skipped), (others, None), "{text}, byte by byte");
        }
    }
}

#[test]
fn a_plan_in_pieces_of_several_sizes() {
    let expected = (whole(PLAN, PLAIN), None);
    for size in [1, 7, 64, 512, PLAN.len()] {
        assert_eq!(pieces(PLAN.as_bytes().chunks(size), PLAIN), expected, "{size} bytes at a time");
    }
}

#[test]
fn the_fewest_bytes_are_taken() {
    let mut reader = PieceReader::new(PLAIN);
    let mut left: &[u8] = b"+foo 14.7)";
    let mut given = |left: &mut &[u8]| reader.push(left).expect("no refusal").map(|item| owned(&item));
    let pair = [
        (Ok(r#"Identifier("+")"#.to_string()), 0..4, 0..4, 0),
        (Ok(r#"Identifier("foo")"#.to_string()), 0..4, 0..4, 0),
    ];
    assert_eq!((given(&mut left), left), (Some(pair[0].clone()), &b"14.7)"[..]));
    assert_eq!((given(&mut left), left), (Some(pair[1].clone()), &b"14.7)"[..]));
    assert_eq!((given(&mut left), left), (Some((Ok(r#"Number("14.7")"#.to_string()), 5..9, 5..9, 0)), &b""[..]));
    assert_eq!((given(&mut left), left), (None, &b""[..]));
}

#[test]
fn a_stop_stands() {
    let mut reader = PieceReader::new(PLAIN);
    let mut left: &[u8] = b"(a \xFF b)";
    let first = reader.push(&mut left).expect("the bracket").map(|item| item.extent);
    let second = reader.push(&mut left).expect("the identifier").map(|item| item.extent);
    assert_eq!((first, second, left), (Some(0..1), Some(1..2), &b"\xFF b)"[..]));
    assert_eq!((reader.push(&mut left), left), (Err(Refusal::NotUtf8(3)), &b" b)"[..]));
    assert_eq!((reader.push(&mut left), left), (Err(Refusal::NotUtf8(3)), &b" b)"[..]));
    assert_eq!(reader.end(), Err(Refusal::NotUtf8(3)));
}

#[test]
fn the_end_is_declared_once_and_for_all() {
    let mut reader = PieceReader::new(PLAIN);
    assert_eq!(reader.push(&mut &b"ab"[..]), Ok(None));
    assert_eq!(reader.end().expect("no refusal").map(|item| item.what), Some(Ok(Kind::Identifier("ab"))));
    assert_eq!(reader.end(), Ok(None));
    let mut left: &[u8] = b"cd";
    assert_eq!((reader.push(&mut left), left), (Err(Refusal::AfterEnd), &b"cd"[..]));
    assert_eq!(reader.end(), Ok(None));
    assert_eq!(Refusal::AfterEnd.number(), raw::AFTER_END);
    assert_eq!(Refusal::AfterEnd.to_string(), "piece after the end of the text");
}

#[test]
fn the_longest_item() {
    let longest = " ".to_string() + &"a".repeat(raw::STATE_BYTES) + " b";
    assert_eq!(pieces([longest.as_bytes()], PLAIN), (whole(&longest, PLAIN), None));
    let longer = " ".to_string() + &"a".repeat(raw::STATE_BYTES + 1) + " b";
    assert_eq!(pieces(longer.as_bytes().chunks(7), PLAIN), (vec![], Some(Refusal::LongItem(1))));
    let skip = Options { mode: Mode::Plain, skip_comments: true };
    let comment = ";".repeat(raw::STATE_BYTES + 1);
    assert_eq!(pieces([comment.as_bytes()], skip), (vec![], Some(Refusal::LongItem(0))));
    assert_eq!(Refusal::LongItem(1).number(), raw::LONG_ITEM);
    assert_eq!(Refusal::LongItem(1).to_string(), "item at byte 1 exceeds 4096 bytes");
}

/// Put aside after each byte, in the middle of characters too, and taken up from its words.
#[test]
fn a_reader_put_aside() {
    for text in TEXTS.into_iter().chain([PLAN]) {
        let options = Options { mode: Mode::Report, skip_comments: false };
        let mut items = Vec::new();
        let mut reader = PieceReader::new(options);
        for mut left in text.as_bytes().chunks(1) {
            while let Some(item) = reader.push(&mut left).expect("a text") {
                items.push(owned(&item));
            }
            reader = PieceReader::from_words(&reader.into_words()).expect("its own words");
        }
        while let Some(item) = reader.end().expect("a text") {
            items.push(owned(&item));
            reader = PieceReader::from_words(&reader.into_words()).expect("its own words");
        }
        assert_eq!(items, whole(text, options), "{text}");
    }
}

/// The words are those of the state in memory, as C has it, and each that is too large is refused.
#[test]
fn the_words_of_a_reader() {
    let mut reader = PieceReader::new(PLAIN);
    assert_eq!(reader.push(&mut &b"abcdefghij"[..]), Ok(None));
    let words = reader.into_words();
    assert_eq!(words.len() * size_of::<u64>(), raw::STATE_SIZE);
    assert_eq!((&words[0].to_ne_bytes(), &words[1].to_ne_bytes()[..2]), (b"abcdefgh", &b"ij"[..]));
    for word in PieceReader::WORDS - raw::STATE_WORDS..PieceReader::WORDS {
        let mut other = words;
        other[word] = u64::MAX;
        assert_eq!(PieceReader::from_words(&other).err(), Some(Refusal::OutOfBounds), "{word}");
    }
    assert_eq!(Refusal::OutOfBounds.number(), raw::OUT_OF_BOUNDS);
}

/// Words within the bounds that no reader left end in an item or a refusal too: bytes that are no text, a kind that there is not.
#[test]
fn words_that_no_reader_left() {
    let mut reader = PieceReader::new(PLAIN);
    assert_eq!(reader.push(&mut &b"ab"[..]), Ok(None));
    let words = reader.into_words();
    let mut no_text = words;
    no_text[0] = 0xFFFF;
    let mut reader = PieceReader::from_words(&no_text).expect("within the bounds");
    assert_eq!(reader.push(&mut &b" "[..]), Err(Refusal::OutOfBounds));
    for value in 0..64 {
        for word in PieceReader::WORDS - raw::STATE_WORDS..PieceReader::WORDS {
            let mut other = words;
            other[word] = value;
            let Ok(mut reader) = PieceReader::from_words(&other) else { continue };
            let mut left: &[u8] = b" \"c\" (";
            while let Ok(Some(_)) = reader.push(&mut left) {}
            while let Ok(Some(_)) = reader.end() {}
        }
    }
}

/// All memory that a raw piece or end call is lent.
#[derive(Clone, Debug, PartialEq)]
struct Lent {
    state: State,
    text: Vec<u8>,
    record: Vec<u32>,
    values: Vec<u64>,
}

const OLD_BYTE: u8 = 0xA5;
const OLD_WORD: u32 = 77;
const OLD_VALUE: u64 = 99;

impl Lent {
    fn opened() -> Self {
        let mut state = State { bytes: [OLD_BYTE; raw::STATE_BYTES], words: [OLD_VALUE; raw::STATE_WORDS] };
        assert_eq!(open(&mut state, raw::PLAIN), raw::SERVED);
        Self {
            state,
            text: vec![OLD_BYTE; raw::PIECE_TEXT],
            record: vec![OLD_WORD; raw::RECORD_WORDS],
            values: vec![OLD_VALUE; raw::PIECE_VALUES],
        }
    }

    fn piece(&mut self, piece: &[u8]) -> u32 {
        let Self { state, text, record, values } = self;
        // SAFETY: each pointer and length is those of a slice, and the mutable ones are borrowed as such.
        unsafe {
            raw::mihadrena_piece(
                state.bytes.as_mut_ptr(),
                raw::STATE_BYTES,
                state.words.as_mut_ptr(),
                raw::STATE_WORDS,
                piece.as_ptr(),
                piece.len(),
                text.as_mut_ptr(),
                text.len(),
                record.as_mut_ptr(),
                record.len(),
                values.as_mut_ptr(),
                values.len(),
            )
        }
    }

    fn end(&mut self) -> u32 {
        let Self { state, text, record, values } = self;
        // SAFETY: as above.
        unsafe {
            raw::mihadrena_end(
                state.bytes.as_mut_ptr(),
                raw::STATE_BYTES,
                state.words.as_mut_ptr(),
                raw::STATE_WORDS,
                text.as_mut_ptr(),
                text.len(),
                record.as_mut_ptr(),
                record.len(),
                values.as_mut_ptr(),
                values.len(),
            )
        }
    }

    /// Both calls are refused with this number and these values, and change nothing else.
    fn refuses(&self, answer: u32, values: &[u64]) {
        let mut expected = self.clone();
        expected.values = values.to_vec();
        for call in [|lent: &mut Self| lent.piece(b"a b"), Self::end] {
            let mut now = self.clone();
            assert_eq!((call(&mut now), now), (answer, expected.clone()));
        }
    }
}

fn open(state: &mut State, mode: u32) -> u32 {
    let State { bytes, words } = state;
    // SAFETY: as above.
    unsafe { raw::mihadrena_open(mode, false, bytes.as_mut_ptr(), bytes.len(), words.as_mut_ptr(), words.len()) }
}

#[test]
fn a_mode_that_is_none_opens_a_plain_state() {
    let plain = Lent::opened().state;
    let mut state = State { bytes: [OLD_BYTE; raw::STATE_BYTES], words: [OLD_VALUE; raw::STATE_WORDS] };
    assert_eq!(open(&mut state, raw::REPORT + 1), raw::NO_MODE);
    assert_eq!(state, plain);
}

#[test]
fn raw_refusals_change_nothing_else() {
    let lent = Lent::opened();
    Lent { record: vec![OLD_WORD; raw::RECORD_WORDS - 1], ..lent.clone() }.refuses(raw::TOO_FEW, &[1, 0]);
    Lent { values: vec![OLD_VALUE], ..lent.clone() }.refuses(raw::TOO_FEW, &[OLD_VALUE]);
    Lent { text: vec![OLD_BYTE; raw::PIECE_TEXT - 1], ..lent.clone() }.refuses(raw::LITTLE_TEXT, &[0, 0]);
    for word in 0..raw::STATE_WORDS {
        let mut outside = lent.clone();
        outside.state.words[word] = u64::MAX;
        outside.refuses(raw::OUT_OF_BOUNDS, &[0, 0]);
    }
}

#[test]
fn slices_of_another_length_are_no_state() {
    let old = Lent::opened();
    let mut lent = old.clone();
    let (bytes, words) = (lent.state.bytes.as_mut_ptr(), lent.state.words.as_mut_ptr());
    for (bytes_length, words_length) in
        [(raw::STATE_BYTES - 1, raw::STATE_WORDS), (raw::STATE_BYTES, raw::STATE_WORDS - 1)]
    {
        // SAFETY: both lengths are within their arrays.
        let answer = unsafe { raw::mihadrena_open(raw::PLAIN, true, bytes, bytes_length, words, words_length) };
        assert_eq!(answer, raw::OUT_OF_BOUNDS);
    }
    assert_eq!(lent, old);
}

/// The words of a state that are the place past the last whole character, and the depth.
const AT: usize = 9;
const DEPTH: usize = 18;

/// The word of a record that is its depth.
const ITS_DEPTH: usize = 9;

#[test]
fn no_item_is_deeper_than_its_start() {
    let mut lent = Lent::opened();
    assert_eq!((lent.piece(b"(("), lent.piece(b"ab")), (raw::ITEM, raw::ITEM));
    assert_eq!((lent.piece(b"b"), lent.state.words[DEPTH]), (raw::MORE, 2));
    let mut forged = lent.clone();
    forged.state.words[DEPTH] = 3;
    forged.refuses(raw::OUT_OF_BOUNDS, &[0, 0]);
    for depth in 0..=2 {
        let mut lent = lent.clone();
        lent.state.words[DEPTH] = depth;
        assert_eq!((lent.end(), u64::from(lent.record[ITS_DEPTH])), (raw::ITEM, depth));
    }
}

#[test]
fn the_greatest_depths() {
    let mut lent = Lent::opened();
    assert_eq!(lent.piece(b" "), raw::MORE);
    lent.state.words[AT] = raw::LONGEST - 2;
    lent.state.words[DEPTH] = raw::LONGEST - 2;
    assert_eq!((lent.piece(b"(("), u64::from(lent.record[ITS_DEPTH])), (raw::ITEM, raw::LONGEST - 2));
    assert_eq!((lent.end(), u64::from(lent.record[ITS_DEPTH])), (raw::ITEM, raw::LONGEST - 1));
    assert_eq!((lent.end(), lent.state.words[DEPTH]), (raw::FINISHED, raw::LONGEST));
}

#[test]
fn the_longest_text() {
    let mut lent = Lent::opened();
    assert_eq!(lent.piece(b" "), raw::MORE);
    lent.state.words[AT] = raw::LONGEST - 2;
    assert_eq!((lent.piece(b"a"), &lent.values[..]), (raw::MORE, &[0, 1][..]));
    let mut longest = lent.clone();
    assert_eq!((longest.piece(b" "), &longest.values[..]), (raw::ITEM, &[0, 1][..]));
    assert_eq!((longest.piece(b""), longest.end()), (raw::MORE, raw::FINISHED));
    let mut longer = lent;
    assert_eq!((longer.piece(b"aaa"), &longer.values[..]), (raw::TOO_LONG, &[raw::LONGEST, 2][..]));
    assert_eq!((longer.end(), &longer.values[..]), (raw::TOO_LONG, &[raw::LONGEST, 0][..]));
}

#[test]
fn only_an_item_writes_its_record_and_text() {
    let mut lent = Lent::opened();
    assert_eq!((lent.piece(b"ab"), &lent.values[..]), (raw::MORE, &[0, 2][..]));
    assert_eq!(
        (&lent.record[..], &lent.text[..]),
        (&[OLD_WORD; raw::RECORD_WORDS][..], &[OLD_BYTE; raw::PIECE_TEXT][..])
    );
    assert_eq!((lent.piece(b"c d"), &lent.values[..]), (raw::ITEM, &[0, 2][..]));
    assert_eq!(lent.record, [raw::IDENTIFIER, 0, 0, 3, 0, 3, raw::IN_MEMORY, 0, 3, 0]);
    assert_eq!((&lent.text[..3], &lent.text[3..]), (&b"abc"[..], &[OLD_BYTE; raw::PIECE_TEXT - 3][..]));
    let told = Told { place: lent.values[0], taken: lent.values[1] };
    assert_eq!(told, Told { place: 0, taken: 2 });
    assert_eq!((lent.end(), &lent.values[..]), (raw::FINISHED, &[0, 0][..]));
}
