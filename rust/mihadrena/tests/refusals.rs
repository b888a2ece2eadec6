//! Each refusal of a call in Rust tells the number that C is told.
use mihadrena::{
    coordinate, nest, raw, read_items, record_coordinate, write, write_items, Fields, FileRefusal, Items, LineIndex,
    LineRefusal, Names, NoCoordinate, NoFields, NoName, NodeRecord, NotNested, NotWritten, Options, Party, Record,
    Refusal,
};

/// How `nest` refuses a text, with room for so many nodes.
fn not_nested(text: &str, nodes: usize) -> Option<NotNested> {
    let mut records = vec![Record::default(); text.len()];
    let mut memory = vec![0; text.len()];
    let items = Items::new(text, Options::default(), &mut records, &mut memory).expect("a text");
    let mut nodes = vec![NodeRecord::default(); nodes];
    nest(&items, &mut nodes).err()
}

#[test]
fn nested_lists() {
    let deep = "(".repeat(65);
    for (text, refusal, number) in [
        ("(", NotNested::BracketOpen(1), raw::BRACKET_OPEN),
        (")", NotNested::WrongClose(0), raw::WRONG_CLOSE),
        (".", NotNested::MisplacedDot(0), raw::MISPLACED_DOT),
        ("'", NotNested::MarkWaits(1), raw::MARK_WAITS),
        (deep.as_str(), NotNested::TooDeep(64), raw::TOO_DEEP),
        ("##", NotNested::ErrorItem(0), raw::ERROR_ITEM),
    ] {
        assert_eq!(not_nested(text, text.len()), Some(refusal), "{text}");
        assert_eq!(refusal.number(), number, "{text}");
    }
    assert_eq!(not_nested("(a)", 1), Some(NotNested::FewNodes));
    assert_eq!(NotNested::FewNodes.number(), raw::FEW_NODES);
    assert_eq!(not_nested("(a)", 2), None);
}

#[test]
fn writing() {
    let bracket = Record { kind: raw::OPEN_PAREN, start: 0, end: 1, ..Record::default() };
    for (record, room, refusal, number) in [
        (Record { kind: raw::FIRST_ERROR, ..bracket }, 9, NotWritten::Alien(1), raw::ALIEN),
        (Record { end: 2, ..bracket }, 9, NotWritten::Alien(1), raw::ALIEN),
        (Record { kind: raw::IDENTIFIER, ..bracket }, 9, NotWritten::Alien(1), raw::ALIEN),
        (Record { kind: raw::COMMENT, ..bracket }, 9, NotWritten::Unwritten(1), raw::UNWRITTEN),
        (Record { kind: raw::INVALID_CHAR_DELIMITER, ..bracket }, 9, NotWritten::Unwritten(1), raw::UNWRITTEN),
        (bracket, 2, NotWritten::NoRoom(3), raw::TOO_FEW),
    ] {
        let mut out = vec![b'7'; room];
        assert_eq!(write(&[bracket, record], "(", &[], &mut out), Err(refusal), "{record:?}");
        assert_eq!(refusal.number(), number, "{record:?}");
        assert_eq!(out, vec![b'7'; room], "{record:?}");
    }
    let mut out = [b'7'; 4];
    assert_eq!(write(&[bracket, bracket], "(", &[], &mut out), Ok("( ("));
    assert_eq!(&out, b"( (7");
    assert_eq!(NotWritten::TooLong.number(), raw::TOO_LONG);
}

#[test]
fn coordinates() {
    let other = Record { kind: raw::NUMBER, start: 0, end: 9, ..Record::default() };
    for (answer, refusal, number) in [
        (coordinate("12"), NoCoordinate::Outside, raw::NO_COORDINATE),
        (record_coordinate("12", &other), NoCoordinate::NoExtent, raw::OUT_OF_BOUNDS),
        (coordinate(b"1.5\xFF"), NoCoordinate::Refused(Refusal::NotUtf8(3)), raw::NOT_UTF8),
    ] {
        assert_eq!(answer, Err(refusal));
        assert_eq!(refusal.number(), number);
    }
}

#[test]
fn fields() {
    let few = NoFields::TooFew { rows: 2, records: 2, text: 0 };
    for (ends, rows, records, refusal, number) in [
        ([2, 1], 2, 2, NoFields::BadEnds, raw::BAD_ENDS),
        ([1, 3], 0, 0, NoFields::BadEnds, raw::BAD_ENDS),
        ([1, 2], 2, 1, few, raw::TOO_FEW),
        ([1, 2], 1, 2, few, raw::TOO_FEW),
    ] {
        let (mut rows, mut records) = (vec![raw::Row::default(); rows], vec![Record::default(); records]);
        let refused = Fields::new("ab", &ends, Options::default(), &mut rows, &mut records, &mut []).err();
        assert_eq!((refused, refusal.number()), (Some(refusal), number), "{ends:?}");
    }
    assert_eq!(NoFields::TooLong.number(), raw::TOO_LONG);
}

#[test]
fn lines() {
    let mut memory = [0; 2];
    let refusal = LineIndex::new("a\nb\nc", &mut memory).err();
    assert_eq!((refusal, refusal.map(LineRefusal::number)), (Some(LineRefusal::NoRoom(3)), Some(raw::LINES_NO_ROOM)));
    let index = LineIndex::new("a\nλ", &mut memory).expect("two lines");
    let refusal = index.locate(3).err();
    assert_eq!((refusal, refusal.map(LineRefusal::number)), (Some(LineRefusal::NoPlace(3)), Some(raw::NO_PLACE)));
}

#[test]
fn names() {
    let (mut words, mut bytes) = (vec![0; raw::NAMES_WORDS], vec![0; raw::NAMES_BYTES]);
    let little = Names::open(&mut words[1..], &mut bytes).err();
    assert_eq!((little, little.map(NoName::number)), (Some(NoName::Outside), Some(raw::OUT_OF_BOUNDS)));
    let mut names = Names::open(&mut words, &mut bytes).expect("enough memory");
    let long = vec![b'a'; 16_385];
    let full = names.enter(Party::Planner, &long).err();
    assert_eq!((full, full.map(NoName::number)), (Some(NoName::NoRoom), Some(raw::NO_ROOM)));
    let none = names.name(0).err();
    assert_eq!((none, none.map(NoName::number)), (Some(NoName::NoNumber), Some(raw::NO_NAME)));
}

#[test]
fn item_files() {
    let back = Record { start: 2, end: 1, ..Record::default() };
    let mut records = [Record::default(); 1];
    for (answer, refusal, number) in [
        (write_items(&[Record::default(), back], &mut []), FileRefusal::GoesBack(1), raw::GOES_BACK),
        (write_items(&[Record::default()], &mut [0; 9]), FileRefusal::TooFew(10), raw::TOO_FEW),
        (read_items(&[28], &mut records), FileRefusal::CutShort(1), raw::CUT_SHORT),
        (read_items(&[128, 0], &mut records), FileRefusal::WrongNumber(0), raw::WRONG_NUMBER),
        (read_items(&[28, 0, 255, 255, 255, 255, 15, 1], &mut records), FileRefusal::OverSum(3), raw::OVER_SUM),
        (read_items(&[0; 20], &mut records), FileRefusal::TooFew(2), raw::TOO_FEW),
    ] {
        assert_eq!(answer, Err(refusal));
        assert_eq!(refusal.number(), number);
    }
    assert_eq!(records, [Record::default(); 1]);
}
