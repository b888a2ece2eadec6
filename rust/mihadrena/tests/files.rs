//! Item files: a plan's own file is read back, a file made by hand is read, and what is damaged is refused.
use mihadrena::{needed, raw, read_items, write_items, FileRefusal, Items, Mode, Options, Record};

/// The records of a text in report mode.
fn records_of(source: &[u8]) -> Vec<Record> {
    let report = Options { mode: Mode::Report, skip_comments: false };
    let needed = needed(source, report).expect("a text");
    let mut records = vec![Record::default(); needed.records];
    let mut text = vec![0; needed.text];
    let items = Items::new(source, report, &mut records, &mut text).expect("a text");
    assert_eq!(items.len(), needed.records);
    records
}

/// The item file of some records.
fn file_of(records: &[Record]) -> Vec<u8> {
    let mut file = vec![0; records.len() * raw::ITEM_FILE_BYTES];
    let bytes = write_items(records, &mut file).expect("records of the library");
    file.truncate(bytes);
    file
}

#[test]
fn a_plan_comes_back() {
    let records = records_of(&std::fs::read("../../examples/plan.scm").expect("the example plan"));
    let file = file_of(&records);
    assert_eq!(write_items(&records, &mut vec![0; file.len() - 1]), Err(FileRefusal::TooFew(file.len())));
    let mut loaded = vec![Record::default(); records.len()];
    assert_eq!(read_items(&file, &mut loaded), Ok(records.len()));
    assert_eq!(loaded, records);
    assert_eq!(read_items(&file, &mut loaded[1..]), Err(FileRefusal::TooFew(records.len())));
}

#[test]
fn a_file_made_by_hand() {
    // a comment at 1..301 and the largest number there is, as a kind that no lexer gives
    let file = [25, 0, 1, 172, 2, 1, 172, 2, 0, 0, 0, 0, 255, 255, 255, 255, 15, 0, 0, 0, 0, 0, 0, 0, 0, 0];
    let mut records = [Record::default(); 3];
    records[2].kind = 7;
    assert_eq!(read_items(&file, &mut records), Ok(2));
    let comment =
        Record { kind: raw::COMMENT, start: 1, end: 301, place_start: 1, place_end: 301, ..Record::default() };
    let strange = Record { kind: u32::MAX, start: 1, end: 1, ..Record::default() };
    assert_eq!(records, [comment, strange, Record { kind: 7, ..Record::default() }]);
    assert_eq!(file_of(&records[..2]), file);
}

#[test]
fn a_cut_file_ends_in_an_answer() {
    let records = records_of(b"(corner 14.7 \"rain:\\n\")");
    let file = file_of(&records);
    let mut loaded = vec![Record::default(); records.len()];
    for end in 0..file.len() {
        match read_items(&file[..end], &mut loaded) {
            Ok(items) => assert_eq!(loaded[..items], records[..items], "{end}"),
            Err(refusal) => assert!(matches!(refusal, FileRefusal::CutShort(_)), "{end}: {refusal}"),
        }
    }
}
