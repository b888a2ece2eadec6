//! One item a call gives what the whole text gives, and stays where text memory is too little.
use mihadrena::{Item, Items, Mode, Options, Reader, Record, Refusal};

const PLAN: &str = include_str!("../../../examples/plan.scm");
const ERRORS: &str = include_str!("../../../examples/c/errors.scm");

/// Every way of reading a text.
fn all_options() -> impl Iterator<Item = Options> {
    [Mode::Plain, Mode::Report]
        .into_iter()
        .flat_map(|mode| [false, true].map(|skip_comments| Options { mode, skip_comments }))
}

/// That the reader gives the items of a text, each first refused where its text does not fit.
fn gives_the_items(source: &str, options: Options) {
    let mut records = vec![Record::default(); source.len()];
    let mut text = vec![0; source.len()];
    let items = Items::new(source, options, &mut records, &mut text).expect("a text");
    let mut reader = Reader::new(source, options).expect("a text");
    for item in items {
        let mut enough = Vec::new();
        if let Err(refusal) = reader.clone().next(&mut []) {
            let Refusal::TooFew { records: 1, text } = reader.next(&mut []).expect_err("it stays") else {
                panic!("{refusal}");
            };
            enough.resize(text, 0);
        }
        assert_eq!(reader.next(&mut enough), Ok(Some(item)), "{source:?}");
    }
    assert_eq!(reader.next(&mut []), Ok(None::<Item<'_>>));
    assert_eq!(reader.next(&mut []), Ok(None::<Item<'_>>));
}

#[test]
fn the_items_are_those_of_the_whole_text() {
    let texts = [
        "",
        "+foo",
        "#!first line\n(a)",
        ")(",
        r#"("\n" |\x41;| "\xD800;" #\ab)"#,
        "14.7;gps\n12|Birch|",
        PLAN,
        ERRORS,
    ];
    for text in texts {
        for options in all_options() {
            gives_the_items(text, options);
        }
    }
}

#[test]
fn what_is_no_text_is_refused() {
    assert_eq!(Reader::new(b"a\xFF", Options::default()).err(), Some(Refusal::NotUtf8(1)));
}
