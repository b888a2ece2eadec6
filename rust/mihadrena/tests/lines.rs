//! Line and column without a pass over the text are those that the library tells.
use mihadrena::{raw, LineIndex, LinePieces, LineRefusal, Position};

const TEXTS: [&[u8]; 8] = [
    include_bytes!("../../../examples/plan.scm"),
    include_bytes!("../../../examples/office.scm"),
    include_bytes!("../../../examples/slip.scm"),
    include_bytes!("../../../examples/terminal.scm"),
    include_bytes!("../../../examples/c/errors.scm"),
    b"",
    b"\n",
    "\n\nλ木🌲\r\n\t|Ø|".as_bytes(),
];

/// What `mihadrena_locate` answers, which holds the index against the text.
fn told(text: &[u8], starts: &[u32], place: usize) -> Result<Position, LineRefusal> {
    let mut values = [0; raw::LINES_VALUES];
    // SAFETY: each pointer and length is those of a slice, and the mutable one is borrowed as such.
    let answer = unsafe {
        raw::mihadrena_locate(
            text.as_ptr(),
            text.len(),
            starts.as_ptr(),
            starts.len(),
            place,
            values.as_mut_ptr(),
            values.len(),
        )
    };
    match answer {
        raw::SERVED => Ok(Position { line: values[0] as usize, column: values[1] as usize }),
        raw::NO_PLACE => Err(LineRefusal::NoPlace(values[0] as usize)),
        _ => panic!("the index is the text's: {answer}"),
    }
}

#[test]
fn every_place_of_the_examples() {
    for text in TEXTS {
        let mut memory = vec![0; text.len() + 1];
        let lines = LineIndex::new(text, &mut memory).expect("a text");
        let past = [text.len() + 1, text.len() + 2, usize::MAX];
        for place in (0..=text.len()).chain(past) {
            assert_eq!(lines.locate(place), told(text, lines.starts(), place), "{place}");
        }
        let mut pieces = vec![0; text.len() + 1];
        let mut found = LinePieces::new(&mut pieces);
        text.chunks(3).for_each(|piece| found.piece(piece));
        let starts = found.end().expect("a text");
        assert!(LineIndex::kept(text, starts).is_some_and(|kept| kept.starts() == lines.starts()));
        assert!(LineIndex::kept(text, &starts[1..]).is_none());
        let places: Vec<u32> = (0..text.len() as u32 + 2).collect();
        let mut found = vec![0; 2 * places.len()];
        let all = lines.locate_all(&places, &mut found).expect("enough memory");
        for (answer, &place) in all.zip(&places) {
            assert_eq!(answer, lines.locate(place as usize), "{place}");
        }
    }
}
