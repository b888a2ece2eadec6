//! Many fields in one call give what single calls give, part by part.
use mihadrena::{needed, raw, Fields, Item, Items, Mode, NoFields, Options, Record, Refusal};

const TEXTS: [&[u8]; 3] = [
    include_bytes!("../../../examples/plan.scm"),
    include_bytes!("../../../examples/c/errors.scm"),
    include_bytes!("../../../examples/cards.tsv"),
];

/// What a part gives: its items with their texts, each as its debug form, or why it has none.
type Given = Result<Vec<String>, Refusal>;

fn shown(item: Item) -> String {
    format!("{item:?}")
}

fn alone(part: &[u8], options: Options) -> Given {
    let mut records = vec![Record::default(); part.len()];
    let mut text = vec![0; part.len()];
    Ok(Items::new(part, options, &mut records, &mut text)?.map(shown).collect())
}

fn together(source: &[u8], ends: &[u32], options: Options) -> Result<Vec<Given>, NoFields> {
    let mut rows = vec![raw::Row::default(); ends.len()];
    let mut records = vec![Record::default(); source.len()];
    let mut text = vec![0; source.len()];
    let fields = Fields::new(source, ends, options, &mut rows, &mut records, &mut text)?;
    Ok(fields.map(|part| part.map(|items| items.map(shown).collect())).collect())
}

fn parts<'a>(source: &'a [u8], ends: &'a [u32]) -> impl Iterator<Item = &'a [u8]> {
    let starts = [0].into_iter().chain(ends.iter().copied());
    starts.zip(ends).map(|(from, &to)| &source[from as usize..to as usize])
}

#[test]
fn each_part_is_a_text_of_its_own() {
    for source in TEXTS {
        for size in [1, 2, 3, 7, 12, 100] {
            // a part of each size, an empty one behind each seventh, and bytes past the last end
            let ends: Vec<u32> = (size..source.len()).step_by(size).map(|end| end as u32).collect();
            let ends: Vec<u32> =
                ends.iter().flat_map(|&end| [end; 2].into_iter().skip(usize::from(end % 7 != 0))).collect();
            for mode in [Mode::Plain, Mode::Report] {
                for skip_comments in [false, true] {
                    let options = Options { mode, skip_comments };
                    let wanted: Vec<Given> = parts(source, &ends).map(|part| alone(part, options)).collect();
                    assert_eq!(together(source, &ends, options), Ok(wanted), "parts of {size} bytes, {options:?}");
                }
            }
        }
    }
}

#[test]
fn what_is_needed_is_what_all_parts_need() {
    let source = TEXTS[0];
    let ends: Vec<u32> = (0..source.len()).step_by(12).map(|end| end as u32).collect();
    let options = Options::default();
    // a part that is cut inside a character needs nothing
    let each: Vec<_> = parts(source, &ends).map(|part| needed(part, options).unwrap_or_default()).collect();
    let (records, text) = each.iter().fold((0, 0), |(records, text), one| (records + one.records, text + one.text));
    let few = NoFields::TooFew { rows: ends.len(), records, text };
    assert_eq!(Fields::new(source, &ends, options, &mut [], &mut [], &mut []).err(), Some(few));
    let mut rows = vec![raw::Row::default(); ends.len()];
    let (mut just, mut memory) = (vec![Record::default(); records], vec![0; text]);
    assert!(Fields::new(source, &ends, options, &mut rows, &mut just, &mut memory).is_ok());
}

#[test]
fn no_parts() {
    assert_eq!(together(b"\xFF", &[], Options::default()), Ok(Vec::new()));
}
