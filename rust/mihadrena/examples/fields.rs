//! Reads a table of stand cards in one call: a line is a card, and its fields have tabs between them. Prints each field under the name that
//! the first line gives it: what its items are, or what is wrong with it. Report mode, comments left out.
use mihadrena::{Fields, Item, Items, Kind, NoFields, Options, Record, Refusal, Row};

const CARDS: &[u8] = include_bytes!("../../../examples/cards.tsv");

/// A part is a field with the tab or newline behind it, which is a blank and makes no item.
fn ends(cards: &[u8]) -> Vec<u32> {
    (1..=cards.len()).filter(|&end| matches!(cards[end - 1], b'\t' | b'\n')).map(|end| end as u32).collect()
}

/// An item of a part: its text, or its bytes; of an error its place in the part.
fn shown(item: &Item, part: &[u8]) -> String {
    match item.what {
        Err(_) => format!(" [error at {}..{}]", item.place.start, item.place.end),
        Ok(Kind::Identifier(text) | Kind::StringLiteral(text)) => format!(" {text}"),
        Ok(_) => format!(" {}", String::from_utf8_lossy(&part[item.extent.clone()])),
    }
}

fn field(read: Result<Items, Refusal>, part: &[u8]) -> String {
    match read {
        Ok(items) => items.map(|item| shown(&item, part)).collect(),
        Err(Refusal::NotUtf8(place)) => format!(" [not UTF-8 at {place}]"),
        Err(refusal) => format!(" [{refusal}]"),
    }
}

fn listed(cards: &[u8]) -> Result<String, NoFields> {
    let ends = ends(cards);
    let options = Options::report().without_comments();
    let mut rows = vec![Row::default(); ends.len()];
    let mut records = vec![Record::default(); cards.len()];
    let mut text = vec![0; cards.len()];
    let fields = Fields::new(cards, &ends, options, &mut rows, &mut records, &mut text)?;
    let starts = [0].into_iter().chain(ends.iter().copied());
    let parts: Vec<&[u8]> = starts.zip(&ends).map(|(from, &to)| &cards[from as usize..to as usize]).collect();
    let columns = parts.iter().take_while(|part| !part.ends_with(b"\n")).count() + 1;
    let lines = fields.zip(&parts).enumerate().skip(columns).map(|(i, (read, part))| {
        let name = String::from_utf8_lossy(parts[i % columns]);
        let apart = if i > columns && i % columns == 0 { "\n" } else { "" };
        format!("{apart}{}:{}\n", name.trim_end(), field(read, part))
    });
    Ok(lines.collect())
}

fn main() -> Result<(), NoFields> {
    print!("{}", listed(CARDS)?);
    Ok(())
}

/// What the program in C prints.
#[test]
fn the_same_cards_as_in_c() {
    assert_eq!(listed(CARDS).as_deref(), Ok(include_str!("../../../examples/c/fields.out")));
}
