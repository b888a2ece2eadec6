//! Prints an outline of the example plan: a line for each list, indented by its depth, with what stands in it up to the next bracket. What
//! stands behind a list that is closed has a line of its own, as deep as that list. Report mode, comments left out.
use mihadrena::{Items, Kind, Options, Record, Refusal};

const PLAN: &str = include_str!("../../../examples/plan.scm");

/// How many blanks a level is indented by.
const INDENT: usize = 2;

fn outline(plan: &str) -> Result<String, Refusal> {
    let options = Options::report().without_comments();
    let mut records = vec![Record::default(); plan.len()];
    let mut text = vec![0; plan.len()];
    let mut lines: Vec<String> = Vec::new();
    let mut closed = true;
    let mut past = 0;
    for item in Items::new(plan, options, &mut records, &mut text)? {
        let (start, end) = (item.extent.start, item.extent.end);
        let closes = matches!(item.what, Ok(Kind::CloseParen(_)));
        let begins = closed || matches!(item.what, Ok(Kind::OpenParen(..)));
        match lines.last_mut() {
            _ if closes => (),
            _ if begins => lines.push(" ".repeat(INDENT * item.depth) + &plan[start..end]),
            Some(line) if start > past => *line += &format!(" {}", &plan[start..end]),
            Some(line) if start == past => *line += &plan[start..end],
            // the second item of a pair such as `+foo`, whose extent is there already
            _ => (),
        }
        closed = closes;
        past = end;
    }
    Ok(lines.into_iter().map(|line| line + "\n").collect())
}

fn main() -> Result<(), Refusal> {
    print!("{}", outline(PLAN)?);
    Ok(())
}

/// What the program in C prints.
#[test]
fn the_same_outline_as_in_c() {
    assert_eq!(outline(PLAN).as_deref(), Ok(include_str!("../../../examples/c/plan.outline.out")));
}

#[test]
fn a_pair_and_stray_closes() {
    assert_eq!(outline(")(a +b [c]d) e").as_deref(), Ok("(a +b\n  [c\n  d\ne\n"));
}
