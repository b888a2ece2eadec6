//! Gives each identifier of the example plan its number in one table for planner and contractor: the planner asks for those of the first
//! half of the plan's items, the contractor for those of all. It prints a line for each number, with its name. Report mode.
use mihadrena::{raw, Items, Kind, Names, NoName, Options, Party, Record};

const PLAN: &str = include_str!("../../../examples/plan.scm");

/// The lines.
fn listed(plan: &str) -> Result<String, NoName> {
    let options = Options::report().without_comments();
    let mut records = vec![Record::default(); plan.len()];
    let mut text = vec![0; plan.len()];
    let items: Vec<_> = Items::new(plan, options, &mut records, &mut text).expect("a plan").collect();
    let (mut words, mut bytes) = (vec![0; Names::WORDS], vec![0; Names::BYTES]);
    let mut names = Names::open(&mut words, &mut bytes)?;
    for (party, asked) in [(Party::Planner, &items[..items.len() / 2]), (Party::Contractor, &items[..])] {
        for item in asked {
            if let Ok(Kind::Identifier(name)) = item.what {
                names.enter(party, name)?;
            }
        }
    }
    Ok(lines(&names, "planner", raw::PLANNERS_FIRST) + &lines(&names, "contractor", raw::CONTRACTORS_FIRST))
}

/// The names of a party, in the order of their numbers.
fn lines(names: &Names<'_>, party: &str, first: u32) -> String {
    let numbers = first..first + raw::CONTRACTORS_FIRST;
    let found = numbers.map_while(|number| names.name_str(number).ok()?.map(|name| (number, name)));
    found.map(|(number, name)| format!("{party} {number} {name}\n")).collect()
}

fn main() -> Result<(), NoName> {
    print!("{}", listed(PLAN)?);
    Ok(())
}

/// What the program in C prints.
#[test]
fn the_same_numbers_as_in_c() {
    assert_eq!(listed(PLAN).as_deref(), Ok(include_str!("../../../examples/c/plan.names.out")));
}
