//! A plan that owns its memory has the items, the nested lists and the lines of the lent ones.
#![cfg(feature = "alloc")]
use mihadrena::{nest, Error, Items, LineIndex, NodeRecord, NotNested, Options, Plan, Record, Refusal};

const TEXTS: [&str; 6] = [
    include_str!("../../../examples/plan.scm"),
    include_str!("../../../examples/office.scm"),
    include_str!("../../../examples/terminal.scm"),
    include_str!("../../../examples/c/errors.scm"),
    "",
    "(",
];

/// The data of some nodes, each as its spelling with what lies beneath it.
fn spelled(nodes: mihadrena::Nodes) -> Vec<String> {
    nodes.map(|node| format!("{} {:?}", node.spelling(), spelled(node.children()))).collect()
}

#[test]
fn all_in_one() {
    for text in TEXTS {
        for options in [Options::default(), Options::report(), Options::report().without_comments()] {
            let plan = Plan::read(text, options).expect("a text");
            let (mut records, mut memory) = (vec![Record::default(); text.len()], vec![0; text.len()]);
            let items = Items::new(text, options, &mut records, &mut memory).expect("a text");
            assert!(plan.items().eq(items.clone()), "{text}");
            let mut nodes = vec![NodeRecord::default(); items.len()];
            assert_eq!(plan.nodes().map(spelled), nest(&items, &mut nodes).map(spelled), "{text}");
            let mut starts = vec![0; text.len() + 1];
            let lines = LineIndex::new(text, &mut starts).expect("a text");
            assert_eq!(plan.lines().starts(), lines.starts(), "{text}");
            let found: Vec<_> = plan.errors().map(|found| (found.error, found.place, found.position)).collect();
            let errors = items.filter_map(|item| Some((item.what.err()?, item.place.clone(), item.place)));
            let located: Vec<_> =
                errors.map(|(e, place, at)| (e, place, lines.locate(at.start).expect("a place"))).collect();
            assert_eq!(found, located, "{text}");
            assert_eq!(plan.source(), text);
        }
    }
}

#[test]
fn where_it_is_refused() {
    let plan = Plan::read("(a\nø (b)", Options::report()).expect("a text");
    let refusal = plan.nodes().map(spelled).expect_err("a bracket is open");
    assert_eq!(refusal, NotNested::BracketOpen(6));
    let end = refusal.item().and_then(|item| plan.position(item)).expect("the end");
    assert_eq!((end.to_string(), plan.position(7)), ("2:6".to_string(), None));
    assert_eq!(Plan::read(b"a\xFF", Options::report()).err(), Some(Refusal::NotUtf8(1)));
    let plan = Plan::read("a\n##", Options::report()).expect("a text");
    let found: Vec<_> = plan.errors().collect();
    assert_eq!((found.len(), found[0].error), (1, Error::UnexpectedChar('#')));
    assert_eq!(found[0].to_string(), "2:1: unexpected char '#'");
}

/// It may be handed to another thread, and shared.
#[test]
fn between_threads() {
    fn handed<T: Send + Sync + Clone + 'static>(_: &T) {}
    handed(&Plan::read("(a)", Options::report()).expect("a text"));
}
