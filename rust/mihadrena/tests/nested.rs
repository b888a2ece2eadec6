//! Children and siblings are those that the library tells, names and numbers are those of the items, and brackets are those of the depths.
use mihadrena::{
    nest, opener, raw, record_value, records_fit, Items, Kind, Node, NodeKind, NodeRecord, Options, Record,
};

const PLAN: &str = include_str!("../../../examples/plan.scm");
const OFFICE: &str = include_str!("../../../examples/office.scm");
const TEXTS: [&str; 5] = [PLAN, OFFICE, "", "a '(b . c) #(d #u8(1)) if", "(((a) b) (c (d) e) [f {g}])"];

fn room(text: &str) -> (Vec<Record>, Vec<u8>, Vec<NodeRecord>) {
    (vec![Record::default(); text.len()], vec![0; text.len()], vec![NodeRecord::default(); text.len()])
}

/// The numbers of the records with which the nodes directly beneath one start, as the library tells them; at the top `within` is none.
fn told(nodes: &[NodeRecord], within: Option<usize>) -> Vec<u32> {
    let (pointer, words) = (nodes.as_ptr().cast(), nodes.len() * raw::NODE_WORDS);
    // SAFETY: the pointer and the length are those of a slice, and a node is NODE_WORDS words.
    let first = within.map_or(0, |at| unsafe { raw::mihadrena_first_child(pointer, words, at) });
    // SAFETY: as above.
    let next = |&at: &usize| unsafe { raw::mihadrena_next_sibling(pointer, words, within.unwrap_or(nodes.len()), at) };
    let all = std::iter::successors(Some(first), |at| Some(next(at))).take_while(|&at| at < nodes.len());
    all.map(|at| nodes[at].item).collect()
}

fn starts(nodes: &mut dyn Iterator<Item = Node>) -> Vec<u32> {
    nodes.map(|node| node.record().start).collect()
}

/// That the children of each node, and the siblings of each child, are those that the library tells.
fn walks(node: &Node, nodes: &[NodeRecord], records: &[Record]) {
    let at = nodes.iter().position(|one| records[one.item as usize].start == node.record().start).expect("a node");
    let expected: Vec<u32> = told(nodes, Some(at)).iter().map(|&item| records[item as usize].start).collect();
    assert_eq!(starts(&mut node.children()), expected);
    for (i, child) in node.children().enumerate() {
        assert_eq!(starts(&mut child.siblings()), expected[i + 1..]);
        walks(&child, nodes, records);
    }
}

#[test]
fn children_and_siblings() {
    for text in TEXTS {
        let (mut records, mut memory, mut nodes) = room(text);
        let items = Items::new(text, Options::report(), &mut records, &mut memory).expect("a text");
        let records = items.records();
        let count = nest(&items, &mut nodes).expect("nested lists").map(|node| 1 + beneath(&node)).sum();
        let written = nodes[..count].to_vec();
        let top = nest(&items, &mut nodes).expect("nested lists");
        let expected: Vec<u32> = told(&written, None).iter().map(|&item| records[item as usize].start).collect();
        assert_eq!(starts(&mut top.clone()), expected, "{text}");
        top.for_each(|node| walks(&node, &written, records));
    }
}

fn beneath(node: &Node) -> usize {
    node.children().map(|child| 1 + beneath(&child)).sum()
}

#[test]
fn names_and_numbers() {
    let text = r#"(stand |a b| "c\n" fn if #:k 101 1/6 14.7 () . x)"#;
    let (mut records, mut memory, mut nodes) = room(text);
    let items = Items::new(text, Options::report(), &mut records, &mut memory).expect("a text");
    let list = nest(&items, &mut nodes).expect("a list").next().expect("a list");
    assert_eq!((list.kind(), list.head(), list.name(), list.spelling()), (NodeKind::DottedList, None, None, "("));
    let told: Vec<_> = list.children().map(|node| (node.spelling(), node.name(), node.number().ok())).collect();
    let symbol = |name| (name, Some(name), None);
    let expected = [
        symbol("stand"),
        symbol("a b"),
        ("c\n", None, None),
        symbol("fn"),
        symbol("if"),
        symbol("#:k"),
        ("101", None, Some(101.0)),
        ("1/6", None, None),
        ("14.7", None, Some(14.7)),
        ("(", None, None),
        symbol("x"),
    ];
    assert_eq!(told, expected);
    for node in list.children() {
        assert_eq!(node.number(), record_value(text, node.record()));
    }
}

/// A name outlives the items, the nodes and their memory.
#[test]
fn names_outlive_records() {
    fn heads<'t>(text: &'t str, memory: &'t mut [u8]) -> Vec<&'t str> {
        let (mut records, _, mut nodes) = room(text);
        let items = Items::new(text, Options::report(), &mut records, memory).expect("a text");
        nest(&items, &mut nodes).expect("nested lists").filter_map(|node| node.head()).collect()
    }
    assert_eq!(heads("(a) (|b\\x41;|) (\"c\")", &mut [0; 32]), ["a", "bA"]);
}

/// The brackets of records, by a stack.
#[test]
fn openers() {
    for text in [PLAN, ")(a (b)) c (", "([)]"] {
        let (mut records, mut memory, _) = room(text);
        let items = Items::new(text, Options::report(), &mut records, &mut memory).expect("a text");
        let records = items.records();
        let mut open = Vec::new();
        for (at, item) in items.enumerate() {
            assert_eq!(opener(records, at), open.last().copied(), "{text}: {at}");
            match item.what {
                Ok(Kind::OpenParen(..)) => open.push(at),
                Ok(Kind::CloseParen(_)) => drop(open.pop()),
                _ => (),
            }
        }
        assert_eq!(opener(records, records.len()), None);
    }
}

/// Records that were sent: their own are taken, one word changed to any other leads to an answer.
#[test]
fn records_that_were_sent() {
    let text = "(a \"é\\n\" #\\b 1/0 \"\\x;\" #t 14.7)";
    let (mut records, mut memory, _) = room(text);
    let count = Items::new(text, Options::report(), &mut records, &mut memory).expect("a text").len();
    records.truncate(count);
    assert!(records_fit(&records, text, &memory));
    let own: Vec<_> = Items::stored(text, &records, &memory).expect("its own").collect();
    assert_eq!(own.len(), count);
    let fields: [fn(&mut Record) -> &mut u32; 10] = [
        |record| &mut record.kind,
        |record| &mut record.detail,
        |record| &mut record.start,
        |record| &mut record.end,
        |record| &mut record.place_start,
        |record| &mut record.place_end,
        |record| &mut record.text_source,
        |record| &mut record.text_start,
        |record| &mut record.text_end,
        |record| &mut record.depth,
    ];
    let (mut taken, mut refused) = (0, 0);
    for at in 0..count {
        for field in fields {
            for value in (0..50).chain(98..116).chain([0xD800, u32::MAX]) {
                let mut sent = records.clone();
                *field(&mut sent[at]) = value;
                let Some(items) = Items::stored(text, &sent, &memory) else {
                    refused += 1;
                    continue;
                };
                taken += 1;
                assert!(records_fit(&sent, text, &memory));
                assert_eq!(items.clone().count(), count);
                let mut nodes = vec![NodeRecord::default(); count];
                if let Ok(nodes) = nest(&items, &mut nodes) {
                    nodes.for_each(|node| drop((node.item(), node.spelling(), node.number())));
                }
            }
        }
    }
    assert!(taken > 1000 && refused > 1000, "{taken} {refused}");
}

/// What is taken of records that were sent has no kind and no detail that the library finds alien.
#[test]
fn nothing_alien_is_taken() {
    for kind in (0..40).chain(98..120) {
        for detail in (0..8).chain([0xD800, 0x10_FFFF, 0x11_0000, u32::MAX]) {
            for text_source in 0..4 {
                let sent = Record { kind, detail, end: 1, place_end: 1, text_source, ..Record::default() };
                if Items::stored("1", &[sent], &[]).is_some() {
                    assert_ne!(nested(&sent), raw::ALIEN, "{sent:?}");
                }
            }
        }
    }
}

/// What `mihadrena_nest` answers of one record.
fn nested(record: &Record) -> u32 {
    let (mut nodes, mut values) = ([0; raw::NODE_WORDS], [0; raw::NEST_VALUES]);
    // SAFETY: each pointer and length is those of an array or a record, and the mutable ones are borrowed as such.
    unsafe {
        raw::mihadrena_nest(
            (&raw const *record).cast(),
            raw::RECORD_WORDS,
            nodes.as_mut_ptr(),
            nodes.len(),
            values.as_mut_ptr(),
            values.len(),
        )
    }
}
