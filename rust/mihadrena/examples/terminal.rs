//! A program to start from: it reads a plan in report mode and lists its stands with their names, the corners of their outlines as floats,
//! and whatever is wrong, at line and column.
//!
//!     terminal FILE             the plan is read whole
//!     terminal --pieces FILE    it comes in pieces of 512 bytes, each forgotten but for as many bytes as an item may have
use mihadrena::{raw, value, Item, Kind, LineIndex, NotNested, Options, Paren, PieceReader, Plan, Position, Refusal};
use std::env;
use std::fmt::Display;
use std::fs::File;
use std::io::{self, Read};

const OPTIONS: Options = Options::report().without_comments();
const PIECE: usize = 512;

/// How far back an item starts that is given or refused: its bytes, and the character behind it.
const KEPT: usize = raw::STATE_BYTES + 8;

/// The list that is read: what its next item is.
#[derive(Clone, Copy, Default, PartialEq)]
enum List {
    #[default]
    Other,
    Head,
    Stand,
    Corner,
}

/// What is listed, and where the listing stands.
#[derive(Default)]
struct Terminal {
    out: String,
    list: List,
    corner: Vec<f64>,
    /// The shapes of the brackets that are open.
    open: Vec<Paren>,
    /// How many `#;` wait for the datum that they drop.
    waiting: usize,
    /// The depth of the brackets of a list that is being dropped.
    dropped: Option<usize>,
}

impl Terminal {
    /// Tells what is wrong, and leaves the list.
    fn tell(&mut self, at: Position, what: impl Display) {
        self.out += &format!("{at}: {what}\n");
        self.list = List::Other;
    }

    /// Takes an item, in the order of the text, with its spelling and where it points at.
    fn take(&mut self, item: &Item, spelling: &str, at: Position) {
        self.heed_bracket(item, at);
        match item.what {
            Err(error) => self.tell(at, error),
            Ok(kind) if self.drops(kind, item.depth) => (),
            Ok(Kind::OpenParen(_, before)) => self.list = if before.is_none() { List::Head } else { List::Other },
            Ok(Kind::CloseParen(_)) => self.close(at),
            Ok(kind) => self.take_in_list(kind, spelling, at),
        }
    }

    /// A bracket closes one of its shape; they lie as deep as nested lists may.
    fn heed_bracket(&mut self, item: &Item, at: Position) {
        match item.what {
            Ok(Kind::OpenParen(paren, _)) => {
                self.open.push(paren);
                if item.depth >= raw::DEEPEST {
                    self.tell(at, "lists lie too deep");
                }
            }
            Ok(Kind::CloseParen(paren)) if self.open.pop() != Some(paren) => {
                self.tell(at, "a bracket closes nothing or another one");
            }
            _ => (),
        }
    }

    /// Whether an item is part of a datum that `#;` drops: a stand that was taken out of the plan is none.
    fn drops(&mut self, kind: Kind, depth: usize) -> bool {
        use Kind::{CloseParen, DatumComment, OpenParen, QuasiQuote, QuasiQuoteSyntax, QuoteSyntax, QuoteTick};
        use Kind::{Unquote, UnquoteSplice, UnquoteSpliceSyntax, UnquoteSyntax};
        match (self.dropped, kind) {
            (Some(list), CloseParen(_)) if depth == list + 1 => self.dropped = None,
            (Some(_), _) => (),
            (None, DatumComment) => self.waiting += 1,
            (None, CloseParen(_)) => return false,
            (None, _) if self.waiting == 0 => return false,
            (None, QuoteTick | QuasiQuote | Unquote | UnquoteSplice) => (),
            (None, QuoteSyntax | QuasiQuoteSyntax | UnquoteSyntax | UnquoteSpliceSyntax) => (),
            (None, _) => {
                self.waiting -= 1;
                self.dropped = matches!(kind, OpenParen(..)).then_some(depth);
            }
        }
        true
    }

    /// A `#;` that has no datum before a close or the end.
    fn expect_none_waits(&mut self, at: Position) {
        if self.waiting > 0 {
            self.tell(at, "nothing stands after #;");
        }
        self.waiting = 0;
    }

    fn take_in_list(&mut self, kind: Kind, spelling: &str, at: Position) {
        match self.list {
            List::Other => (),
            List::Head => {
                self.corner.clear();
                self.list = match kind {
                    Kind::Identifier("stand") => List::Stand,
                    Kind::Identifier("corner") => List::Corner,
                    _ => List::Other,
                };
            }
            List::Stand => {
                self.out += &format!("stand {spelling}\n");
                self.list = List::Other;
            }
            List::Corner => match kind {
                Kind::Number(digits) => match value(digits) {
                    Ok(coordinate) => self.corner.push(coordinate),
                    Err(refusal) => self.tell(at, refusal),
                },
                _ => self.tell(at, "a corner has numbers"),
            },
        }
    }

    fn close(&mut self, at: Position) {
        self.expect_none_waits(at);
        match (self.list, &self.corner[..]) {
            (List::Corner, [north, east]) => self.out += &format!("  corner {north:.2} {east:.2}\n"),
            (List::Corner, _) => self.tell(at, "a corner has two coordinates"),
            _ => (),
        }
        self.list = List::Other;
    }

    /// Takes the end of the text.
    fn end(mut self, at: Position) -> String {
        self.expect_none_waits(at);
        if !self.open.is_empty() {
            self.tell(at, NotNested::BracketOpen(0));
        }
        self.out
    }
}

/// The spelling of an item: its text, or its bytes, which start at a place.
fn spelling<'a>(item: &Item<'a>, bytes: &'a [u8], from: usize) -> String {
    match item.what {
        Ok(Kind::Identifier(text) | Kind::StringLiteral(text) | Kind::Keyword(text) | Kind::Number(text)) => {
            text.into()
        }
        _ => String::from_utf8_lossy(&bytes[item.extent.start - from..item.extent.end - from]).into(),
    }
}

/// A plan that is read whole.
fn whole(bytes: Vec<u8>) -> String {
    let mut terminal = Terminal::default();
    let plan = match Plan::read(bytes.clone(), OPTIONS) {
        Ok(plan) => plan,
        Err(refusal) => {
            terminal.tell(refused_at(&bytes, refusal), refusal);
            return terminal.out;
        }
    };
    let place = |place| plan.locate(place).expect("a place of the text");
    for item in plan.items() {
        terminal.take(&item, &spelling(&item, &bytes, 0), place(item.place.start));
    }
    terminal.end(place(bytes.len()))
}

/// Where a text that is not UTF-8 goes wrong: the bytes before are a text, and its end is a place.
fn refused_at(bytes: &[u8], refusal: Refusal) -> Position {
    let good = if let Refusal::NotUtf8(place) = refusal { &bytes[..place] } else { &[] };
    let mut memory = vec![0; good.len() + 1];
    let lines = LineIndex::new(good, &mut memory).expect("a text");
    lines.locate(good.len()).expect("its end")
}

/// The bytes that came last, with the place of the first one, and where that stands.
struct Window {
    bytes: Vec<u8>,
    from: usize,
    start: Position,
}

impl Window {
    /// Where a place among the bytes stands. A byte that goes on with a character is no column of its own.
    fn locate(&self, place: usize) -> Position {
        self.bytes[..place - self.from].iter().fold(self.start, |at, &byte| match byte {
            b'\n' => Position { line: at.line + 1, column: 1 },
            0x80..=0xBF => at,
            _ => Position { column: at.column + 1, ..at },
        })
    }

    /// Forgets what no item can reach back to, and takes a piece.
    fn push(&mut self, piece: &[u8]) {
        let old = self.bytes.len().saturating_sub(KEPT);
        self.start = self.locate(self.from + old);
        self.from += old;
        self.bytes.drain(..old);
        self.bytes.extend_from_slice(piece);
    }
}

/// A plan that comes in pieces.
fn in_pieces(source: &mut impl Read) -> io::Result<String> {
    let mut terminal = Terminal::default();
    let mut seen = Window { bytes: Vec::new(), from: 0, start: Position { line: 1, column: 1 } };
    let mut reader = PieceReader::new(OPTIONS);
    let mut piece = [0; PIECE];
    loop {
        let got = source.read(&mut piece)?;
        let mut left = &piece[..got];
        seen.push(left);
        loop {
            match if got > 0 { reader.push(&mut left) } else { reader.end() } {
                Ok(Some(item)) => {
                    terminal.take(&item, &spelling(&item, &seen.bytes, seen.from), seen.locate(item.place.start));
                }
                Ok(None) if got > 0 => break,
                Ok(None) => return Ok(terminal.end(seen.locate(seen.from + seen.bytes.len()))),
                Err(refusal) => {
                    let place = match refusal {
                        Refusal::NotUtf8(place) | Refusal::LongItem(place) => place,
                        _ => seen.from,
                    };
                    terminal.tell(seen.locate(place), refusal);
                    return Ok(terminal.out);
                }
            }
        }
    }
}

fn main() -> io::Result<()> {
    let words: Vec<String> = env::args().skip(1).collect();
    let words: Vec<&str> = words.iter().map(String::as_str).collect();
    match words[..] {
        ["--pieces", path] => print!("{}", in_pieces(&mut File::open(path)?)?),
        [path] => print!("{}", whole(std::fs::read(path)?)),
        _ => eprintln!("usage: terminal [--pieces] FILE"),
    }
    Ok(())
}

#[cfg(test)]
mod tests {
    use super::{in_pieces, whole, OPTIONS};
    use mihadrena::{Nodes, Plan};

    const PLAN: &[u8] = include_bytes!("../../../examples/terminal.scm");
    const LISTED: &str = include_str!("../../../examples/c/terminal.out");

    const WRONG: &str = "a bracket closes nothing or another one";
    const OPEN: &str = "a bracket is open at the end\n";

    /// What both give.
    fn both(plan: &[u8]) -> String {
        let listed = whole(plan.to_vec());
        assert_eq!(in_pieces(&mut &plan[..]).expect("bytes in memory"), listed);
        listed
    }

    /// The lines of the program in C, but that an error has the words of this crate.
    #[test]
    fn the_lines_of_the_program_in_c() {
        let listed = both(PLAN);
        assert_eq!(listed, include_str!("terminal.out"));
        let told = |line: &str| line.split_once(": ").map_or(line.to_string(), |(at, _)| at.to_string());
        assert!(listed.lines().map(told).eq(LISTED.lines().map(told)));
    }

    /// What the nested lists have: of plans without a slip, the stands that no `#;` dropped.
    #[test]
    fn the_stands_are_those_of_the_nested_lists() {
        fn stands(nodes: Nodes, out: &mut String) {
            for node in nodes {
                if node.head() == Some("stand") {
                    *out += &format!("stand {}\n", node.children().nth(1).expect("a name").spelling());
                }
                stands(node.children(), out);
            }
        }
        let plan = include_str!("../../../examples/plan.scm");
        let dropped = "#;(stand 1) #;'(stand 2) #;#;(stand 3) [stand 4] (stand 5 #;(stand 6 (stand 7)) (stand 8)) \
                       #(stand 9) (\"stand\" 10) #;a (stand 11 #;12)";
        for text in [plan, dropped] {
            let mut expected = String::new();
            stands(Plan::read(text, OPTIONS).expect("a text").nodes().expect("nested lists"), &mut expected);
            let listed = both(text.as_bytes());
            let names: String =
                listed.lines().filter(|line| line.starts_with("stand")).map(|line| format!("{line}\n")).collect();
            assert_eq!(names, expected);
        }
        assert_eq!(both(b"(a #;) '#;"), "1:6: nothing stands after #;\n1:11: nothing stands after #;\n");
    }

    #[test]
    fn what_is_no_text_and_what_is_too_long_for_pieces() {
        assert_eq!(both(b"\n \xC3\xB8\xFF"), "2:3: invalid UTF-8 at byte 4\n");
        assert_eq!(both(b""), "");
        assert_eq!(
            both(b"(a)) #(a] ["),
            [4, 9].map(|column| format!("1:{column}: {WRONG}\n")).concat() + "1:12: " + OPEN
        );
        assert_eq!(both("(".repeat(65).as_bytes()), format!("1:65: lists lie too deep\n1:66: {OPEN}"));
        let open = format!("(a\n  \"{}", "ø".repeat(4096));
        assert_eq!(whole(open.clone().into()), "2:3: incomplete string\n2:4100: a bracket is open at the end\n");
        assert_eq!(in_pieces(&mut open.as_bytes()).expect("bytes"), "2:3: item at byte 5 exceeds 4096 bytes\n");
        let many = "(stand x (corner 1.5 2) |Ø| 1/0)\n".repeat(500);
        assert_eq!(both(many.as_bytes()).lines().count(), 1500);
    }
}
