//! The Rust's tokens and errors as document 01's records.
//!
//! Everything is taken from what `TokenStream` hands out. Its `source` slice is the extent, of an error too; its `span` is the
//! place. Whether a text was decoded is seen by comparing it with the source between its delimiters: an escape is always longer
//! than the character it stands for, so the two are equal exactly if nothing was decoded. The brackets that its tokens open and close are
//! laid on a pile, one on the other: an item's depth is how high it is.
use crate::lexer::{number_call, TokenError, TokenStream};
use crate::number::parts;
use crate::span::Span;
use crate::tokens::{InternedNumber, Paren, ParenMod, TokenType};
use crate::{interner::InternedString, tokens::TokenType::*};
use core::num::IntErrorKind;
use core::ops::Range;
use item::{Item, Number, Reading, IN_MEMORY, IN_SOURCE, NO_TEXT};

/// Errors have this much added to their number.
const ERROR: u32 = 100;

/// Reads a whole text as the Rust does, into `out`. Returns how many zeros the Rust's interner handed back with the other sign
/// (difference A5): the item has the sign that stands in the text.
pub fn read(text: &str, skip_comments: bool, out: &mut Reading) -> u64 {
    out.clear();
    let mut zeros = 0;
    let mut last = 0..0;
    let mut open = Vec::new();
    for answer in TokenStream::new(text, skip_comments, None) {
        let (slice, span) = match &answer {
            Ok(token) => (token.source, token.span),
            Err(error) => (error.source, error.span),
        };
        let start = slice.as_ptr() as usize - text.as_ptr() as usize;
        let extent = start..start + slice.len();
        let depth = open.len();
        let item = match &answer {
            Ok(token) => {
                let at = Token { slice, extent: extent.clone(), queued: extent == last, depth };
                at.item(&token.ty, span, &mut out.memory, &mut zeros)
            }
            Err(error) => {
                let (number, detail) = error_words(&error.ty);
                item([ERROR + number, detail], &extent, span, (NO_TEXT, 0..0), depth, None)
            }
        };
        match &answer {
            Ok(token) if matches!(token.ty, OpenParen(..)) => open.push(start),
            Ok(token) if matches!(token.ty, CloseParen(_)) => drop(open.pop()),
            _ => (),
        }
        out.items.push(item);
        last = extent;
    }
    zeros
}

fn item(
    [kind, detail]: [u32; 2],
    extent: &Range<usize>,
    place: Span,
    (source, text): (u32, Range<usize>),
    depth: usize,
    number: Option<Number>,
) -> Item {
    let record = [
        kind,
        detail,
        word(extent.start),
        word(extent.end),
        place.start,
        place.end,
        source,
        word(text.start),
        word(text.end),
        word(depth),
    ];
    Item { record, number }
}

fn word(place: usize) -> u32 {
    u32::try_from(place).expect("texts of 4 GiB are not read here")
}

/// A token where it stands. A queued one has the extent of the token before it: `+foo` is `+` and, queued, `foo`.
struct Token<'a> {
    slice: &'a str,
    extent: Range<usize>,
    queued: bool,
    depth: usize,
}

impl Token<'_> {
    fn item(&self, token: &TokenType<InternedString>, place: Span, memory: &mut Vec<u8>, zeros: &mut u64) -> Item {
        let text = match token {
            Identifier(text) => self.identifier(text.resolve(), memory),
            Keyword(text) => self.in_source(0, text.resolve()),
            StringLiteral(text) => self.string(text.resolve(), memory),
            _ => (NO_TEXT, 0..0),
        };
        let number = match token {
            Number(interned) => Some(self.number(interned, zeros)),
            _ => None,
        };
        item([kind(token), detail(token)], &self.extent, place, text, self.depth, number)
    }

    /// Text that stands in the source `skip` bytes behind the extent's start.
    fn in_source(&self, skip: usize, text: &str) -> (u32, Range<usize>) {
        assert_eq!(self.slice.get(skip..skip + text.len()), Some(text), "a text is in the source or decoded");
        let start = self.extent.start + skip;
        (IN_SOURCE, start..start + text.len())
    }

    /// The text of a token between two delimiters of one byte: in the source, or decoded behind what memory holds.
    fn delimited(&self, text: &str, memory: &mut Vec<u8>) -> (u32, Range<usize>) {
        if text == &self.slice[1..self.slice.len() - 1] {
            return self.in_source(1, text);
        }
        let start = memory.len();
        memory.extend_from_slice(text.as_bytes());
        (IN_MEMORY, start..memory.len())
    }

    fn identifier(&self, text: &str, memory: &mut Vec<u8>) -> (u32, Range<usize>) {
        match self.slice.as_bytes()[0] {
            b'|' => self.delimited(text, memory),
            b'+' if self.queued => self.in_source(1, text),
            _ => self.in_source(0, text),
        }
    }

    /// A string in quotes, or a here-string, whose body stands behind its first line.
    fn string(&self, text: &str, memory: &mut Vec<u8>) -> (u32, Range<usize>) {
        match self.slice.find('\n') {
            Some(newline) if self.slice.starts_with("#<<") => self.in_source(newline + 1, text),
            _ => self.delimited(text, memory),
        }
    }

    /// The number's parts: what the number call gives for the extent. The interner may hand back another zero.
    fn number(&self, interned: &InternedNumber, zeros: &mut u64) -> Number {
        let literal = number_call(self.slice).ok().flatten().expect("a number token is a number");
        let resolved = interned.resolve();
        assert_eq!(resolved, literal, "the interner keeps numbers but for a zero's sign");
        if parts(&resolved) != parts(&literal) {
            *zeros += 1;
        }
        parts(&literal)
    }
}

/// A token's kind: its place in the order of `TokenType`.
fn kind(token: &TokenType<InternedString>) -> u32 {
    match token {
        OpenParen(..) => 0,
        CloseParen(_) => 1,
        QuoteTick => 2,
        QuasiQuote => 3,
        Unquote => 4,
        UnquoteSplice => 5,
        QuoteSyntax => 6,
        QuasiQuoteSyntax => 7,
        UnquoteSyntax => 8,
        UnquoteSpliceSyntax => 9,
        If => 10,
        Define => 11,
        Let => 12,
        TestLet => 13,
        Return => 14,
        Begin => 15,
        Lambda => 16,
        Quote => 17,
        SyntaxRules => 18,
        DefineSyntax => 19,
        Ellipses => 20,
        Set => 21,
        Require => 22,
        CharacterLiteral(_) => 23,
        DatumComment => 24,
        Comment => 25,
        BooleanLiteral(_) => 26,
        Identifier(_) => 27,
        Keyword(_) => 28,
        Number(_) => 29,
        StringLiteral(_) => 30,
        Dot => 31,
    }
}

fn detail(token: &TokenType<InternedString>) -> u32 {
    match token {
        OpenParen(_, Some(ParenMod::Vector)) => 3,
        OpenParen(_, Some(ParenMod::Bytes)) => 6,
        OpenParen(paren, None) | CloseParen(paren) => match paren {
            Paren::Round => 0,
            Paren::Square => 1,
            Paren::Curly => 2,
        },
        CharacterLiteral(c) => *c as u32,
        BooleanLiteral(value) => *value as u32,
        _ => 0,
    }
}

/// An error's number and detail, as 01's table has them.
fn error_words(error: &TokenError) -> (u32, u32) {
    match error {
        TokenError::UnexpectedChar(c) => (1, *c as u32),
        TokenError::IncompleteString => (2, 0),
        TokenError::IncompleteIdentifier => (3, 0),
        TokenError::IncompleteComment => (4, 0),
        TokenError::InvalidWhitespace => (5, 0),
        TokenError::InvalidStringEscape(c) => (6, *c as u32),
        TokenError::InvalidCharacter => (7, 0),
        TokenError::ZeroDenominator => (8, 0),
        TokenError::UnclosedHexEscape(closer) => (9, *closer as u32),
        TokenError::InvalidCharName => (10, 0),
        TokenError::InvalidHexEscapeLiteral(error) => match error.kind() {
            IntErrorKind::Empty => (11, 1),
            IntErrorKind::InvalidDigit => (11, 2),
            IntErrorKind::PosOverflow => (11, 3),
            other => unreachable!("an unsigned number has no error {other:?}"),
        },
        TokenError::InvalidHexCodePoint(code) => (12, *code),
    }
}
