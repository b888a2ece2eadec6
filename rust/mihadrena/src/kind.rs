//! What an item is.
use crate::raw::{self, Record};

/// The shape of a bracket.
#[derive(Clone, Copy, Debug, PartialEq, Eq, Hash)]
pub enum Paren {
    /// `(` and `)`
    Round,
    /// `[` and `]`
    Square,
    /// `{` and `}`
    Curly,
}

/// What stands before an opening bracket.
#[derive(Clone, Copy, Debug, PartialEq, Eq, Hash)]
pub enum ParenMod {
    /// `#(`
    Vector,
    /// `#u8(`
    Bytes,
}

/// What an item is, in the order and by the names of the Rust's `TokenType`. Text is lent: it lies in the source or in the text memory, and
/// outlives the records. There are no other kinds, so that a `match` may name them all.
#[derive(Clone, Copy, Debug, PartialEq, Eq, Hash)]
pub enum Kind<'a> {
    /// `(`, `[`, `{`, `#(`, `#u8(`
    OpenParen(Paren, Option<ParenMod>),
    /// `)`, `]`, `}`
    CloseParen(Paren),
    /// `'`
    QuoteTick,
    /// `` ` ``
    QuasiQuote,
    /// `,`
    Unquote,
    /// `,@`
    UnquoteSplice,
    /// `#'`
    QuoteSyntax,
    /// `` #` ``
    QuasiQuoteSyntax,
    /// `#,`
    UnquoteSyntax,
    /// `#,@`
    UnquoteSpliceSyntax,
    /// `if`
    If,
    /// `define`, `defn`, `#%define`
    Define,
    /// `let`
    Let,
    /// `%plain-let`
    TestLet,
    /// `return!`
    Return,
    /// `begin`
    Begin,
    /// `lambda`, `fn`, `#%plain-lambda`, `λ`
    Lambda,
    /// `quote`
    Quote,
    /// `syntax-rules`
    SyntaxRules,
    /// `define-syntax`
    DefineSyntax,
    /// `...`
    Ellipses,
    /// `set!`
    Set,
    /// `require`
    Require,
    /// `#\a`, `#\newline`, `#\x41`
    CharacterLiteral(char),
    /// `#;`
    DatumComment,
    /// `;` to the end of the line, or between `#|` and `|#`
    Comment,
    /// `#t`, `#false`
    BooleanLiteral(bool),
    /// `stand`, `|a b|`
    Identifier(&'a str),
    /// `#:key`
    Keyword(&'a str),
    /// `14.7`, as it is written; [`number`](crate::number) gives its parts
    Number(&'a str),
    /// `"beech"`
    StringLiteral(&'a str),
    /// `.`
    Dot,
}

impl<'a> Kind<'a> {
    /// The kind of a record that is no error; none if a lexer gives no such kind or detail. `text` is its text; of a number, the extent.
    pub(crate) fn of(record: &Record, text: &'a str) -> Option<Self> {
        Some(match record.kind {
            raw::OPEN_PAREN => open(record.detail)?,
            raw::CLOSE_PAREN => Self::CloseParen(paren(record.detail)?),
            raw::QUOTE_TICK => Self::QuoteTick,
            raw::QUASI_QUOTE => Self::QuasiQuote,
            raw::UNQUOTE => Self::Unquote,
            raw::UNQUOTE_SPLICE => Self::UnquoteSplice,
            raw::QUOTE_SYNTAX => Self::QuoteSyntax,
            raw::QUASI_QUOTE_SYNTAX => Self::QuasiQuoteSyntax,
            raw::UNQUOTE_SYNTAX => Self::UnquoteSyntax,
            raw::UNQUOTE_SPLICE_SYNTAX => Self::UnquoteSpliceSyntax,
            raw::CHARACTER_LITERAL => Self::CharacterLiteral(char::from_u32(record.detail)?),
            raw::DATUM_COMMENT => Self::DatumComment,
            raw::COMMENT => Self::Comment,
            raw::BOOLEAN_LITERAL => Self::BooleanLiteral(record.detail == 1),
            raw::IDENTIFIER => Self::Identifier(text),
            raw::KEYWORD => Self::Keyword(text),
            raw::NUMBER => Self::Number(text),
            raw::STRING_LITERAL => Self::StringLiteral(text),
            raw::DOT => Self::Dot,
            word => Self::reserved(word)?,
        })
    }

    /// The kinds of words that stand for themselves.
    fn reserved(kind: u32) -> Option<Self> {
        Some(match kind {
            raw::IF => Self::If,
            raw::DEFINE => Self::Define,
            raw::LET => Self::Let,
            raw::TEST_LET => Self::TestLet,
            raw::RETURN => Self::Return,
            raw::BEGIN => Self::Begin,
            raw::LAMBDA => Self::Lambda,
            raw::QUOTE => Self::Quote,
            raw::SYNTAX_RULES => Self::SyntaxRules,
            raw::DEFINE_SYNTAX => Self::DefineSyntax,
            raw::ELLIPSES => Self::Ellipses,
            raw::SET => Self::Set,
            raw::REQUIRE => Self::Require,
            _ => return None,
        })
    }
}

fn open(detail: u32) -> Option<Kind<'static>> {
    match detail {
        raw::VECTOR => Some(Kind::OpenParen(Paren::Round, Some(ParenMod::Vector))),
        raw::BYTES => Some(Kind::OpenParen(Paren::Round, Some(ParenMod::Bytes))),
        bracket => Some(Kind::OpenParen(paren(bracket)?, None)),
    }
}

fn paren(detail: u32) -> Option<Paren> {
    match detail {
        raw::ROUND => Some(Paren::Round),
        raw::SQUARE => Some(Paren::Square),
        raw::CURLY => Some(Paren::Curly),
        _ => None,
    }
}
