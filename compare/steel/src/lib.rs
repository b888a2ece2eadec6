//! The Rust, unchanged: `lexer.rs`, `tokens.rs`, `span.rs` and `interner.rs` are compiled from the folder that build.rs found,
//! and of `parser.rs` only the type `SourceId` is supplied. `items` puts what they answer into document 01's words.
//!
//! The crate `steel_report` is this one with report mode's lines changed (steel_report/lexer.diff). It is an aid to test report
//! mode and no judge: those lines are ours and not the Rust's. `steel_bare` is this one with both interners keeping nothing (interner.diff,
//! tokens.diff there): an aid to measure the Rust without them.
extern crate alloc;

mod items;
mod number;

pub use items::read;
pub use number::{number, NumberAnswer};

/// Runs the Rust over a text, comments kept, and looks at nothing: how many items it hands out. For measuring.
pub fn run(text: &str) -> u64 {
    lexer::TokenStream::new(text, false, None).map(core::hint::black_box).count() as u64
}

/// Runs the Rust's number call: whether the text is a number. For measuring.
pub fn run_number(text: &str) -> bool {
    core::hint::black_box(lexer::number_call(text)).is_ok_and(|literal| literal.is_some())
}

/// What the four files use of parser.rs.
mod parser {
    use serde::{Deserialize, Serialize};

    #[derive(Clone, Copy, PartialEq, Eq, Hash, Serialize, Deserialize, Default, Debug, Ord, PartialOrd)]
    #[repr(C)]
    pub struct SourceId(pub u32);
}

#[allow(dead_code)]
mod interner {
    include!(env!("STEEL_INTERNER"));
}

#[allow(dead_code)]
mod lexer {
    include!(env!("STEEL_LEXER"));

    /// The lexer's own number call, which is private there.
    pub(crate) fn number_call(text: &str) -> Result<Option<NumberLiteral>> {
        try_parse_number(text, None)
    }
}

#[allow(dead_code)]
mod span {
    include!(env!("STEEL_SPAN"));
}

#[allow(dead_code)]
mod tokens {
    include!(env!("STEEL_TOKENS"));
}
