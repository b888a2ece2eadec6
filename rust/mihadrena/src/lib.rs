//! A proved reader of felling plans: the items of a Scheme text as Steel's lexer reads them, in lent memory.
//!
//! The functions behind this crate are proved (crates/ of the repository): every call ends, touches only the memory that it is lent, and
//! answers what the definitions say. This crate makes a safe interface of them: [`Items`] reads a whole text, [`Reader`] one item of it a
//! call, [`Fields`] many short texts in one call, [`PieceReader`] a text that comes in pieces, [`number`] and [`number_by`] take a number
//! apart, [`value`] and [`coordinate`] make a float of one, [`nest`] makes nested lists of items, [`write()`] writes items back,
//! [`LineIndex`] and [`LinePieces`] tell line and column, [`Names`] numbers names for two parties, [`write_items`] and [`read_items`] store
//! records as item files, [`opener`] and [`records_fit`] answer questions about records, and [`find()`] tells what a foreman can act on and
//! [`render`] how it reads. A new program reads in report mode ([`Options::report`]); plain mode is there to read as Steel does. The
//! example `terminal` is a program to start from.
//!
//! It allocates nothing and depends on nothing but the archive that `.ci/archive` writes; `build.rs` looks for it in the repository's target
//! folder, or in the folder that the environment variable `MIHADRENA_ARCHIVE` names. Only linking needs it. There are archives for Linux on
//! x86-64, on Arm of 64 bits (`.ci/archive --target aarch64-linux-gnu`) and on RISC-V of 64 bits (`riscv64-linux-gnu`). With the feature
//! `alloc` there is also `Plan`, which owns a plan's text, items, nested lists and lines.
//!
//! Refusals and errors are `#[non_exhaustive]`: a later version may have more.
//!
//! ```
//! use mihadrena::{number, Int, Items, Kind, Number, Options, Real, Record};
//!
//! let plan = "(stand 101 (volume 412.5)) ; solid cubic metres";
//! let options = Options::report().without_comments();
//! let mut records = vec![Record::default(); plan.len()];
//! let mut text = vec![0; plan.len()];
//! for item in Items::new(plan, options, &mut records, &mut text)? {
//!     match item.what {
//!         Ok(Kind::Number("101")) => assert_eq!(number("101"), Ok(Number::Real(Real::Integer(Int::Small(101))))),
//!         Ok(Kind::Identifier(name)) => assert_eq!(name, &plan[item.extent]),
//!         Ok(_) => (),
//!         Err(error) => panic!("{error} at {:?}", item.place),
//!     }
//! }
//! # Ok::<(), mihadrena::Refusal>(())
//! ```
#![no_std]
#![warn(missing_docs, clippy::pedantic)]
#![allow(clippy::cast_possible_truncation, clippy::cast_possible_wrap)]

#[cfg(not(all(target_os = "linux", any(target_arch = "x86_64", target_arch = "aarch64", target_arch = "riscv64"))))]
compile_error!("there are archives for Linux on x86-64, Arm (aarch64) and RISC-V (riscv64), and for no other target");

#[cfg(feature = "alloc")]
extern crate alloc;

mod coordinate;
mod error;
mod fields;
mod files;
mod find;
mod items;
mod kind;
mod lines;
mod names;
mod nested;
mod number;
mod number_by;
mod pieces;
#[cfg(feature = "alloc")]
mod plan;
#[allow(missing_docs, clippy::unreadable_literal)]
pub mod raw;
mod reader;
mod records;
mod render;
mod write;

pub use coordinate::{coordinate, record_coordinate, record_value, value, NoCoordinate};
pub use error::{Error, HexError, Refusal};
pub use fields::{Fields, NoFields};
pub use files::{read_items, write_items, FileRefusal};
pub use find::{find, FewRecords, Finding, Findings, Severity};
pub use items::{needed, Item, Items, Mode, Needed, Options};
pub use kind::{Kind, Paren, ParenMod};
pub use lines::{LineIndex, LinePieces, LineRefusal, Position};
pub use names::{Names, NoName, Party};
pub use nested::{nest, Node, NodeKind, Nodes, NotNested};
pub use number::{number, Decimal, Int, NotNumber, Number, Real, Sign};
pub use number_by::{number_by, NumberReader};
pub use pieces::PieceReader;
#[cfg(feature = "alloc")]
pub use plan::{Found, Plan};
#[doc(inline)]
pub use raw::{Node as NodeRecord, Record, Row};
pub use reader::Reader;
pub use records::{opener, records_fit};
pub use render::{render, summary, Style};
pub use write::{write, NotWritten};

/// The version of the archive that is linked: major times 65536, minor times 256, patch.
///
/// ```
/// assert!(mihadrena::version() >= 21 * 256);
/// ```
#[must_use]
pub fn version() -> u32 {
    // SAFETY: the call takes nothing.
    unsafe { raw::mihadrena_version() }
}
