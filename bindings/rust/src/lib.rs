//! A proved reader of Roto route filters. Every text gets an answer: a tree, tokens or bytes, or a [`Refusal`] with its number and place;
//! what each answer is was proved of the compiled code that this crate links (`liblekhyundo.a`), and the functions here only lend it
//! memory. That code is Rattle's; what is Rust here, the walk over rows above all, is tested.
//!
//! ```
//! use lekhyundo::{Kind, Reader};
//!
//! let source = b"
//! filter customers(route: Route) {
//!     if route.prefix.len() > 24 { reject }
//!     accept
//! }";
//! let mut reader = Reader::default();
//! let tree = reader.tree(source)?;
//! for node in tree.nodes().filter(|node| node.kind() == Kind::Call) {
//!     assert_eq!(node.text(), "route.prefix.len()");
//! }
//!
//! let refusal = Reader::default().tree(b"filter f(r: Route) { accept r reject }").unwrap_err();
//! assert_eq!(refusal.to_string(), "refused 6 at 30..36: token not usable here");
//! # Ok::<(), lekhyundo::Refusal>(())
//! ```
//!
//! | entry point | here |
//! |---|---|
//! | (a) source to tree, (b) source to one expression | [`Reader::tree`], [`Reader::expression`], both a [`Tree`] |
//! | (c) source to tokens | [`token_list`], and [`tokens`] one by one |
//! | (d) the text of a name | [`Node::name`], [`name`] of a row |
//! | (e) a string decoded | [`decode`] |
//! | C-15, the leaf under a byte | [`Tree::at`], [`at`] of any rows |
//! | C-17, the number of a float | [`Node::float`], [`float()`](float()), [`float_of`] a row |
//! | C-18, a constant's value | [`constant()`](constant()) |
//! | C-20, one way of writing a filter | [`print()`](print()) |
//! | C-21, tables from other tools | [`table_check`], [`table_write`] |
//! | C-23, a broken file salvaged | [`salvage()`](salvage()) |
//!
//! All of it is at hand as C has it in [`sys`].
#![warn(missing_docs)]
#![deny(unsafe_op_in_unsafe_fn)]

mod constant;
mod kind;
mod literal;
mod numbered;
mod place;
mod print;
mod reader;
mod refusal;
mod salvage;
pub mod sys;
mod table;
mod token;
mod tree;

pub use constant::{Constant, constant};
pub use kind::{Kind, Operator};
pub use literal::{Float, decode, float, float_of, name};
pub use place::{Lines, Place};
pub use print::print;
pub use reader::Reader;
pub use refusal::{Reason, Refusal};
pub use salvage::{Dropped, Salvage, salvage};
pub use table::{Checked, table_check, table_write};
pub use token::{Token, TokenCode, Tokens, token_list, tokens};
pub use tree::{Children, Node, Nodes, Path, Row, SIZE, Tree, WIDTH, at, subtree};

/// Bytes that a source may have.
pub const MOST_BYTES: usize = 65_535;

/// Rows that are enough for any source.
pub const MOST_ROWS: usize = 98_304;

/// Dropped ranges that are enough for any source: one to three bytes.
pub const MOST_RANGES: usize = 21_845;

/// Bytes of stack that are enough for any source, measured on x86-64. A filter of a few levels takes little, a constant in it
/// 17 KiB more, and up to 66 KiB beside that for a `%` of floats that lie far apart; only nesting at all limits takes nearly this.
pub const MOST_STACK: usize = 1_536 << 10;

/// Rows that are enough for a source of so many bytes: none that is read has more than three to two bytes, and one.
fn rows_for(length: usize) -> usize {
    length.min(MOST_BYTES) * 3 / 2 + 1
}

#[cfg(doctest)]
#[doc = include_str!("../README.md")]
struct Readme;
