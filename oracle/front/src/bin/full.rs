//! The full commit, unchanged, behind the protocol.
#![allow(dead_code)]

#[path = "../answer.rs"]
mod answer;
#[path = "../../../build/full/ast.rs"]
mod ast;
#[path = "../../../build/full/parser/mod.rs"]
mod parser;
#[path = "../rows.rs"]
mod rows;

use ast::SyntaxTree;
use front::{files, printing, salvage};
use parser::{Extras, ParseResult, Parser, meta::Spans};
use protocol::Refusal;

/// The commit has a token for `f"`, with code 90 here.
const LISTS_F_STRINGS: bool = true;

/// The commit reads every float as an f64, of however many digits.
const NARROWS: bool = false;

/// The commit takes any text; bytes that are none have no answer there, and are given as 2 at the first of them.
fn whole(source: &[u8]) -> Result<&str, Refusal> {
    std::str::from_utf8(source).map_err(|e| {
        let at = e.valid_up_to();
        Refusal::new(2, at, at + 1)
    })
}

/// The commit has one grammar, in which `test` is a declaration.
fn parse_old(spans: &mut Spans, source: &str) -> ParseResult<(SyntaxTree, Extras)> {
    Parser::parse(0, spans, source)
}

fn main() -> std::io::Result<()> {
    answer::run(whole)
}
