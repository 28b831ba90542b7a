//! The oracle of document 01: the commit with document 01's rules put in place by ../../assemble, and with what document 02 changes.
#![allow(dead_code)]

pub mod answer;
#[path = "../../build/oracle/ast.rs"]
mod ast;
pub mod files;
#[path = "../../build/oracle/parser/mod.rs"]
mod parser;
pub mod printing;
mod rows;
pub mod salvage;

use ast::SyntaxTree;
use parser::{Extras, ParseResult, Parser, meta::Spans};
use protocol::{Refusal, Row};

const LONGEST: usize = 65_535;

/// C-11: "5 remains for the token list only".
const LISTS_F_STRINGS: bool = false;

/// C-17: "An `f32` suffix gives the 32 bits of the nearest f32 to the decimal itself", and 14 for too many digits.
const NARROWS: bool = true;

/// "1, 2, 3 are tested first, in that order": longer than 65,535; byte of 128 or more; source begins `#!`.
pub fn whole(source: &[u8]) -> Result<&str, Refusal> {
    if source.len() > LONGEST {
        return Err(Refusal::new(1, LONGEST, LONGEST));
    }
    let Some(text) = source.is_ascii().then(|| std::str::from_utf8(source).ok()).flatten() else {
        let at = source.iter().take_while(|byte| **byte < 128).count();
        return Err(Refusal::new(2, at, at + 1));
    };
    if text.starts_with("#!") {
        return Err(Refusal::new(3, 0, 2));
    }
    Ok(text)
}

/// C-22: "for every file, check and print keep to the old grammar".
fn parse_old(spans: &mut Spans, source: &str) -> ParseResult<(SyntaxTree, Extras)> {
    Parser::parse_old(0, spans, source)
}

/// (a): the rows of a source's tree; and its rows by the old grammar.
pub fn tree(source: &[u8]) -> Result<Vec<Row>, Refusal> {
    read_by(source, answer::tree)
}

pub fn old_tree(source: &[u8]) -> Result<Vec<Row>, Refusal> {
    read_by(source, answer::old_tree)
}

fn read_by(source: &[u8], by: fn(&str) -> Result<Vec<Row>, Refusal>) -> Result<Vec<Row>, Refusal> {
    let read = whole(source).and_then(by);
    // SAFETY: the tree is gone, and rows hold no names.
    unsafe { symbol_table::forget_names() };
    read
}
