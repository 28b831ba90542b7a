//! The instructions that a constant's rows give (C-18): kind, type, value, start, end, one a row.

use protocol::{Row, WIDTH};

const INSTRUCTION: usize = 5;
const CONST: u64 = 40;
const BINARY: u64 = 20;
const FLOAT: u64 = 11;
const I64: u64 = 4;

/// From a table's rows the list of the constant with a number, whose declared type is known; a float's bits by its text.
pub fn expected(table: &[u64], number: u64, declared: u64, bits: &dyn Fn(u64, u64) -> u64) -> Vec<u64> {
    let rows: Vec<&Row> =
        table.chunks_exact(WIDTH).map(|row| row.try_into().expect("a row's numbers")).collect();
    let mut constants = rows.iter().enumerate().filter(|(_, row)| row[0] == CONST);
    let Some((row, _)) = constants.nth(number as usize) else { return vec![] };
    let mut list = Vec::new();
    back(&rows[..row], declared, bits, &mut list);
    list.reverse();
    list.concat()
}

/// The instructions of the tree that ends these rows, last first; how many they are.
fn back(
    rows: &[&Row],
    wanted: u64,
    bits: &dyn Fn(u64, u64) -> u64,
    list: &mut Vec<[u64; INSTRUCTION]>,
) -> usize {
    let (row, before) = rows.split_last().expect("a row");
    let [kind, start, end, children, value, detail, _] = **row;
    let shown = match kind {
        BINARY => detail,
        FLOAT => bits(start, end),
        _ => value,
    };
    list.push([kind, wanted, shown, start, end]);
    let inner = if kind == BINARY && (3..=8).contains(&detail) { I64 } else { wanted };
    let mut left = before.len();
    for _ in 0..children {
        left -= back(&before[..left], inner, bits, list);
    }
    rows.len() - left
}
