//! What document 02 says of the node under the cursor (C-15), twice: the walk over all rows, and the search.

use protocol::{Row, WIDTH};

/// Number, start, end, index.
pub type Answer = [u64; 4];

const WRONG_SIZE: u64 = 12;
const NO_LEAF: u64 = 13;

fn refused(number: u64) -> Answer {
    [number, 0, 0, 0]
}

/// The rows of a table; what is left over behind the last whole one isn't looked at.
fn rows(table: &[u64]) -> Vec<Row> {
    table.chunks_exact(WIDTH).map(|row| row.try_into().expect("a row's numbers")).collect()
}

fn holds([_, start, end, ..]: &Row, position: u64) -> bool {
    (*start..*end).contains(&position)
}

fn found(index: usize, [_, start, end, ..]: &Row) -> Answer {
    [0, *start, *end, index as u64]
}

/// The last leaf in table order whose span holds the byte.
pub fn walk(table: &[u64], position: u64) -> Answer {
    let rows = rows(table);
    let leaf = rows.iter().enumerate().filter(|(_, row)| row[3] == 0 && holds(row, position)).next_back();
    leaf.map_or(refused(NO_LEAF), |(index, row)| found(index, row))
}

/// From the last of these rows on.
fn search_in(rows: &[Row], position: u64) -> Answer {
    let Some((row, before)) = rows.split_last() else {
        return refused(NO_LEAF);
    };
    let [_, _, _, children, _, _, size] = *row;
    let leaf = children == 0;
    if size == 0 || size > rows.len() as u64 || leaf && size != 1 {
        return refused(WRONG_SIZE);
    }
    match (holds(row, position), leaf) {
        (true, true) => found(before.len(), row),
        (true, false) => search_in(before, position),
        (false, _) => search_in(&rows[..rows.len() - size as usize], position),
    }
}

pub fn search(table: &[u64], position: u64) -> Answer {
    search_in(&rows(table), position)
}
