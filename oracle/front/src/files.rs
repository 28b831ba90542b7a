//! Files of tables (C-21), by document 02's words alone: from any bytes to the check's answer, and from a source to the file that the
//! writer makes. What reads the source is handed in.

use protocol::{Refusal, Row, WIDTH};

const SECTIONS: u64 = 17;
pub const ROW: u64 = 18;
const INDEX: u64 = 19;

/// Kind of a test's row.
const TEST: u64 = 42;

/// "A file of three sections in this order": source bytes, rows, declaration rows by index.
pub struct Sections<'a> {
    pub source: &'a [u8],
    pub rows: Vec<Row>,
    pub indexes: Vec<u32>,
}

/// Of an accepted file: its rows, and how many of them are tests (C-22: "an answer says how many such rows there were").
#[derive(Clone, Copy, Debug, PartialEq, Eq)]
pub struct Checked {
    pub rows: u64,
    pub tests: u64,
}

/// "each after its count as a 32-bit little-endian number": the items of the section at the front, of so many bytes each, and what is behind.
fn section(file: &[u8], width: usize) -> Option<(&[u8], &[u8])> {
    let (count, behind) = file.split_first_chunk()?;
    behind.split_at_checked(u32::from_le_bytes(*count) as usize * width)
}

fn row(bytes: &[u8]) -> Row {
    std::array::from_fn(|i| u64::from_le_bytes(bytes[8 * i..8 * i + 8].try_into().expect("eight bytes")))
}

/// None where the "sections don't fill the file exactly".
pub fn sections(file: &[u8]) -> Option<Sections<'_>> {
    let (source, behind) = section(file, 1)?;
    let (rows, behind) = section(behind, 8 * WIDTH)?;
    let (indexes, behind) = section(behind, 4)?;
    behind.is_empty().then(|| Sections {
        source,
        rows: rows.chunks(8 * WIDTH).map(row).collect(),
        indexes: indexes
            .chunks(4)
            .map(|bytes| u32::from_le_bytes(bytes.try_into().expect("four bytes")))
            .collect(),
    })
}

/// The declarations of a tree: the children of its last row, by the numbers of children alone. Rows wait for their parent.
pub fn declarations(rows: &[Row]) -> Vec<u32> {
    let mut waiting: Vec<u32> = Vec::new();
    for (i, [_, _, _, children, ..]) in rows.iter().enumerate() {
        let own = waiting.split_off(waiting.len() - *children as usize);
        if i + 1 == rows.len() {
            return own;
        }
        waiting.push(i as u32);
    }
    waiting
}

/// The number, from 0, of the first that "differs, is missing or is too many".
fn first_difference<T: PartialEq>(left: &[T], right: &[T]) -> Option<usize> {
    let same = left.iter().zip(right).take_while(|(left, right)| left == right).count();
    (same < left.len().max(right.len())).then_some(same)
}

fn same_or<T: PartialEq>(number: u64, left: &[T], right: &[T]) -> Result<(), Refusal> {
    first_difference(left, right).map_or(Ok(()), |at| Err(Refusal::new(number, at, at + 1)))
}

pub fn tests(rows: &[Row]) -> u64 {
    rows.iter().filter(|row| row[0] == TEST).count() as u64
}

/// "Say yes exactly when the rows are the table our reader makes for that source and the indexes name its declarations in order."
pub fn check(file: &[u8], read: impl FnOnce(&[u8]) -> Result<Vec<Row>, Refusal>) -> Result<Checked, Refusal> {
    let sections = sections(file).ok_or(Refusal::new(SECTIONS, 0, 0))?;
    let rows = read(sections.source)?;
    same_or(ROW, &sections.rows, &rows)?;
    same_or(INDEX, &sections.indexes, &declarations(&rows))?;
    Ok(Checked { rows: rows.len() as u64, tests: tests(&rows) })
}

fn count(out: &mut Vec<u8>, count: usize) {
    out.extend((count as u32).to_le_bytes());
}

/// A file of these sections.
pub fn file(Sections { source, rows, indexes }: &Sections<'_>) -> Vec<u8> {
    let mut out = Vec::new();
    count(&mut out, source.len());
    out.extend(*source);
    count(&mut out, rows.len());
    out.extend(rows.iter().flatten().flat_map(|number| number.to_le_bytes()));
    count(&mut out, indexes.len());
    out.extend(indexes.iter().flat_map(|index| index.to_le_bytes()));
    out
}

/// The file of a source.
pub fn write(
    source: &[u8],
    read: impl FnOnce(&[u8]) -> Result<Vec<Row>, Refusal>,
) -> Result<Vec<u8>, Refusal> {
    let rows = read(source)?;
    let indexes = declarations(&rows);
    Ok(file(&Sections { source, rows, indexes }))
}
