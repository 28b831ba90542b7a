use crate::{Refusal, Row, Tree, WIDTH, rows_for, sys};

/// What a file says that was accepted: its source, the rows of that source's tree, and how many of them are tests (kind 42), which
/// only files made earlier hold: `Reader::tree` and `table_write` refuse a `test`.
#[derive(Clone, Debug, PartialEq, Eq)]
pub struct Checked<'a> {
    /// Its first section.
    pub source: &'a [u8],
    /// Its second.
    pub rows: Vec<Row>,
    /// How many rows are of kind 42.
    pub tests: usize,
}

impl Checked<'_> {
    /// The tree that the rows are.
    pub fn tree(&self) -> Tree<'_> {
        Tree::of_library(self.source, &self.rows)
    }
}

/// The file of a source: its bytes, the rows of its tree and the rows of its declarations by index, each after its count. `table_check`
/// accepts it. The refusals are those of `Reader::tree`.
///
/// ```
/// let file = lekhyundo::table_write(b"import a;")?;
/// assert_eq!(file[..4], 9u32.to_le_bytes());
/// assert_eq!(file[13..17], 4u32.to_le_bytes());
/// // One declaration, the row before the tree's own.
/// assert_eq!(file[file.len() - 8..], [1, 0, 0, 0, 2, 0, 0, 0]);
/// assert_eq!(lekhyundo::table_write(b"import").unwrap_err().number, 11);
/// # Ok::<(), lekhyundo::Refusal>(())
/// ```
pub fn table_write(source: &[u8]) -> Result<Vec<u8>, Refusal> {
    let most = rows_for(source.len());
    let mut table = vec![0; most * WIDTH];
    // Three counts, the source, the rows, and at most an index for each byte of the source.
    let mut file = vec![0; 12 + source.len() + 8 * WIDTH * most + 4 * source.len()];
    let mut answer = [0; 4];
    let (rows, room) = (table.len(), file.len());
    // SAFETY: each pointer is to that many elements.
    #[rustfmt::skip]
    unsafe {
        sys::lekhyundo_table_write(
            source.as_ptr(), source.len(), table.as_mut_ptr(), rows, file.as_mut_ptr(), room, answer.as_mut_ptr(), 4,
        )
    };
    file.truncate(Refusal::or_count(answer)?);
    Ok(file)
}

/// Whether the rows and indexes of such a file, of whatever tool, are those of its source. 17 at 0, 0 where the sections don't fill the
/// file exactly; then the refusals of `Reader::tree`, but for `test`, placed in the source; then 18 at the number of the first row that
/// differs, is missing or is too many, and that + 1; then 19 at the first such index.
///
/// ```
/// let mut file = lekhyundo::table_write(b"import a;")?;
/// let checked = lekhyundo::table_check(&file)?;
/// assert_eq!((checked.source, checked.rows.len(), checked.tests), (&b"import a;"[..], 4, 0));
/// assert_eq!(checked.tree().at(7).unwrap().name(), Some("a"));
///
/// // The second row's kind is the first number behind two counts, the source and the first row.
/// file[8 + 9 + 56] = 1;
/// let refusal = lekhyundo::table_check(&file).unwrap_err();
/// assert_eq!((refusal.number, refusal.start, refusal.end), (18, 1, 2));
/// # Ok::<(), lekhyundo::Refusal>(())
/// ```
pub fn table_check(file: &[u8]) -> Result<Checked<'_>, Refusal> {
    let length = file.first_chunk().map_or(0, |count| u32::from_le_bytes(*count) as usize);
    // The check keeps a number of its own behind the rows.
    let mut table = vec![0; rows_for(length) * WIDTH + 1];
    let mut answer = [0; 5];
    // SAFETY: as above.
    unsafe {
        sys::lekhyundo_table_check(file.as_ptr(), file.len(), table.as_mut_ptr(), table.len(), answer.as_mut_ptr(), 5)
    };
    let [number, start, end, count, tests] = answer;
    let count = Refusal::or_count([number, start, end, count])?;
    let rows = table.as_chunks::<WIDTH>().0[..count].to_vec();
    Ok(Checked { source: &file[4..4 + length], rows, tests: tests as usize })
}
