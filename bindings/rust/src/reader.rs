use crate::{MOST_ROWS, Refusal, Row, Tree, WIDTH, rows_for, sys};

/// Reads sources into a table of its own, which it keeps, so that many sources cost one allocation.
///
/// ```
/// use lekhyundo::{Kind, Reader};
///
/// let mut reader = Reader::default();
/// for source in ["import a;", "const A: u8 = 1; fn f() { accept }"] {
///     let tree = reader.tree(source.as_bytes())?;
///     assert_eq!(tree.root().kind(), Kind::Tree);
///     assert_eq!(tree.root().text(), source);
/// }
/// let tree = reader.expression(b"1 + 2 * 3")?;
/// assert_eq!(tree.root().children().map(|operand| operand.text()).collect::<Vec<_>>(), ["1", "2 * 3"]);
/// # Ok::<(), lekhyundo::Refusal>(())
/// ```
#[derive(Debug)]
pub struct Reader {
    table: Vec<Row>,
    room: usize,
}

impl Default for Reader {
    fn default() -> Self {
        Reader::with_room(MOST_ROWS)
    }
}

impl Reader {
    /// One that takes at most so many rows; a source with more is refused with 10.
    pub fn with_room(rows: usize) -> Self {
        Reader { table: Vec::new(), room: rows }
    }

    /// (a) The tree of a source.
    ///
    /// A source takes as much stack as it nests, at most [`MOST_STACK`](crate::MOST_STACK).
    pub fn tree<'a>(&'a mut self, source: &'a [u8]) -> Result<Tree<'a>, Refusal> {
        self.read(sys::lekhyundo_tree, source)
    }

    /// (b) The tree of one expression.
    pub fn expression<'a>(&'a mut self, source: &'a [u8]) -> Result<Tree<'a>, Refusal> {
        self.read(sys::lekhyundo_expression, source)
    }

    fn read<'a>(&'a mut self, entry: sys::Entry, source: &'a [u8]) -> Result<Tree<'a>, Refusal> {
        let room = self.room.min(rows_for(source.len()));
        if self.table.len() < room {
            self.table.resize(room, [0; WIDTH]);
        }
        // No more is lent than a source of that length can need, since the rest is zeroed.
        let table = self.table[..room].as_flattened_mut();
        let mut answer = [0; 4];
        // SAFETY: each pointer is to that many elements.
        unsafe { entry(source.as_ptr(), source.len(), table.as_mut_ptr(), table.len(), answer.as_mut_ptr(), 4) };
        let count = Refusal::or_count(answer)?;
        Ok(Tree::of_library(source, &self.table[..count]))
    }
}
