use std::ops::Range;

use crate::{MOST_RANGES, Refusal, Row, Tree, WIDTH, rows_for, sys};

/// The numbers of a range: its ends, its refusal's number and place.
const RANGE: usize = 5;

/// What is left of a broken source, and what was dropped of it.
#[derive(Clone, Debug, PartialEq, Eq)]
pub struct Salvage {
    /// The source with a space for each dropped byte: every other byte stands where it stood.
    pub text: String,
    /// The rows of its tree.
    pub rows: Vec<Row>,
    /// The dropped ranges, from the first on; none overlaps another.
    pub dropped: Vec<Dropped>,
}

/// A range of a source that was dropped.
#[derive(Clone, Debug, PartialEq, Eq, Hash)]
pub struct Dropped {
    /// Its bytes, with the newline before the line that is kept behind it.
    pub range: Range<usize>,
    /// Why: what [`Reader::tree`](crate::Reader::tree) says of the source with the ranges before this one as spaces. Its place is one of
    /// the source.
    pub refusal: Refusal,
}

impl Salvage {
    /// The tree of the kept declarations. Spans are those of the source, so that what it holds can be shown in the file as it is.
    pub fn tree(&self) -> Tree<'_> {
        Tree::of_library(self.text.as_bytes(), &self.rows)
    }
}

impl Dropped {
    fn of([start, end, number, from, to]: [u64; RANGE]) -> Self {
        let refusal = Refusal { number, start: from as usize, end: to as usize, needed: 0 };
        Dropped { range: start as usize..end as usize, refusal }
    }
}

/// Salvages a broken source (C-23): each declaration that is refused is dropped, up to the next line that begins, at column 0, with the
/// word `const`, `fn`, `filter`, `filtermap` or `import`, and the rest is read. A whole source is kept as it is. Only 1, 2 and 3 are
/// refused.
///
/// ```
/// use lekhyundo::{Kind, salvage};
///
/// let source = b"import a;\nfn f() {\n    log(a b)\n}\nfn g() {}\n";
/// let salvage = salvage(source)?;
/// // An outline of the file while a function in it is being written.
/// let tree = salvage.tree();
/// let kept: Vec<_> = tree.root().children().map(|declaration| (declaration.kind(), declaration.span())).collect();
/// assert_eq!(kept, [(Kind::Import, 7..8), (Kind::Fn, 34..43)]);
///
/// let [dropped] = &salvage.dropped[..] else { panic!("one function is broken") };
/// assert_eq!(&source[dropped.range.clone()], b"fn f() {\n    log(a b)\n}\n");
/// assert_eq!(dropped.refusal.to_string(), "refused 6 at 29..30: token not usable here");
/// assert_eq!(dropped.refusal.place(source).to_string(), "3:11");
/// # Ok::<(), lekhyundo::Refusal>(())
/// ```
pub fn salvage(source: &[u8]) -> Result<Salvage, Refusal> {
    let mut text = source.to_vec();
    let mut rows = vec![[0; WIDTH]; rows_for(source.len())];
    // A range up to the next line takes three bytes at least; the first and the last may take two.
    let mut ranges = vec![[0; RANGE]; MOST_RANGES.min(source.len() / 3 + 1)];
    let (table, list) = (rows.as_flattened_mut(), ranges.as_flattened_mut());
    let mut answer = [0; 5];
    // SAFETY: each pointer is to that many elements.
    #[rustfmt::skip]
    unsafe {
        sys::lekhyundo_salvage(
            text.as_mut_ptr(), text.len(), table.as_mut_ptr(), table.len(), list.as_mut_ptr(), list.len(), answer.as_mut_ptr(), 5,
        )
    };
    let [number, start, end, count, dropped] = answer;
    rows.truncate(Refusal::or_count([number, start, end, count])?);
    let dropped = ranges[..dropped as usize].iter().copied().map(Dropped::of).collect();
    let text = String::from_utf8(text).expect("a salvaged source has no byte of 128 or more");
    Ok(Salvage { text, rows, dropped })
}
