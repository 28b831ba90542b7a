use std::{fmt, iter::FusedIterator, ops::Range};

use crate::{Float, Kind, MOST_ROWS, Operator, Refusal, float_of, name, sys};

/// The numbers of a row.
pub const WIDTH: usize = 7;

/// Kind, start, end, children, value, detail, size.
pub type Row = [u64; WIDTH];

/// Which of a row's numbers is its size: how many rows its whole subtree has, itself included.
pub const SIZE: usize = 6;

const KIND: usize = 0;
const START: usize = 1;
const END: usize = 2;
const CHILDREN: usize = 3;
const VALUE: usize = 4;
const DETAIL: usize = 5;

/// The rows of the whole subtree of a row, itself last: a fold skips as many. None where the table has no such row, and where
/// a size reaches before its start, which no table of a [`Reader`](crate::Reader) has.
pub fn subtree(rows: &[Row], row: usize) -> &[Row] {
    let up_to = rows.get(..=row).unwrap_or_default();
    let size = up_to.last().map_or(0, |row| row[SIZE]) as usize;
    up_to.len().checked_sub(size).map_or(&[], |first| &up_to[first..])
}

/// Of any rows the last leaf, a row without children, whose span holds the byte at a position: its index (C-15). 13 where there is
/// none; 12 where a size on the way is wrong, which no table of a [`Reader`](crate::Reader) has.
pub fn at(rows: &[Row], position: u64) -> Result<usize, Refusal> {
    let table = rows.as_flattened();
    let mut answer = [0; 4];
    // SAFETY: each pointer is to that many elements.
    unsafe { sys::lekhyundo_at(table.as_ptr(), table.len(), position, answer.as_mut_ptr(), 4) };
    Refusal::or_count(answer)
}

/// A source and the rows of its tree, children before their parent. It is four words, so it is handed on by value.
///
/// Nothing here allocates but [`parents`](Tree::parents): a walk goes by the rows' sizes.
///
/// ```
/// use lekhyundo::{Kind, Reader};
///
/// let mut reader = Reader::default();
/// let tree = reader.tree(b"import a; fn double(x: u8) -> u8 { x * 2 }")?;
/// let kinds: Vec<_> = tree.root().children().map(|declaration| declaration.kind()).collect();
/// assert_eq!(kinds, [Kind::Import, Kind::Fn]);
///
/// let cursor = tree.source().find('*').unwrap() + 2;
/// let two = tree.at(cursor).unwrap();
/// assert_eq!((two.kind(), two.value()), (Kind::Integer, 2));
/// assert_eq!(two.parent().unwrap().text(), "x * 2");
/// # Ok::<(), lekhyundo::Refusal>(())
/// ```
#[derive(Clone, Copy)]
pub struct Tree<'a> {
    source: &'a str,
    rows: &'a [Row],
}

impl<'a> Tree<'a> {
    /// Rows of whatever origin, where they are those of one tree: each has a kind, a span in the source, and right before it as many
    /// subtrees as it says to have children, which make up its size. (Whether they are the rows of that source is another question:
    /// [`table_check`](crate::table_check).) Takes time in proportion to the rows.
    pub fn new(source: &'a str, rows: &'a [Row]) -> Option<Self> {
        let span = |row: &Row| row[START] <= row[END] && row[END] <= source.len() as u64;
        let whole = rows.last().is_some_and(|row| row[SIZE] == rows.len() as u64) && rows.len() <= MOST_ROWS;
        let rows_fit =
            || (0..rows.len()).all(|i| Kind::of(rows[i][KIND]).is_some() && span(&rows[i]) && sized(rows, i));
        (source.is_ascii() && whole && rows_fit()).then_some(Tree { source, rows })
    }

    /// What the library read: that its rows are those of a tree and lie in the source is proved.
    pub(crate) fn of_library(source: &'a [u8], rows: &'a [Row]) -> Self {
        let source = std::str::from_utf8(source).expect("an accepted source has no byte of 128 or more");
        Tree { source, rows }
    }

    /// The source.
    pub fn source(&self) -> &'a str {
        self.source
    }

    /// The rows in the order of the table.
    pub fn rows(&self) -> &'a [Row] {
        self.rows
    }

    /// The last row, which has all others under it.
    #[inline]
    pub fn root(&self) -> Node<'a> {
        self.node_at(self.rows.len() - 1, None)
    }

    /// The node of a row by its index.
    pub fn node(&self, index: usize) -> Option<Node<'a>> {
        (index < self.rows.len()).then(|| self.node_at(index, None))
    }

    /// All nodes in the order of the table, children before their parent and left before right; backwards the root is first.
    #[inline]
    pub fn nodes(&self) -> Nodes<'a> {
        self.root().subtree()
    }

    /// The leaf under the cursor: the last node without children whose span holds the byte at a position (C-15). Takes time in
    /// proportion to the nodes on the way there and their later siblings.
    pub fn at(&self, position: usize) -> Option<Node<'a>> {
        at(self.rows, position as u64).ok().map(|index| self.node_at(index, None))
    }

    /// The index of each node's parent, that of the root its own. One pass, for a program that asks for parents in any order.
    pub fn parents(&self) -> Vec<usize> {
        let mut parents: Vec<usize> = (0..self.rows.len()).collect();
        for node in self.nodes() {
            node.children().rev().for_each(|child| parents[child.index()] = node.index());
        }
        parents
    }

    #[inline]
    fn node_at(self, index: usize, parent: Option<u32>) -> Node<'a> {
        Node { tree: self, index: index as u32, parent }
    }

    /// The end of the children before so many of which the last has its row right before a place.
    #[inline]
    fn back(&self, end: u32, children: u32) -> u32 {
        (0..children).fold(end, |end, _| end - self.rows[end as usize - 1][SIZE] as u32)
    }
}

impl fmt::Debug for Tree<'_> {
    fn fmt(&self, f: &mut fmt::Formatter<'_>) -> fmt::Result {
        f.debug_list().entries(self.nodes()).finish()
    }
}

/// Whether a row's children are whole subtrees right before it that make up its size, where that is so of all rows before.
fn sized(rows: &[Row], index: usize) -> bool {
    let Some(first) = (index as u64 + 1).checked_sub(rows[index][SIZE]) else { return false };
    let mut end = index as u64;
    for _ in 0..rows[index][CHILDREN] {
        if end <= first {
            return false;
        }
        end -= rows[end as usize - 1][SIZE];
    }
    end == first
}

/// A row of a tree with the rows under it.
#[derive(Clone, Copy)]
pub struct Node<'a> {
    tree: Tree<'a>,
    index: u32,
    /// Known where the node was reached from its parent.
    parent: Option<u32>,
}

impl<'a> Node<'a> {
    /// The tree that it is of.
    pub fn tree(&self) -> Tree<'a> {
        self.tree
    }

    /// Which row it is, from 0.
    #[inline]
    pub fn index(&self) -> usize {
        self.index as usize
    }

    /// Its numbers.
    #[inline]
    pub fn row(&self) -> &'a Row {
        &self.tree.rows[self.index()]
    }

    /// What it is.
    #[inline]
    pub fn kind(&self) -> Kind {
        Kind::of(self.row()[KIND]).expect("a row's kind is one of those")
    }

    /// Its first byte.
    #[inline]
    pub fn start(&self) -> usize {
        self.row()[START] as usize
    }

    /// The byte behind its last.
    #[inline]
    pub fn end(&self) -> usize {
        self.row()[END] as usize
    }

    /// From its first byte up to the one behind its last.
    #[inline]
    pub fn span(&self) -> Range<usize> {
        self.start()..self.end()
    }

    /// What its kind says of it: an integer's number, whether a block has a last expression, and so on (document 01, "Rows").
    #[inline]
    pub fn value(&self) -> u64 {
        self.row()[VALUE]
    }

    /// The rest of that: an operator, a suffix, the low half of an IPv6 address.
    #[inline]
    pub fn detail(&self) -> u64 {
        self.row()[DETAIL]
    }

    /// How many nodes its subtree has, itself included.
    #[inline]
    pub fn size(&self) -> usize {
        self.row()[SIZE] as usize
    }

    /// Its text in the source.
    #[inline]
    pub fn text(&self) -> &'a str {
        &self.tree.source[self.span()]
    }

    /// (d) The text of a name; none of any other node.
    pub fn name(&self) -> Option<&'a str> {
        let length = name(self.tree.source.as_bytes(), self.row()).len();
        (length > 0).then(|| &self.tree.source[self.start()..self.start() + length])
    }

    /// The operator of a node of kind [`Binary`](Kind::Binary); none of any other.
    pub fn operator(&self) -> Option<Operator> {
        Operator::of(self.detail()).filter(|_| self.kind() == Kind::Binary)
    }

    /// The number of a float (C-17); 7 for any other node, 14 for too many digits.
    pub fn float(&self) -> Result<Float, Refusal> {
        float_of(self.tree.source.as_bytes(), self.row())
    }

    /// Whether it has no children.
    #[inline]
    pub fn is_leaf(&self) -> bool {
        self.row()[CHILDREN] == 0
    }

    /// Its children from the first to the last, or backwards. All n take n log n / 2 steps over their sizes, none for one child;
    /// backwards they take n. They know their parent. A function that calls itself for each child goes as deep as the tree, which `1+1+..`
    /// makes 32,000 nodes deep; [`Tree::nodes`] needs no calls.
    #[inline]
    pub fn children(&self) -> Children<'a> {
        Children::of(*self)
    }

    /// All nodes under it and, last, itself: in the order of the table, which is that of [`Tree::nodes`].
    #[inline]
    pub fn subtree(&self) -> Nodes<'a> {
        Nodes { tree: self.tree, range: self.index() + 1 - self.size()..self.index() + 1 }
    }

    /// The node that it is a child of. At once for a node that [`children`](Node::children) or [`path`](Node::path) gave, so that a walk
    /// down the tree may ask at every node; any other is searched for from the root, which costs as much as its path.
    /// [`Tree::parents`] has those of all nodes.
    #[inline]
    pub fn parent(&self) -> Option<Node<'a>> {
        let known = self.parent.or_else(|| self.path().last()?.parent)?;
        Some(self.tree.node_at(known as usize, None))
    }

    /// The nodes from the root down to it, itself last. Takes a step for each of them and for each of their later siblings.
    pub fn path(&self) -> Path<'a> {
        Path { next: Some(self.tree.root()), index: self.index }
    }

    /// The child whose subtree has a row with this index, which is under it.
    fn towards(&self, index: u32) -> Node<'a> {
        let mut end = self.index;
        loop {
            let before = self.tree.back(end, 1);
            if before <= index {
                return self.tree.node_at(end as usize - 1, Some(self.index));
            }
            end = before;
        }
    }
}

/// The same row of the same table.
impl PartialEq for Node<'_> {
    fn eq(&self, other: &Self) -> bool {
        std::ptr::eq(self.row(), other.row())
    }
}

impl Eq for Node<'_> {}

impl fmt::Debug for Node<'_> {
    fn fmt(&self, f: &mut fmt::Formatter<'_>) -> fmt::Result {
        write!(f, "{} {:?}", self.kind(), self.span())
    }
}

/// Children that follow one another: how many, and where the row of the last of them ends.
#[derive(Clone, Copy, Default)]
struct Run {
    end: u32,
    count: u32,
}

/// Runs that are left of a list of children halved over and over: one for each bit of their number, and one.
const RUNS: usize = usize::BITS as usize - MOST_ROWS.leading_zeros() as usize + 1;

/// See [`Node::children`]. Sizes lead back from a child to the one before it, so the first is found from the last: half of the children
/// are gone back over and put aside, then half of the rest, and so on.
#[derive(Clone)]
pub struct Children<'a> {
    parent: Node<'a>,
    /// Those of `last..next`, from the right to the left.
    runs: [Run; RUNS],
    last: usize,
    next: usize,
    left: usize,
}

impl<'a> Children<'a> {
    #[inline]
    fn of(parent: Node<'a>) -> Self {
        let count = parent.row()[CHILDREN] as u32;
        let mut runs = [Run::default(); RUNS];
        runs[0] = Run { end: parent.index, count };
        Children { parent, runs, last: 0, next: usize::from(count > 0), left: count as usize }
    }

    #[inline]
    fn child(&mut self, end: u32) -> Node<'a> {
        self.left -= 1;
        self.parent.tree.node_at(end as usize - 1, Some(self.parent.index))
    }
}

impl<'a> Iterator for Children<'a> {
    type Item = Node<'a>;

    #[inline]
    fn next(&mut self) -> Option<Node<'a>> {
        if self.left == 0 {
            return None;
        }
        let Run { mut end, mut count } = self.runs[self.next - 1];
        self.next -= 1;
        while count > 1 {
            let right = count / 2;
            self.runs[self.next] = Run { end, count: right };
            self.next += 1;
            end = self.parent.tree.back(end, right);
            count -= right;
        }
        Some(self.child(end))
    }

    fn size_hint(&self) -> (usize, Option<usize>) {
        (self.left, Some(self.left))
    }
}

impl DoubleEndedIterator for Children<'_> {
    #[inline]
    fn next_back(&mut self) -> Option<Self::Item> {
        if self.left == 0 {
            return None;
        }
        let run = &mut self.runs[self.last];
        let end = run.end;
        *run = Run { end: self.parent.tree.back(end, 1), count: run.count - 1 };
        self.last += usize::from(run.count == 0);
        Some(self.child(end))
    }
}

impl ExactSizeIterator for Children<'_> {}
impl FusedIterator for Children<'_> {}

/// See [`Tree::nodes`] and [`Node::subtree`].
#[derive(Clone)]
pub struct Nodes<'a> {
    tree: Tree<'a>,
    range: Range<usize>,
}

impl<'a> Iterator for Nodes<'a> {
    type Item = Node<'a>;

    #[inline]
    fn next(&mut self) -> Option<Node<'a>> {
        self.range.next().map(|index| self.tree.node_at(index, None))
    }

    fn size_hint(&self) -> (usize, Option<usize>) {
        self.range.size_hint()
    }

    fn nth(&mut self, n: usize) -> Option<Node<'a>> {
        self.range.nth(n).map(|index| self.tree.node_at(index, None))
    }
}

impl DoubleEndedIterator for Nodes<'_> {
    #[inline]
    fn next_back(&mut self) -> Option<Self::Item> {
        self.range.next_back().map(|index| self.tree.node_at(index, None))
    }
}

impl ExactSizeIterator for Nodes<'_> {}
impl FusedIterator for Nodes<'_> {}

/// See [`Node::path`].
#[derive(Clone)]
pub struct Path<'a> {
    next: Option<Node<'a>>,
    index: u32,
}

impl<'a> Iterator for Path<'a> {
    type Item = Node<'a>;

    #[inline]
    fn next(&mut self) -> Option<Node<'a>> {
        let node = self.next?;
        self.next = (node.index != self.index).then(|| node.towards(self.index));
        Some(node)
    }
}

impl FusedIterator for Path<'_> {}
