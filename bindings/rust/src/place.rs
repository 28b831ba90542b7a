use std::fmt;

/// A byte's line and column, both from 1; columns are bytes.
#[derive(Clone, Copy, Debug, PartialEq, Eq, PartialOrd, Ord, Hash)]
pub struct Place {
    /// How many newlines stand before it, and one.
    pub line: usize,
    /// How many bytes stand between it and the line's start, and one.
    pub column: usize,
}

impl Place {
    /// Of a byte of a source; of one behind its end, that of the end. Takes time in proportion to the bytes before it.
    pub fn of(source: &[u8], at: usize) -> Place {
        let before = &source[..at.min(source.len())];
        let line = before.iter().filter(|&&byte| byte == b'\n').count() + 1;
        let start = before.iter().rposition(|&byte| byte == b'\n').map_or(0, |newline| newline + 1);
        Place { line, column: before.len() - start + 1 }
    }
}

impl fmt::Display for Place {
    fn fmt(&self, f: &mut fmt::Formatter<'_>) -> fmt::Result {
        write!(f, "{}:{}", self.line, self.column)
    }
}

/// Where the lines of a source start, for a program that asks for many places.
///
/// ```
/// use lekhyundo::{Lines, Place};
///
/// let lines = Lines::of(b"a\nbc\n");
/// assert_eq!(lines.place(3), Place { line: 2, column: 2 });
/// ```
#[derive(Clone, Debug, PartialEq, Eq)]
pub struct Lines {
    starts: Vec<usize>,
    length: usize,
}

impl Lines {
    /// One pass over the source.
    pub fn of(source: &[u8]) -> Lines {
        let behind = source.iter().enumerate().filter(|(_, byte)| **byte == b'\n').map(|(at, _)| at + 1);
        Lines { starts: std::iter::once(0).chain(behind).collect(), length: source.len() }
    }

    /// [`Place::of`] by a binary search.
    pub fn place(&self, at: usize) -> Place {
        let at = at.min(self.length);
        let line = self.starts.partition_point(|&start| start <= at);
        Place { line, column: at - self.starts[line - 1] + 1 }
    }
}
