//! What document 02 says of a constant (C-18): the value of its expression, by recursion on the tree that a source's rows are.

use protocol::{Constant, NotThere, Refusal, Row};

/// "more than 1,024 rows".
const MOST_ROWS: usize = 1_024;

const LONG_FLOAT: u64 = 14;
const NO_CONSTANT: u64 = 15;
const ZERO_DIVISOR: u64 = 16;

/// The ten declared types, as the details of rows 10 and 11 number them, and 12 for `bool`.
const TYPES: [(&str, u64); 10] = [
    ("i8", 1),
    ("i16", 2),
    ("i32", 3),
    ("i64", 4),
    ("u8", 5),
    ("u16", 6),
    ("u32", 7),
    ("u64", 8),
    ("f64", 10),
    ("bool", 12),
];
const I64: u64 = 4;
const F64: u64 = 10;
const BOOL: u64 = 12;

/// "the type wanted of it": a type, or "i64 without suffixes under a comparison".
#[derive(Clone, Copy, PartialEq)]
enum Wanted {
    Type(u64),
    Bare,
}

impl Wanted {
    fn integer(self) -> Option<u64> {
        match self {
            Wanted::Type(kind @ 1..=8) => Some(kind),
            Wanted::Type(_) => None,
            Wanted::Bare => Some(I64),
        }
    }

    fn is(self, kind: u64) -> bool {
        self == Wanted::Type(kind)
    }
}

struct Node<'a> {
    row: &'a Row,
    children: Vec<Node<'a>>,
}

impl<'a> Node<'a> {
    /// The tree whose rows end before a place, which goes to before them.
    fn before(rows: &'a [Row], place: &mut usize) -> Self {
        *place -= 1;
        let row = &rows[*place];
        let mut children: Vec<_> = (0..row[3]).map(|_| Node::before(rows, place)).collect();
        children.reverse();
        Node { row, children }
    }

    fn kind(&self) -> u64 {
        self.row[0]
    }

    fn value(&self) -> u64 {
        self.row[4]
    }

    fn detail(&self) -> u64 {
        self.row[5]
    }

    fn rows(&self) -> usize {
        1 + self.children.iter().map(Node::rows).sum::<usize>()
    }

    fn text<'s>(&self, source: &'s str) -> &'s str {
        &source[self.row[1] as usize..self.row[2] as usize]
    }

    fn refused(&self, number: u64) -> NotThere {
        NotThere::Refused(Refusal { number, start: self.row[1], end: self.row[2] })
    }

    fn compares(&self) -> bool {
        self.kind() == 20 && (3..=8).contains(&self.detail())
    }

    /// A path type of one name, without brackets, that is one of the ten.
    fn declared(&self, source: &str) -> Option<u64> {
        let [path] = &self.children[..] else { return None };
        let [name] = &path.children[..] else { return None };
        if self.kind() != 6 || self.value() != 0 || path.kind() != 2 || name.kind() != 1 {
            return None;
        }
        TYPES.iter().find(|(word, _)| *word == name.text(source)).map(|(_, kind)| *kind)
    }
}

/// A float literal's number, by its text: width and bits, or its refusal.
pub type FloatOf<'a> = &'a dyn Fn(&str) -> Result<(u64, u64), Refusal>;

struct Account<'a> {
    source: &'a str,
    float: FloatOf<'a>,
}

pub fn constant(
    rows: &[Row],
    source: &str,
    number: u64,
    room: u64,
    float: FloatOf<'_>,
) -> Result<Constant, NotThere> {
    let tree = Node::before(rows, &mut rows.len());
    let mut constants = tree.children.iter().filter(|declaration| declaration.kind() == 40);
    let none = NotThere::Refused(Refusal::new(NO_CONSTANT, 0, 0));
    let [_, kind, expr] =
        &constants.nth(usize::try_from(number).unwrap_or(usize::MAX)).ok_or(none)?.children[..]
    else {
        unreachable!("a constant has a name, a type and an expression");
    };
    let count = expr.rows();
    if count > MOST_ROWS {
        return Err(expr.refused(NO_CONSTANT));
    }
    let declared = kind.declared(source).ok_or(kind.refused(NO_CONSTANT))?;
    let account = Account { source, float };
    account.check(expr, Wanted::Type(declared))?;
    if count as u64 > room {
        return Err(NotThere::NoRoom(count as u64));
    }
    account.value(expr, Wanted::Type(declared))
}

impl Account<'_> {
    fn under(&self, node: &Node<'_>, wanted: Wanted) -> Wanted {
        if node.compares() { Wanted::Bare } else { wanted }
    }

    /// The first row in table order that isn't fine: children come before their parent.
    fn check(&self, node: &Node<'_>, wanted: Wanted) -> Result<(), NotThere> {
        for child in &node.children {
            self.check(child, self.under(node, wanted))?;
        }
        if node.kind() == 11
            && (self.float)(node.text(self.source)).is_err_and(|refusal| refusal.number == LONG_FLOAT)
        {
            return Err(node.refused(LONG_FLOAT));
        }
        if self.fine(node, wanted) { Ok(()) } else { Err(node.refused(NO_CONSTANT)) }
    }

    /// "Taken: numbers, bools, `! -`, the thirteen operators".
    fn fine(&self, node: &Node<'_>, wanted: Wanted) -> bool {
        match (node.kind(), node.detail()) {
            (10, suffix) => {
                let suffixed = suffix == 0 || wanted.is(suffix);
                suffixed && wanted.integer().is_some_and(|kind| i128::from(node.value()) <= greatest(kind))
            }
            (11, suffix) => wanted.is(F64) && (suffix == 0 || suffix == F64),
            (12, _) => wanted.is(BOOL),
            (20, 1..=8) => wanted.is(BOOL),
            (20, 9..=13) => wanted.integer().is_some() || wanted.is(F64),
            (21, _) => wanted.is(BOOL),
            (22, _) => wanted.integer().is_some_and(|kind| kind <= I64) || wanted.is(F64),
            _ => false,
        }
    }

    fn value(&self, node: &Node<'_>, wanted: Wanted) -> Result<Constant, NotThere> {
        let inner = self.under(node, wanted);
        let values: Result<Vec<Constant>, NotThere> =
            node.children.iter().map(|child| self.value(child, inner)).collect();
        match (node.kind(), &values?[..]) {
            (10, []) => Ok(Constant::Integer(node.value().into())),
            (11, []) => Ok(Constant::Float(self.bits(node))),
            (12, []) => Ok(Constant::Bool(node.value() == 1)),
            (21, [Constant::Bool(a)]) => Ok(Constant::Bool(!a)),
            (22, [Constant::Float(a)]) => Ok(Constant::Float(-a)),
            (22, [Constant::Integer(a)]) => Ok(Constant::Integer(negated(integer(inner), *a))),
            (20, [Constant::Bool(a), Constant::Bool(b)]) => Ok(Constant::Bool(joined(node.detail(), *a, *b))),
            (20, [Constant::Float(a), Constant::Float(b)]) => {
                Ok(Constant::Float(floats(node.detail(), *a, *b)))
            }
            (20, [Constant::Integer(a), Constant::Integer(b)]) if node.compares() => {
                Ok(Constant::Bool(compared(node.detail(), *a, *b)))
            }
            (20, [Constant::Integer(a), Constant::Integer(b)]) => {
                integers(integer(inner), node.detail(), *a, *b)
                    .map(Constant::Integer)
                    .ok_or(node.refused(ZERO_DIVISOR))
            }
            _ => unreachable!("every row was found fine"),
        }
    }

    fn bits(&self, node: &Node<'_>) -> f64 {
        let (_, bits) = (self.float)(node.text(self.source)).expect("it isn't too long");
        f64::from_bits(bits)
    }
}

fn integer(wanted: Wanted) -> u64 {
    wanted.integer().expect("every row was found fine")
}

/// Runs `$body` with `$t` as the type of a number 1 to 8.
macro_rules! with_type {
    ($kind:expr, $t:ident => $body:expr) => {
        match $kind {
            1 => {
                type $t = i8;
                $body
            }
            2 => {
                type $t = i16;
                $body
            }
            3 => {
                type $t = i32;
                $body
            }
            4 => {
                type $t = i64;
                $body
            }
            5 => {
                type $t = u8;
                $body
            }
            6 => {
                type $t = u16;
                $body
            }
            7 => {
                type $t = u32;
                $body
            }
            _ => {
                type $t = u64;
                $body
            }
        }
    };
}

fn greatest(kind: u64) -> i128 {
    with_type!(kind, T => i128::from(T::MAX))
}

fn negated(kind: u64, a: i128) -> i128 {
    with_type!(kind, T => i128::from((a as T).wrapping_neg()))
}

/// Rust's own wrapping operators, of the type itself; none where the divisor is zero.
fn integers(kind: u64, operator: u64, a: i128, b: i128) -> Option<i128> {
    with_type!(kind, T => {
        let (a, b) = (a as T, b as T);
        Some(i128::from(match operator {
            9 => a.wrapping_add(b),
            10 => a.wrapping_sub(b),
            11 => a.wrapping_mul(b),
            12 | 13 if b == 0 => return None,
            12 => a.wrapping_div(b),
            _ => a.wrapping_rem(b),
        }))
    })
}

fn floats(operator: u64, a: f64, b: f64) -> f64 {
    match operator {
        9 => a + b,
        10 => a - b,
        11 => a * b,
        12 => a / b,
        _ => a % b,
    }
}

fn compared(operator: u64, a: i128, b: i128) -> bool {
    match operator {
        3 => a == b,
        4 => a != b,
        5 => a < b,
        6 => a <= b,
        7 => a > b,
        _ => a >= b,
    }
}

/// "`&&` and `||` evaluate both sides".
fn joined(operator: u64, a: bool, b: bool) -> bool {
    if operator == 1 { a | b } else { a & b }
}
