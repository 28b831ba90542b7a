//! The print of a tree (C-20): document 02's words, and for parentheses the direct rule of docs/DECISIONS.md, by recursion on the tree that a source's rows are.

use protocol::{Printed, Refusal, Row};

const LONGEST: usize = 65_535;
const TOO_LONG: u64 = 1;
const TOO_DEEP: u64 = 9;

const F_STRING: u64 = 46;

/// A row, its number in the table, its text, and what is under it.
pub struct Tree<'a> {
    index: usize,
    row: Row,
    text: &'a str,
    children: Vec<Tree<'a>>,
}

impl<'a> Tree<'a> {
    pub fn of(rows: &[Row], source: &'a str) -> Self {
        Self::before(rows, source, &mut rows.len())
    }

    /// The tree whose rows end before a place, which goes to before them.
    fn before(rows: &[Row], source: &'a str, place: &mut usize) -> Self {
        *place -= 1;
        let (index, row) = (*place, rows[*place]);
        let mut children: Vec<_> = (0..row[3]).map(|_| Self::before(rows, source, place)).collect();
        children.reverse();
        Tree { index, row, text: text(source, &row), children }
    }

    pub fn index(&self) -> usize {
        self.index
    }

    fn kind(&self) -> u64 {
        self.row[0]
    }

    fn value(&self) -> u64 {
        self.row[4]
    }

    fn detail(&self) -> u64 {
        self.row[5]
    }

    fn is_four(&self) -> bool {
        matches!(self.kind(), 28..=31)
    }

    fn is_record(&self) -> bool {
        self.kind() == 36
    }

    fn is_block(&self) -> bool {
        self.kind() == 35
    }

    fn opens_with_brace(&self) -> bool {
        self.is_block() || self.is_record() && self.value() == 0
    }

    fn is_bare_return(&self) -> bool {
        self.kind() == 27 && self.children.is_empty()
    }

    /// "assign and return form 0; `||` 1; `&&` 2; comparison 3; `+ -` 4; `* / %` 5; `! -` 6; all else 7".
    fn level(&self) -> u64 {
        match (self.kind(), self.detail()) {
            (26 | 27, _) => 0,
            (20, 1) => 1,
            (20, 2) => 2,
            (20, 3..=8) => 3,
            (20, 9 | 10) => 4,
            (20, _) => 5,
            (21 | 22, _) => 6,
            _ => 7,
        }
    }
}

/// A row's bytes; an f-string's end with its quote, which its row hasn't.
pub fn text<'a>(source: &'a str, row: &Row) -> &'a str {
    &source[row[1] as usize..row[2] as usize + usize::from(row[0] == F_STRING)]
}

/// What a row stands first in without being the whole of it.
#[derive(Clone, Copy, PartialEq)]
enum First {
    Nothing,
    Statement,
    Body,
}

/// Where an expression stands.
#[derive(Clone, Copy)]
pub struct Place {
    /// The level that is asked.
    asked: u64,
    /// Under an access.
    accessed: bool,
    /// In a head, outside its brackets; and last in it, right before the body.
    headed: bool,
    last: bool,
    first: First,
}

const WHOLE: Place = Place { asked: 0, accessed: false, headed: false, last: false, first: First::Nothing };

impl Place {
    const HEAD: Place = Place { headed: true, last: true, ..WHOLE };

    /// An operand with which the row begins and doesn't end.
    fn left(self, asked: u64) -> Self {
        Place { asked, accessed: false, last: false, ..self }
    }

    /// An operand with which it ends and doesn't begin.
    fn right(self, asked: u64) -> Self {
        Place { asked, accessed: false, first: First::Nothing, ..self }
    }
}

/// The six conditions for a pair of parentheses.
pub fn needs(tree: &Tree<'_>, place: Place) -> bool {
    tree.level() < place.asked
        || place.accessed && tree.kind() == 2
        || place.headed && tree.is_record()
        || place.first == First::Statement && tree.is_four()
        || place.first == First::Body && tree.opens_with_brace()
        || place.last && tree.is_bare_return()
}

const BINARY: [&str; 13] = ["||", "&&", "==", "!=", "<", "<=", ">", ">=", "+", "-", "*", "/", "%"];
const ASSIGN: [&str; 6] = ["=", "+=", "-=", "*=", "/=", "%="];
const RETURN: [&str; 3] = ["return", "accept", "reject"];
const FILTER: [&str; 2] = ["filter", "filtermap"];

/// Whether an expression at its place is put in parentheses.
pub type Pairs<'a> = &'a mut dyn FnMut(&Tree<'_>, Place) -> bool;

struct Writer<'a, 't> {
    tokens: Vec<&'t str>,
    pairs: Pairs<'a>,
}

impl<'t> Writer<'_, 't> {
    fn put(&mut self, token: &'t str) {
        self.tokens.push(token);
    }

    fn all(&mut self, trees: &'t [Tree<'t>]) {
        trees.iter().for_each(|tree| self.plain(tree));
    }

    fn between(
        &mut self,
        comma: &'t str,
        trees: &'t [Tree<'t>],
        mut one: impl FnMut(&mut Self, &'t Tree<'t>),
    ) {
        for (i, tree) in trees.iter().enumerate() {
            if i > 0 {
                self.put(comma);
            }
            one(self, tree);
        }
    }

    fn list(
        &mut self,
        open: &'t str,
        close: &'t str,
        trees: &'t [Tree<'t>],
        one: impl FnMut(&mut Self, &'t Tree<'t>),
    ) {
        self.put(open);
        self.between(",", trees, one);
        self.put(close);
    }

    /// What is no expression.
    fn plain(&mut self, tree: &'t Tree<'t>) {
        let under = &tree.children[..];
        match (tree.kind(), under) {
            (1 | 33, _) => self.put(tree.text),
            (2, _) => self.between(".", under, Self::plain),
            (3, _) => self.put("!"),
            (4, _) => self.list("(", ")", &[], Self::plain),
            (5, [kind]) => {
                self.plain(kind);
                self.put("?");
            }
            (6, [path, kinds @ ..]) => {
                self.plain(path);
                if tree.value() == 1 {
                    self.list("[", "]", kinds, Self::plain);
                }
            }
            (7, fields) => self.list("{", "}", fields, Self::plain),
            (8, [name, kind]) => {
                self.plain(name);
                self.put(":");
                self.plain(kind);
            }
            (34, [name, names @ ..]) => {
                self.plain(name);
                if tree.value() == 1 {
                    self.list("(", ")", names, Self::plain);
                }
            }
            (35, _) => self.block(tree),
            (38, [name, rest @ .., expr]) => self.bound("let", name, rest, expr),
            (39, [path]) => {
                self.put("import");
                self.plain(path);
                self.put(";");
            }
            (40, [name, kind, expr]) => self.bound("const", name, std::slice::from_ref(kind), expr),
            (41, [name, rest @ ..]) => self.function("fn", name, rest, tree.value() == 1),
            (42, [name, block]) => {
                self.put("test");
                self.plain(name);
                self.plain(block);
            }
            (43, declarations) => self.all(declarations),
            (44, _) => self.import_path(under),
            (45, [name, rest @ ..]) => self.function(FILTER[tree.detail() as usize - 1], name, rest, false),
            (kind, under) => unreachable!("kind {kind} with {} children", under.len()),
        }
    }

    fn bound(&mut self, word: &'t str, name: &'t Tree<'t>, kind: &'t [Tree<'t>], expr: &'t Tree<'t>) {
        self.put(word);
        self.plain(name);
        if let [kind] = kind {
            self.put(":");
            self.plain(kind);
        }
        self.put("=");
        self.expr(expr, WHOLE);
        self.put(";");
    }

    /// Behind the name: parameters, perhaps a result, the block.
    fn function(&mut self, word: &'t str, name: &'t Tree<'t>, rest: &'t [Tree<'t>], result: bool) {
        let (params, behind) = rest.split_at(rest.len() - 1 - usize::from(result));
        self.put(word);
        self.plain(name);
        self.list("(", ")", params, Self::plain);
        if result {
            self.put("->");
        }
        self.all(behind);
    }

    /// Items, then perhaps a group of paths.
    fn import_path(&mut self, under: &'t [Tree<'t>]) {
        let items = under.iter().take_while(|item| item.kind() == 1).count();
        self.between(".", &under[..items], Self::plain);
        if items < under.len() {
            self.put(".");
            self.list("{", "}", &under[items..], Self::plain);
        }
    }

    fn block(&mut self, tree: &'t Tree<'t>) {
        self.put("{");
        for (i, item) in tree.children.iter().enumerate() {
            let last = i + 1 == tree.children.len();
            if matches!(item.kind(), 38 | 39) {
                self.plain(item);
                continue;
            }
            let place = if item.is_four() { WHOLE } else { Place { first: First::Statement, ..WHOLE } };
            let bare = !self.expr(item, place);
            let ended =
                if item.is_four() && bare { last && tree.value() == 0 } else { !last || tree.value() == 0 };
            if ended {
                self.put(";");
            }
        }
        self.put("}");
    }

    /// An expression at a place, and whether a pair is round it.
    fn expr(&mut self, tree: &'t Tree<'t>, place: Place) -> bool {
        let pair = (self.pairs)(tree, place);
        if pair {
            self.put("(");
            self.bare(tree, WHOLE);
            self.put(")");
        } else {
            self.bare(tree, place);
        }
        pair
    }

    fn argument(&mut self, tree: &'t Tree<'t>) {
        self.expr(tree, WHOLE);
    }

    fn bare(&mut self, tree: &'t Tree<'t>, place: Place) {
        match (tree.kind(), &tree.children[..]) {
            (10..=17 | F_STRING, _) => self.put(tree.text),
            (2 | 35, _) => self.plain(tree),
            (20, [left, right]) => {
                let level = tree.level();
                self.expr(left, place.left(level + u64::from(level == 3)));
                self.put(BINARY[tree.detail() as usize - 1]);
                self.expr(right, place.right(level + 1));
            }
            (21, [operand]) => self.signed("!", operand, place.right(6)),
            (22, [operand]) => self.signed("-", operand, place.right(6)),
            (23, [called, arguments @ ..]) => {
                self.expr(called, place.left(7));
                self.list("(", ")", arguments, Self::argument);
            }
            (24, [operand, name]) => {
                self.expr(operand, Place { accessed: true, ..place.left(7) });
                self.put(".");
                self.plain(name);
            }
            (25, [operand]) => {
                self.expr(operand, place.left(7));
                self.put("?");
            }
            (26, [path, right]) => {
                self.expr(path, WHOLE);
                self.put(ASSIGN[tree.detail() as usize]);
                self.expr(right, place.right(1));
            }
            (27, returned) => {
                self.put(RETURN[tree.detail() as usize - 1]);
                if let [expr] = returned {
                    self.expr(expr, place.right(0));
                }
            }
            (28..=31, under) => self.four(tree, under),
            (36, [path, fields @ ..]) if tree.value() == 1 => {
                self.plain(path);
                self.list("{", "}", fields, Self::field);
            }
            (36, fields) => self.list("{", "}", fields, Self::field),
            (kind, under) => unreachable!("kind {kind} with {} children", under.len()),
        }
    }

    fn signed(&mut self, sign: &'t str, operand: &'t Tree<'t>, place: Place) {
        self.put(sign);
        self.expr(operand, place);
    }

    fn field(&mut self, tree: &'t Tree<'t>) {
        self.plain(&tree.children[0]);
        self.put(":");
        self.expr(&tree.children[1], WHOLE);
    }

    fn head(&mut self, word: &'t str, expr: &'t Tree<'t>) {
        self.put(word);
        self.expr(expr, Place::HEAD);
    }

    fn four(&mut self, tree: &'t Tree<'t>, under: &'t [Tree<'t>]) {
        match (tree.kind(), under) {
            (28, [head, then, otherwise @ ..]) => {
                self.head("if", head);
                self.plain(then);
                if let [otherwise] = otherwise {
                    self.put("else");
                    if otherwise.is_block() { self.plain(otherwise) } else { self.bare(otherwise, WHOLE) }
                }
            }
            (29, [head, block]) => {
                self.head("while", head);
                self.plain(block);
            }
            (30, [name, head, block]) => {
                self.put("for");
                self.plain(name);
                self.head("in", head);
                self.plain(block);
            }
            (_, [head, arms @ ..]) => {
                self.head("match", head);
                self.put("{");
                for (i, arm) in arms.iter().enumerate() {
                    self.arm(arm, i + 1 < arms.len());
                }
                self.put("}");
            }
            (kind, under) => unreachable!("kind {kind} with {} children", under.len()),
        }
    }

    fn arm(&mut self, tree: &'t Tree<'t>, more: bool) {
        let [pattern, guard @ .., body] = &tree.children[..] else {
            unreachable!("an arm has a pattern and a body")
        };
        self.plain(pattern);
        if let [guard] = guard {
            self.put("if");
            self.expr(guard, WHOLE);
        }
        self.put("=>");
        let place = if body.is_block() { WHOLE } else { Place { first: First::Body, ..WHOLE } };
        let bare = !self.expr(body, place);
        if more && !(bare && body.is_block()) {
            self.put(",");
        }
    }
}

/// The tokens of a tree, with the pairs that are asked for.
pub fn tokens<'t>(tree: &'t Tree<'t>, pairs: Pairs<'_>) -> Vec<&'t str> {
    let mut writer = Writer { tokens: Vec::new(), pairs };
    writer.plain(tree);
    writer.tokens
}

/// "One space between tokens, but a newline alone after `;`, `{` and `}`".
pub fn spaced(tokens: &[&str]) -> String {
    let mut out = String::new();
    for (i, token) in tokens.iter().enumerate() {
        out.push_str(token);
        match *token {
            ";" | "{" | "}" => out.push('\n'),
            _ if i + 1 < tokens.len() => out.push(' '),
            _ => {}
        }
    }
    out
}

pub fn print(rows: &[Row], source: &str) -> String {
    spaced(&tokens(&Tree::of(rows, source), &mut needs))
}

/// "1 where the print would be over 65,535 bytes, before 9 where it would pass another limit (at the token of the print)": what reading the print says.
pub fn printed(
    source: &[u8],
    mut read: impl FnMut(&[u8]) -> Result<Vec<Row>, Refusal>,
) -> Result<Printed, Refusal> {
    let rows = read(source)?;
    let text = print(&rows, std::str::from_utf8(source).expect("what was read is ASCII"));
    if text.len() > LONGEST {
        return Err(Refusal::new(TOO_LONG, LONGEST, LONGEST));
    }
    match read(text.as_bytes()) {
        Err(refusal) if refusal.number == TOO_DEEP => Err(refusal),
        again => {
            assert!(
                same(&rows, source, &again.expect("a print is read"), text.as_bytes()),
                "a print is the same tree"
            );
            Ok(Printed { text, tests: crate::files::tests(&rows) })
        }
    }
}

/// "the same tree, with spans set aside but the text of each name, float and string compared"; here of all that is copied, and of the texts in f-strings.
pub fn same(rows: &[Row], source: &[u8], others: &[Row], text_of_others: &[u8]) -> bool {
    const COPIED: [u64; 12] = [1, 10, 11, 12, 13, 14, 15, 16, 17, 33, 46, 47];
    let (source, other_source) = (std::str::from_utf8(source), std::str::from_utf8(text_of_others));
    let (Ok(source), Ok(other_source)) = (source, other_source) else { return false };
    let bare = |row: &Row| [row[0], row[3], row[4], row[5], row[6]];
    rows.len() == others.len()
        && rows.iter().zip(others).all(|(row, other)| {
            bare(row) == bare(other)
                && (!COPIED.contains(&row[0]) || text(source, row) == text(other_source, other))
        })
}
