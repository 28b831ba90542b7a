//! The rows of document 01, and of document 02's C-11 and C-14, from the Rust's tree: children before their parent, left to right.
//!
//! "A span runs from the first to the last byte of its tokens, but where a node begins or ends with a child, that
//! child's row gives that end. Parentheses round an expr give no row and widen no span."
//!
//! Kinds that document 01 hasn't, made by `full` alone: 90 `()` as an expression, 91 list, 92 record declaration,
//! 93 enum declaration, 94 variant of an enum; detail 14 of 20 is `**`.

use std::net::IpAddr;

use protocol::Row;

use crate::{
    ast::{
        BinOp, Block, CompoundAssignOp, Declaration, Expr, FStringPart, FilterType, FloatType, Identifier,
        ImportPath, IntType, Literal, Match, MatchArm, Params, Path, Pattern, Record, RecordType, ReturnKind,
        Stmt, SyntaxTree, TypeExpr,
    },
    parser::{
        lexer::Lexer,
        meta::{Meta, MetaId, Spans},
        token::Token,
    },
};

/// Where a row says how many rows its subtree has.
const SIZE: usize = 6;

pub fn expression(spans: &Spans, expr: &Meta<Expr>) -> Vec<Row> {
    let mut rows = Rows { spans, list: Vec::new() };
    rows.expr(expr);
    rows.list
}

pub fn tree(spans: &Spans, source: &str, tree: &SyntaxTree) -> Vec<Row> {
    let mut rows = Rows { spans, list: Vec::new() };
    let mut at = tree.shebang.as_ref().map_or(0, |text| text.len());
    for declaration in &tree.declarations {
        at = rows.declaration(source, at, declaration);
    }
    rows.put(43, (0, source.len()), tree.declarations.len(), 0, 0);
    rows.list
}

/// A row's own start and end.
type Place = (usize, usize);

struct Rows<'a> {
    spans: &'a Spans,
    list: Vec<Row>,
}

/// The next token from a place on; the tree has been read, so there is one.
fn token_at(source: &str, at: usize) -> (Option<Token<'_>>, Place) {
    match Lexer::new(0, &source[at..]).next() {
        Some((token, span)) => (token.ok(), (at + span.start, at + span.end)),
        None => (None, (source.len(), source.len())),
    }
}

/// "Declaration spans are added": the end of the `;` that closes a declaration whose last row ends at a place. Only
/// closing parentheses, and before them the quote of an f-string, can stand between.
fn after_semicolon(source: &str, mut at: usize) -> usize {
    if source[at..].starts_with('"') {
        at += 1;
    }
    loop {
        let (token, place) = token_at(source, at);
        at = place.1;
        if matches!(token, None | Some(Token::SemiColon)) {
            return at;
        }
    }
}

fn flag(there: bool) -> u64 {
    u64::from(there)
}

impl Rows<'_> {
    fn put(&mut self, kind: u64, place: Place, children: usize, value: u64, detail: u64) -> Place {
        let size = self.size(children);
        self.list.push([kind, place.0 as u64, place.1 as u64, children as u64, value, detail, size]);
        place
    }

    /// The rows of a subtree over the last so many children: one, and those of each child.
    fn size(&self, children: usize) -> u64 {
        (0..children).fold(1, |size, _| size + self.list[self.list.len() - size as usize][SIZE])
    }

    fn span(&self, of: impl Into<MetaId>) -> Place {
        let span = self.spans.get(of);
        (span.start, span.end)
    }

    /// Writes a declaration that begins with the first token after a place, and gives the place after it.
    fn declaration(&mut self, source: &str, at: usize, declaration: &Declaration) -> usize {
        let start = token_at(source, at).1.0;
        match declaration {
            Declaration::Const(d) => {
                self.name(&d.ident);
                self.type_expr(&d.ty);
                let last = self.expr(&d.expr);
                let end = after_semicolon(source, last.1);
                self.put(40, (start, end), 3, 0, 0);
                end
            }
            Declaration::Function(d) => {
                self.name(&d.ident);
                let params = self.params(&d.params);
                let ret = d.ret.iter().map(|ty| self.type_expr(ty)).count();
                let end = self.block(&d.body).1;
                self.put(41, (start, end), 2 + params + ret, ret as u64, 0);
                end
            }
            Declaration::FilterMap(d) => {
                self.name(&d.ident);
                let params = self.params(&d.params);
                let end = self.block(&d.body).1;
                let detail = if d._filter_type == FilterType::Filter { 1 } else { 2 };
                self.put(45, (start, end), 2 + params, 0, detail);
                end
            }
            Declaration::Test(d) => {
                self.name(&d.ident);
                let end = self.block(&d.body).1;
                self.put(42, (start, end), 2, 0, 0);
                end
            }
            Declaration::Import(path) => {
                let place = self.import(path);
                after_semicolon(source, place.1)
            }
            Declaration::Record(d) => {
                self.name(&d.ident);
                let types = self.names(d.type_params.as_ref());
                let end = self.record_type(&d.record_type).1;
                self.put(92, (start, end), 2 + types, flag(d.type_params.is_some()), 0);
                end
            }
            Declaration::Enum(d) => {
                self.name(&d.ident);
                let types = self.names(d.type_params.as_ref());
                for variant in &d.variants.node {
                    let place = self.span(variant);
                    self.name(&variant.ident);
                    variant.fields.iter().for_each(|ty| _ = self.type_expr(ty));
                    self.put(94, place, 1 + variant.fields.len(), 0, 0);
                }
                let end = self.span(&d.variants).1;
                let children = 1 + types + d.variants.len();
                self.put(93, (start, end), children, flag(d.type_params.is_some()), 0);
                end
            }
        }
    }

    fn params(&mut self, params: &Meta<Params>) -> usize {
        for param in &params.0 {
            self.name_with_type(&param.name, &param.ty);
        }
        params.0.len()
    }

    fn names(&mut self, names: Option<&Meta<Vec<Meta<Identifier>>>>) -> usize {
        names.into_iter().flat_map(|list| &list.node).map(|name| self.name(name)).count()
    }

    fn name(&mut self, name: &Meta<Identifier>) -> Place {
        self.put(1, self.span(name), 0, 0, 0)
    }

    /// The rows of a path's items, from the first to the last.
    fn items(&mut self, path: &Path) -> Place {
        let mut places = path.idents.iter().map(|item| self.name(item));
        let first = places.next().expect("a path has an item");
        (first.0, places.last().unwrap_or(first).1)
    }

    fn path(&mut self, path: &Meta<Path>) -> Place {
        let place = self.items(path);
        self.put(2, place, path.idents.len(), 0, 0)
    }

    fn name_with_type(&mut self, name: &Meta<Identifier>, ty: &Meta<TypeExpr>) -> Place {
        let start = self.name(name).0;
        let end = self.type_expr(ty).1;
        self.put(8, (start, end), 2, 0, 0)
    }

    fn type_expr(&mut self, ty: &Meta<TypeExpr>) -> Place {
        let place = self.span(ty);
        match &ty.node {
            TypeExpr::Never => self.put(3, place, 0, 0, 0),
            TypeExpr::Unit => self.put(4, place, 0, 0, 0),
            TypeExpr::Option(inner) => {
                let start = self.type_expr(inner).0;
                self.put(5, (start, place.1), 1, 0, 0)
            }
            TypeExpr::Path(path, None) => {
                let place = self.path(path);
                self.put(6, place, 1, 0, 0)
            }
            TypeExpr::Path(path, Some(types)) => {
                let start = self.path(path).0;
                types.node.iter().for_each(|ty| _ = self.type_expr(ty));
                self.put(6, (start, place.1), 1 + types.len(), 1, 0)
            }
            TypeExpr::Record(record) => self.record_type(record),
        }
    }

    fn record_type(&mut self, record: &RecordType) -> Place {
        for field in &record.fields.node {
            self.name_with_type(&field.name, &field.ty);
        }
        self.put(7, self.span(&record.fields), record.fields.len(), 0, 0)
    }

    fn import(&mut self, path: &Meta<ImportPath>) -> Place {
        let place = self.import_path(path);
        self.put(39, place, 1, 0, 0)
    }

    /// Its items, then the importpaths of its group.
    fn import_path(&mut self, path: &Meta<ImportPath>) -> Place {
        let mut children = 0;
        if let Some(items) = &path.path {
            self.items(items);
            children += items.idents.len();
        }
        if let Some(group) = &path.group {
            group.node.iter().for_each(|path| _ = self.import_path(path));
            children += group.len();
        }
        self.put(44, self.span(path), children, 0, 0)
    }

    fn block(&mut self, block: &Meta<Block>) -> Place {
        block.stmts.iter().for_each(|stmt| self.stmt(stmt));
        let last = block.last.iter().map(|expr| self.expr(expr)).count();
        self.put(35, self.span(block), block.stmts.len() + last, last as u64, 0)
    }

    fn stmt(&mut self, stmt: &Meta<Stmt>) {
        match &stmt.node {
            Stmt::Import(path) => _ = self.import(path),
            Stmt::Expr(expr) => _ = self.expr(expr),
            Stmt::Let(name, ty, expr) => {
                self.name(name);
                let types = ty.iter().map(|ty| self.type_expr(ty)).count();
                self.expr(expr);
                self.put(38, self.span(stmt), 2 + types, types as u64, 0);
            }
        }
    }

    fn expr(&mut self, expr: &Meta<Expr>) -> Place {
        let place = self.span(expr);
        match &expr.node {
            Expr::Parentheses(inner) => self.expr(inner),
            Expr::Literal(literal) => self.literal(place, literal),
            Expr::Path(path) => self.path(path),
            Expr::Block(block) => self.block(block),
            Expr::Record(record) => self.record(None, record),
            Expr::TypedRecord(path, record) => self.record(Some(path), record),
            Expr::List(items) => {
                let children = self.exprs(items);
                self.put(91, place, children, 0, 0)
            }
            Expr::FString(parts) => self.f_string(place, parts),
            Expr::Not(inner) => self.prefixed(21, place.0, inner),
            Expr::Negate(inner) => self.prefixed(22, place.0, inner),
            Expr::QuestionMark(inner) => {
                let start = self.expr(inner).0;
                self.put(25, (start, place.1), 1, 0, 0)
            }
            Expr::FunctionCall(callee, args) => {
                let start = self.expr(callee).0;
                let args = self.exprs(args);
                self.put(23, (start, place.1), 1 + args, 0, 0)
            }
            Expr::Access(inner, name) => {
                let start = self.expr(inner).0;
                let end = self.name(name).1;
                self.put(24, (start, end), 2, 0, 0)
            }
            Expr::BinOp(left, op, right) => {
                let start = self.expr(left).0;
                let end = self.expr(right).1;
                self.put(20, (start, end), 2, 0, operator(op))
            }
            Expr::Assign(path, right) => self.assign(path, right, 0),
            Expr::CompoundAssign(a) => self.assign(&a.path, &a.expr, compound(&a.op)),
            Expr::Return(kind, value) => {
                let detail = match kind {
                    ReturnKind::Return => 1,
                    ReturnKind::Accept => 2,
                    ReturnKind::Reject => 3,
                };
                let end = value.as_ref().map_or(place.1, |value| self.expr(value).1);
                let children = value.iter().count();
                self.put(27, (place.0, end), children, 0, detail)
            }
            Expr::IfElse(condition, then, otherwise) => {
                self.expr(condition);
                let mut end = self.block(then).1;
                if let Some(otherwise) = otherwise {
                    end = self.else_part(otherwise).1;
                }
                self.put(28, (place.0, end), 2 + otherwise.iter().count(), 0, 0)
            }
            Expr::While(condition, body) => {
                self.expr(condition);
                let end = self.block(body).1;
                self.put(29, (place.0, end), 2, 0, 0)
            }
            Expr::For(name, over, body) => {
                self.name(name);
                self.expr(over);
                let end = self.block(body).1;
                self.put(30, (place.0, end), 3, 0, 0)
            }
            Expr::Match(inner) => self.match_expr(place, inner),
        }
    }

    fn exprs(&mut self, list: &[Meta<Expr>]) -> usize {
        list.iter().for_each(|expr| _ = self.expr(expr));
        list.len()
    }

    fn prefixed(&mut self, kind: u64, start: usize, inner: &Meta<Expr>) -> Place {
        let end = self.expr(inner).1;
        self.put(kind, (start, end), 1, 0, 0)
    }

    fn assign(&mut self, path: &Meta<Path>, right: &Meta<Expr>, detail: u64) -> Place {
        let start = self.path(path).0;
        let end = self.expr(right).1;
        self.put(26, (start, end), 2, 0, detail)
    }

    /// "`if expr block [else block or if]`": the Rust puts a block with the same id round an `else if`.
    fn else_part(&mut self, block: &Meta<Block>) -> Place {
        match &block.last {
            Some(inner) if inner.id == block.id => self.expr(inner),
            _ => self.block(block),
        }
    }

    fn match_expr(&mut self, place: Place, inner: &Meta<Match>) -> Place {
        self.expr(&inner.expr);
        inner.arms.iter().for_each(|arm| self.arm(arm));
        self.put(31, place, 1 + inner.arms.len(), 0, 0)
    }

    fn arm(&mut self, arm: &Meta<MatchArm>) {
        let place = self.span(&arm.pattern);
        let start = match &arm.pattern.node {
            Pattern::Underscore => self.put(33, place, 0, 0, 0).0,
            Pattern::EnumVariant { variant, fields } => {
                let start = self.name(variant).0;
                let names = self.names(fields.as_ref());
                self.put(34, (start, place.1), 1 + names, flag(fields.is_some()), 0).0
            }
        };
        let guard = arm.guard.iter().map(|guard| self.expr(guard)).count();
        let end = self.expr(&arm.body).1;
        self.put(32, (start, end), 2 + guard, guard as u64, 0);
    }

    fn record(&mut self, path: Option<&Meta<Path>>, record: &Meta<Record>) -> Place {
        let (mut start, end) = self.span(record);
        if let Some(path) = path {
            start = self.path(path).0;
        }
        for field in &record.fields {
            let start = self.name(&field.name).0;
            let end = self.expr(&field.expr).1;
            self.put(37, (start, end), 2, 0, 0);
        }
        let first = path.iter().count();
        self.put(36, (start, end), first + record.fields.len(), first as u64, 0)
    }

    fn f_string(&mut self, place: Place, parts: &[Meta<FStringPart>]) -> Place {
        for part in parts {
            match &part.node {
                FStringPart::String(text) => _ = self.put(47, self.span(part), 0, text.len() as u64, 0),
                FStringPart::Expr(expr) => _ = self.expr(expr),
            }
        }
        self.put(46, place, parts.len(), 0, 0)
    }

    fn literal(&mut self, place: Place, literal: &Literal) -> Place {
        let (kind, value, detail) = match literal {
            Literal::Integer(n, suffix) => (10, *n as u64, suffix.as_ref().map_or(0, integer)),
            Literal::Float(_, None) => (11, 0, 0),
            Literal::Float(_, Some(FloatType::F32)) => (11, 0, 9),
            Literal::Float(_, Some(FloatType::F64)) => (11, 0, 10),
            Literal::Bool(b) => (12, flag(*b), 0),
            Literal::Asn(asn) => (13, u64::from(asn.into_u32()), 0),
            Literal::IpAddress(IpAddr::V4(ip)) => (14, u64::from(ip.to_bits()), 0),
            Literal::IpAddress(IpAddr::V6(ip)) => (15, (ip.to_bits() >> 64) as u64, ip.to_bits() as u64),
            Literal::String(_) => (16, 0, 0),
            Literal::Char(c) => (17, u64::from(*c), 0),
            Literal::Unit => (90, 0, 0),
        };
        self.put(kind, place, 0, value, detail)
    }
}

fn integer(suffix: &IntType) -> u64 {
    match suffix {
        IntType::I8 => 1,
        IntType::I16 => 2,
        IntType::I32 => 3,
        IntType::I64 => 4,
        IntType::U8 => 5,
        IntType::U16 => 6,
        IntType::U32 => 7,
        IntType::U64 => 8,
    }
}

fn operator(op: &BinOp) -> u64 {
    match op {
        BinOp::Or => 1,
        BinOp::And => 2,
        BinOp::Eq => 3,
        BinOp::Ne => 4,
        BinOp::Lt => 5,
        BinOp::Le => 6,
        BinOp::Gt => 7,
        BinOp::Ge => 8,
        BinOp::Add => 9,
        BinOp::Sub => 10,
        BinOp::Mul => 11,
        BinOp::Div => 12,
        BinOp::Mod => 13,
        BinOp::Exp => 14,
    }
}

fn compound(op: &CompoundAssignOp) -> u64 {
    match op {
        CompoundAssignOp::Add => 1,
        CompoundAssignOp::Sub => 2,
        CompoundAssignOp::Mul => 3,
        CompoundAssignOp::Div => 4,
        CompoundAssignOp::Mod => 5,
    }
}
