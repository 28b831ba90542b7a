//! The coloured pieces of a file: tokens by (c), the texts of f-strings by rows, and the comments between.

use std::ops::Range;

use lekhyundo::{Kind, MOST_BYTES, Reader, Reason, Token, TokenCode, Tokens, Tree};

use crate::reading::Reading;

/// What a piece is, by its place in `CLASSES`.
#[derive(Clone, Copy, Debug, PartialEq, Eq)]
pub enum Class {
    Keyword,
    Name,
    Number,
    String,
    Operator,
    Comment,
}

/// LSP's names of the classes.
pub const CLASSES: [&str; 6] = ["keyword", "variable", "number", "string", "operator", "comment"];

#[derive(Clone, Debug, PartialEq, Eq)]
pub struct Piece {
    pub class: Class,
    pub bytes: Range<usize>,
}

fn class_of(code: TokenCode) -> Class {
    match code {
        TokenCode::Keyword | TokenCode::Bool => Class::Keyword,
        TokenCode::String | TokenCode::Char => Class::String,
        TokenCode::OneSign | TokenCode::TwoSigns => Class::Operator,
        TokenCode::Name => Class::Name,
        _ => Class::Number,
    }
}

/// Those of a file, from left to right: of what is kept, and of what is dropped as far as there are tokens.
pub fn pieces(source: &[u8], reading: &Reading) -> Vec<Piece> {
    let mut all = Vec::new();
    if let Some(tree) = reading.tree() {
        all = Walk::new(tree.source().as_bytes(), 0, Some(tree)).run();
    }
    for dropped in &reading.dropped {
        let Range { start, end } = dropped.range;
        all.extend(Walk::new(&source[..end.min(MOST_BYTES)], start, None).run());
    }
    all.sort_by_key(|piece| piece.bytes.start);
    all
}

/// How far an expression is read in what is dropped, so that many of them take no more time than their bytes.
const LONGEST: usize = 4 << 10;

struct Walk<'a> {
    source: &'a [u8],
    tree: Option<Tree<'a>>,
    /// Where each f-string starts, in order, and where it ends.
    strings: Vec<(usize, usize)>,
    out: Vec<Piece>,
    /// Up to where pieces are known.
    at: usize,
}

impl<'a> Walk<'a> {
    fn new(source: &'a [u8], at: usize, tree: Option<Tree<'a>>) -> Self {
        Walk { source, tree, strings: tree.map_or(Vec::new(), strings), out: Vec::new(), at }
    }

    fn run(mut self) -> Vec<Piece> {
        self.tokens(false);
        self.out
    }

    fn put(&mut self, class: Class, end: usize) {
        if self.at < end {
            self.out.push(Piece { class, bytes: self.at..end });
        }
        self.at = end;
    }

    /// What stands between tokens: what isn't blank is a comment, up to the end of its line.
    fn gap(&mut self, end: usize) {
        while let Some(blanks) = self.source[self.at..end].iter().position(|byte| !is_blank(*byte)) {
            self.at += blanks;
            let line = self.source[self.at..end].iter().position(|&byte| byte == b'\n');
            let line_end = line.map_or(end, |line| self.at + line);
            let blanks = self.source[self.at..line_end].iter().rev().take_while(|byte| is_blank(**byte)).count();
            self.put(Class::Comment, line_end - blanks);
        }
        self.at = end;
    }

    /// Tokens to the end, or to the `}` of the hole that they stand in; false where one can't be told.
    fn tokens(&mut self, hole: bool) -> bool {
        let mut open = 0;
        let mut tokens = Tokens::starting_at(self.source, self.at);
        while let Some(token) = tokens.next() {
            match token {
                Ok(token) => {
                    self.gap(token.start);
                    self.put(class_of(token.code), token.end);
                    open += bracket(&token, self.source);
                    if hole && open == 0 {
                        return true;
                    }
                }
                Err(refusal) => {
                    self.gap(refusal.start.min(self.source.len()));
                    if refusal.reason() != Some(Reason::FString) || !self.f_string(refusal.start, refusal.end) {
                        return false;
                    }
                    tokens = Tokens::starting_at(self.source, self.at);
                }
            }
        }
        self.gap(self.source.len());
        true
    }

    /// An f-string from its `f"` through its closing quote; false where there is no tree to say where its texts end.
    fn f_string(&mut self, start: usize, text: usize) -> bool {
        let found = self.strings.binary_search_by_key(&start, |string| string.0);
        let (Some(tree), Ok(found)) = (self.tree, found) else { return self.expression() };
        let end = self.strings[found].1;
        self.put(Class::String, text);
        while self.at < end {
            match tree.at(self.at).filter(|leaf| leaf.kind() == Kind::Text) {
                Some(text) => self.put(Class::String, text.end()),
                None if self.tokens(true) => {}
                None => return false,
            }
        }
        self.put(Class::String, end + 1);
        true
    }

    /// What is dropped has no tree, but the expression that begins here may have one: up to what can't go on with it.
    fn expression(&mut self) -> bool {
        let rest = &self.source[self.at..self.source.len().min(self.at + LONGEST)];
        let end = match Reader::with_room(0).expression(rest) {
            Err(refusal) if refusal.reason() != Some(Reason::NoRoom) => refusal.start,
            _ => rest.len(),
        };
        let mut reader = Reader::default();
        let Ok(tree) = reader.expression(&rest[..end]) else { return false };
        let from = self.at;
        let pieces = Walk::new(&rest[..end], 0, Some(tree)).run().into_iter();
        let moved = |Piece { class, bytes }| Piece { class, bytes: from + bytes.start..from + bytes.end };
        self.out.extend(pieces.map(moved));
        self.at += end;
        true
    }
}

/// Where the f-strings of a tree start and end.
fn strings(tree: Tree<'_>) -> Vec<(usize, usize)> {
    let all = tree.nodes().filter(|node| node.kind() == Kind::FString);
    let mut strings: Vec<_> = all.map(|node| (node.start(), node.end())).collect();
    strings.sort();
    strings
}

fn bracket(token: &Token, source: &[u8]) -> i32 {
    match (token.code, token.text(source)) {
        (TokenCode::OneSign, b"{") => 1,
        (TokenCode::OneSign, b"}") => -1,
        _ => 0,
    }
}

fn is_blank(byte: u8) -> bool {
    matches!(byte, b'\t'..=b'\r' | b' ')
}
