//! highlight FILE: a filter in ANSI colours, token by token, broken ones too: what the lexer can't go on from is red, and the rest plain.
//! What is text in an f-string and what is a hole is the tree's to say, so in a file that is refused the first f-string ends the colours.

use std::{
    io::{self, Write},
    process::ExitCode,
};

use lekhyundo::{Kind, Reader, Reason, Refusal, Token, TokenCode, Tokens, Tree};

const PLAIN: &str = "";
const RED: &str = "\x1b[41m";
const COMMENT: &str = "\x1b[90m";
const STRING: &str = "\x1b[32m";

fn colour(code: TokenCode) -> &'static str {
    match code {
        TokenCode::Keyword => "\x1b[35m",
        TokenCode::Bool | TokenCode::Hex | TokenCode::Integer | TokenCode::Float => "\x1b[33m",
        TokenCode::Ipv4 | TokenCode::Ipv6 | TokenCode::Asn => "\x1b[36m",
        TokenCode::String | TokenCode::Char => STRING,
        _ => PLAIN,
    }
}

struct Highlighter<'a, W> {
    source: &'a [u8],
    tree: Option<Tree<'a>>,
    /// Where each f-string starts, in order, and where it ends.
    strings: Vec<(usize, usize)>,
    out: W,
    /// Up to where it is written.
    at: usize,
}

impl<W: Write> Highlighter<'_, W> {
    fn write(&mut self, end: usize, colour: &str) -> io::Result<()> {
        let text = &self.source[self.at..end];
        self.at = end;
        if colour.is_empty() || text.is_empty() {
            return self.out.write_all(text);
        }
        self.out.write_all(colour.as_bytes())?;
        self.out.write_all(text)?;
        self.out.write_all(b"\x1b[0m")
    }

    /// Blanks and comments up to a place.
    fn gap(&mut self, end: usize) -> io::Result<()> {
        while let Some(comment) = self.source[self.at..end].windows(2).position(|two| two == b"//") {
            self.write(self.at + comment, PLAIN)?;
            let line = self.source[self.at..end].iter().position(|&byte| byte == b'\n');
            self.write(line.map_or(end, |line| self.at + line), COMMENT)?;
        }
        self.write(end, PLAIN)
    }

    /// Tokens to the end, or to the `}` of the hole that they stand in.
    fn tokens(&mut self, hole: bool) -> io::Result<()> {
        let mut open = 0;
        let mut tokens = Tokens::starting_at(self.source, self.at);
        while let Some(token) = tokens.next() {
            match token {
                Ok(token) => {
                    self.gap(token.start)?;
                    self.write(token.end, colour(token.code))?;
                    open += bracket(&token, self.source);
                    if hole && open == 0 {
                        return Ok(());
                    }
                }
                Err(refusal) => {
                    self.gap(refusal.start)?;
                    if refusal.reason() != Some(Reason::FString) || !self.f_string(&refusal)? {
                        self.write(refusal.end, RED)?;
                        return self.write(self.source.len(), PLAIN);
                    }
                    tokens = Tokens::starting_at(self.source, self.at);
                }
            }
        }
        self.gap(self.source.len())
    }

    /// An f-string from its `f"` through its closing quote; false where there is no tree to say where its texts end.
    fn f_string(&mut self, refusal: &Refusal) -> io::Result<bool> {
        let found = self.strings.binary_search_by_key(&refusal.start, |string| string.0);
        let (Some(tree), Ok(found)) = (self.tree, found) else { return Ok(false) };
        let end = self.strings[found].1;
        self.write(refusal.end, STRING)?;
        while self.at < end {
            match tree.at(self.at).filter(|leaf| leaf.kind() == Kind::Text) {
                Some(text) => self.write(text.end(), STRING)?,
                None => self.tokens(true)?,
            }
        }
        self.write(end + 1, STRING)?;
        Ok(true)
    }
}

/// Where the f-strings of a tree start and end.
fn strings(tree: Tree<'_>) -> Vec<(usize, usize)> {
    let all = tree.nodes().filter(|node| node.kind() == Kind::FString);
    let mut strings: Vec<_> = all.map(|node| (node.start(), node.end())).collect();
    strings.sort();
    strings
}

fn bracket(token: &Token, source: &[u8]) -> i32 {
    match (token.code, token.text(source)) {
        (TokenCode::OneSign, b"{") => 1,
        (TokenCode::OneSign, b"}") => -1,
        _ => 0,
    }
}

fn main() -> ExitCode {
    let Some(file) = std::env::args().nth(1) else {
        eprintln!("usage: highlight FILE");
        return ExitCode::from(2);
    };
    let shown = std::fs::read(&file).and_then(|source| {
        let mut reader = Reader::default();
        let tree = reader.tree(&source).ok();
        let out = io::BufWriter::new(io::stdout().lock());
        let strings = tree.map_or(Vec::new(), strings);
        let mut highlighter = Highlighter { source: &source, tree, strings, out, at: 0 };
        highlighter.tokens(false)?;
        highlighter.out.flush()
    });
    match shown {
        Ok(()) => ExitCode::SUCCESS,
        Err(error) => {
            eprintln!("{file}: {error}");
            ExitCode::from(2)
        }
    }
}
