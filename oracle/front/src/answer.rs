//! Answers of the entry points from the Rust's lexer and parser, for both programs.

#[path = "constants.rs"]
mod constants;

use std::panic::{AssertUnwindSafe, catch_unwind};

use protocol::{
    Case, Constant, Found, NotThere, Refusal, Row, serve, time, write_bytes, write_constant, write_pair, write_printed, write_refusal, write_rows,
    write_salvaged,
};

use crate::{
    ast::{Expr, FloatType, Literal},
    files,
    parser::{
        ParseError, Parser,
        lexer::Lexer,
        meta::{Meta, Spans},
        token::Token,
    },
    printing, rows, salvage,
};

/// Recursion in the Rust goes as deep as the source nests; nothing of this is touched before it is needed.
const STACK: usize = 2 << 30;

/// Number of an answer that the commit's code did not live to give.
const FAILED: u64 = 99;

/// What a program tests of a source as a whole before anything reads it.
pub type WholeSource = fn(&[u8]) -> Result<&str, Refusal>;

pub fn run(whole: WholeSource) -> std::io::Result<()> {
    let arguments: Vec<String> = std::env::args().skip(1).collect();
    std::panic::set_hook(Box::new(|_| {}));
    on_large_stack(move || match arguments.first().map(String::as_str) {
        Some("tokens") => time_tokens(whole, &arguments[1..]),
        Some("trees") => time_trees(whole, &arguments[1..]),
        _ => serve(|case, out| answer(whole, case, out)),
    })
}

/// Runs what reads sources by the Rust on a thread of its own.
pub fn on_large_stack(run: impl FnOnce() -> std::io::Result<()> + Send + 'static) -> std::io::Result<()> {
    let thread = std::thread::Builder::new().stack_size(STACK).spawn(run)?;
    thread.join().expect("every failure is caught where a case is answered")
}

fn time_tokens(whole: WholeSource, arguments: &[String]) -> std::io::Result<()> {
    let list = |source: &[u8]| whole(source).and_then(tokens);
    time(arguments, |source| list(source).map_or(0, |list| list.len() as u64), |source| {
        std::hint::black_box(list(source).is_ok());
    })
}

/// The Rust's own tree, made and dropped; the rows made of it are counted but not timed.
fn time_trees(whole: WholeSource, arguments: &[String]) -> std::io::Result<()> {
    let rows = |source: &[u8]| whole(source).and_then(tree).map_or(0, |rows| rows.len() as u64);
    time(arguments, rows, |source| {
        let parsed = |text| Parser::parse(0, &mut Spans::default(), text).is_ok();
        std::hint::black_box(whole(source).is_ok_and(parsed));
    })
}

fn answer(whole: WholeSource, case: &Case<'_>, out: &mut String) {
    let length = case.source.len();
    let rows = |source: &[u8]| whole(source).and_then(tree);
    let old_rows = |source: &[u8]| whole(source).and_then(old_tree);
    let done = catch_unwind(AssertUnwindSafe(|| match case.entry {
        b'e' => write_bytes(out, decoded(whole, case.source).as_deref().map_err(|r| *r), case.room),
        b'f' => write_pair(out, float(whole, case.source)),
        b'k' => write_constant(out, constant(whole, case)),
        b'p' => write_printed(out, printing::printed(case.source, old_rows), case.room),
        b's' => write_salvaged(out, salvage::salvage(case.source, rows), case.room, case.list),
        b't' => write_pair(out, files::check(case.source, old_rows).map(|checked| (checked.rows, checked.tests))),
        b'w' => write_bytes(out, files::write(case.source, rows).as_deref().map_err(|r| *r), case.room),
        b'o' => write_bytes(out, files::write(case.source, old_rows).as_deref().map_err(|r| *r), case.room),
        b'c' => write_rows(out, &found(whole(case.source), tokens), case.room),
        b'b' => write_rows(out, &found(whole(case.source), expression), case.room),
        _ => write_rows(out, &found(whole(case.source), tree), case.room),
    }));
    if done.is_err() {
        out.clear();
        write_refusal(out, Refusal::new(FAILED, 0, length));
    }
    // SAFETY: the trees of this case are gone.
    unsafe { symbol_table::forget_names() };
}

fn found<const N: usize>(
    source: Result<&str, Refusal>,
    read: fn(&str) -> Result<Vec<[u64; N]>, Refusal>,
) -> Found<N> {
    match source.and_then(read) {
        Ok(rows) => Found::Rows(rows),
        Err(refusal) => Found::Refused(refusal),
    }
}

/// (c): source to a token list.
fn tokens(source: &str) -> Result<Vec<[u64; 3]>, Refusal> {
    let mut lexer = Lexer::new(0, source);
    let mut list = Vec::new();
    while let Some((token, span)) = lexer.next() {
        match token {
            Ok(Token::FStringStart) if !crate::LISTS_F_STRINGS => {
                return Err(Refusal::new(5, span.start, span.end));
            }
            Ok(token) => list.push([code(&token), span.start as u64, span.end as u64]),
            Err(()) => return Err(Refusal::new(4, span.start, span.end)),
        }
    }
    Ok(list)
}

/// (b): source to one expression.
fn expression(source: &str) -> Result<Vec<Row>, Refusal> {
    let (expr, spans) = parsed(source)?;
    Ok(rows::expression(&spans, &expr))
}

/// (a): source to tree.
pub fn tree(source: &str) -> Result<Vec<Row>, Refusal> {
    let mut spans = Spans::default();
    let (tree, _) = Parser::parse(0, &mut spans, source).map_err(|e| refusal(source, &e))?;
    Ok(rows::tree(&spans, source, &tree))
}

/// The same by the old grammar, in which `test` is a declaration (C-22).
pub fn old_tree(source: &str) -> Result<Vec<Row>, Refusal> {
    let mut spans = Spans::default();
    let (tree, _) = crate::parse_old(&mut spans, source).map_err(|e| refusal(source, &e))?;
    Ok(rows::tree(&spans, source, &tree))
}

/// (e): a string token decoded to bytes. The token may be the last of a source only with a byte after it.
fn decoded(whole: WholeSource, token: &[u8]) -> Result<Vec<u8>, Refusal> {
    let refused = Refusal::new(7, 0, token.len());
    whole(token).map_err(|_| refused)?;
    let source = String::from_utf8([token, b" "].concat()).map_err(|_| refused)?;
    let mut lexer = Lexer::new(0, &source);
    let first = lexer.next();
    if !matches!(first, Some((Ok(Token::String(_)), span)) if span == (0..token.len())) {
        return Err(refused);
    }
    match parsed(&source).map_err(|_| refused)?.0.node {
        Expr::Literal(Meta { node: Literal::String(text), .. }) => Ok(text.into_bytes()),
        _ => Err(refused),
    }
}

/// C-17: the width and bits of one float literal. Whether it is one is the lexer's and the parser's word. Document 02's digit rules and the
/// suffix's own width are `crate::NARROWS`; the commit has an f64 whatever the suffix.
fn float(whole: WholeSource, literal: &[u8]) -> Result<(u64, u64), Refusal> {
    const MOST: usize = 19;
    let refused = Refusal::new(7, 0, literal.len());
    let source = whole(literal).map_err(|_| refused)?;
    let text = match Lexer::new(0, source).next() {
        Some((Ok(Token::Integer(text, _) | Token::Float(text, _)), span)) if span == (0..literal.len()) => text,
        _ => return Err(refused),
    };
    let Expr::Literal(Meta { node: Literal::Float(value, suffix), .. }) = parsed(source).map_err(|_| refused)?.0.node
    else {
        return Err(refused);
    };
    let decimal = text.replace('_', "");
    let (before, after) = decimal.split_once('.').unwrap_or((&decimal, ""));
    let digits = format!("{before}{after}");
    if crate::NARROWS && (digits.trim_start_matches('0').len() > MOST || after.len() > MOST) {
        return Err(Refusal::new(14, 0, literal.len()));
    }
    match suffix {
        Some(FloatType::F32) if crate::NARROWS => Ok((32, decimal.parse::<f32>().map_err(|_| refused)?.to_bits().into())),
        _ => Ok((64, value.to_bits())),
    }
}

/// C-18: a constant's value, after "document 01's" refusals "for the source", 10 for its rows among them.
fn constant(whole: WholeSource, case: &Case<'_>) -> Result<Constant, NotThere> {
    let source = whole(case.source)?;
    let rows = tree(source)?;
    if rows.len() as u64 > case.rows {
        return Err(NotThere::NoRoom(rows.len() as u64));
    }
    let float_of = |text: &str| float(whole, text.as_bytes());
    constants::constant(&rows, source, case.room, case.list, &float_of)
}

fn parsed(source: &str) -> Result<(Meta<Expr>, Spans), Refusal> {
    let mut spans = Spans::default();
    let read = Parser::run_parser(|p| p.expr(), 0, &mut spans, source);
    let (expr, _) = read.map_err(|e| refusal(source, &e))?;
    Ok((expr, spans))
}

fn refusal(source: &str, error: &ParseError) -> Refusal {
    let (start, end) = (error.location.start, error.location.end);
    // What is left over may be no token at all, and then that is said first.
    let left = source.get(start..).and_then(|tail| Lexer::new(0, tail).next());
    let number = match (error.number(), left) {
        (6, Some((Err(()), _))) => 4,
        (number, _) => number,
    };
    Refusal::new(number, start, end)
}

/// The number of the rule that fits: document 01's codes 1 to 13, 90 for the commit's `f"`.
fn code(token: &Token<'_>) -> u64 {
    match token {
        Token::IpV6(_) => 1,
        Token::IpV4(_) => 2,
        Token::EqEq
        | Token::FatArrow
        | Token::BangEq
        | Token::AngleLeftEq
        | Token::AngleRightEq
        | Token::AmpAmp
        | Token::PipePipe
        | Token::Arrow
        | Token::PlusEq
        | Token::MinusEq
        | Token::StarEq
        | Token::SlashEq
        | Token::PercentEq
        | Token::StarStar
        | Token::SlashStar
        | Token::HyphenHyphen => 3,
        Token::Asn(_) => 5,
        Token::Hex(_) => 6,
        Token::Integer(..) => 7,
        Token::Float(..) => 8,
        Token::String(_) => 9,
        Token::Char(_) => 10,
        Token::Keyword(_) => 11,
        Token::Bool(_) => 12,
        Token::Ident(_) => 13,
        Token::FStringStart => 90,
        _ => 4,
    }
}
