//! The one protocol that the oracle, the full commit and our own code speak.
//!
//! Cases follow one another on standard input: a line `ENTRY LENGTH` or `ENTRY LENGTH ROOM`, then LENGTH bytes at
//! once, then the next line. ENTRY is `a`, `b`, `c`, `e`, `f`, `k`, `n`, `o`, `p`, `s`, `t` or `w`; ROOM counts rows, tokens or bytes, enough if left out, is
//! the position for `n`, and for `k` it is the constant's number, behind which the rooms of its list and of the rows may stand;
//! for `s` the room for ranges may stand behind that for rows.
//! Each answer ends in an empty line. See ../README.md.

use std::{
    fmt::Write as _,
    io::{self, BufRead, Read, Write},
};

/// The numbers of a row.
pub const WIDTH: usize = 7;

/// Kind, start, end, children, value, detail, and how many rows the subtree has (C-14).
pub type Row = [u64; WIDTH];

#[derive(Clone, Copy, Debug, PartialEq, Eq)]
pub struct Refusal {
    pub number: u64,
    pub start: u64,
    pub end: u64,
}

impl Refusal {
    pub fn new(number: u64, start: usize, end: usize) -> Self {
        Refusal { number, start: start as u64, end: end as u64 }
    }
}

/// What an entry point found, room set aside: lines of numbers for (a), (b) and (c), bytes for (e).
pub enum Found<const N: usize> {
    Rows(Vec<[u64; N]>),
    Refused(Refusal),
}

pub struct Case<'a> {
    pub entry: u8,
    pub source: &'a [u8],
    /// For `n` the position, for `k` the constant's number.
    pub room: u64,
    /// For `k` the room for instructions and for rows.
    pub list: u64,
    pub rows: u64,
}

/// "A finished constant holds either a whole number, a float or a truth value" (C-18).
#[derive(Clone, Copy, Debug)]
pub enum Constant {
    Integer(i128),
    Float(f64),
    Bool(bool),
}

/// Of an accepted source: its print (C-20), and how many of its rows are tests.
pub struct Printed {
    pub text: String,
    pub tests: u64,
}

/// Why there is none: a refusal, or 10 with the rows or instructions needed.
#[derive(Clone, Copy, Debug)]
pub enum NotThere {
    Refused(Refusal),
    NoRoom(u64),
}

impl From<Refusal> for NotThere {
    fn from(refusal: Refusal) -> Self {
        NotThere::Refused(refusal)
    }
}

/// "List each dropped range with its refusal" (C-23).
#[derive(Clone, Copy, Debug, PartialEq, Eq)]
pub struct Range {
    pub start: u64,
    pub end: u64,
    pub refusal: Refusal,
}

pub struct Salvaged {
    pub rows: Vec<Row>,
    pub ranges: Vec<Range>,
}

/// `accepted COUNT` and a line for each row, or `refused ..`; 10 exactly when nothing else refuses and the count
/// exceeds the room.
pub fn write_rows<const N: usize>(out: &mut String, found: &Found<N>, room: u64) {
    match found {
        Found::Refused(r) => write_refusal(out, *r),
        Found::Rows(rows) if rows.len() as u64 > room => write_no_room(out, rows.len() as u64),
        Found::Rows(rows) => {
            writeln!(out, "accepted {}", rows.len()).unwrap();
            for row in rows {
                write_row(out, row);
            }
        }
    }
}

pub fn write_row(out: &mut String, row: &[u64]) {
    for (i, number) in row.iter().enumerate() {
        if i > 0 {
            out.push(' ');
        }
        write!(out, "{number}").unwrap();
    }
    out.push('\n');
}

/// `accepted COUNT` and, unless COUNT is 0, one line of lower-case hex.
pub fn write_bytes(out: &mut String, found: Result<&[u8], Refusal>, room: u64) {
    match found {
        Err(r) => write_refusal(out, r),
        Ok(bytes) if bytes.len() as u64 > room => write_no_room(out, bytes.len() as u64),
        Ok(bytes) => {
            writeln!(out, "accepted {}", bytes.len()).unwrap();
            write_hex(out, bytes);
        }
    }
}

/// `accepted COUNT TESTS` and, unless COUNT is 0, one line of lower-case hex.
pub fn write_printed(out: &mut String, found: Result<Printed, Refusal>, room: u64) {
    match found {
        Err(r) => write_refusal(out, r),
        Ok(Printed { text, .. }) if text.len() as u64 > room => write_no_room(out, text.len() as u64),
        Ok(Printed { text, tests }) => {
            writeln!(out, "accepted {} {tests}", text.len()).unwrap();
            write_hex(out, text.as_bytes());
        }
    }
}

fn write_hex(out: &mut String, bytes: &[u8]) {
    for byte in bytes {
        write!(out, "{byte:02x}").unwrap();
    }
    if !bytes.is_empty() {
        out.push('\n');
    }
}

/// `accepted ROWS RANGES`, a line `range START END NUMBER START END` for each range, and the rows. "10 covers rows and ranges, rows counted
/// first."
pub fn write_salvaged(out: &mut String, found: Result<Salvaged, Refusal>, room: u64, range_room: u64) {
    match found {
        Err(r) => write_refusal(out, r),
        Ok(Salvaged { rows, .. }) if rows.len() as u64 > room => write_no_room(out, rows.len() as u64),
        Ok(Salvaged { ranges, .. }) if ranges.len() as u64 > range_room => write_no_room(out, ranges.len() as u64),
        Ok(Salvaged { rows, ranges }) => {
            writeln!(out, "accepted {} {}", rows.len(), ranges.len()).unwrap();
            for Range { start, end, refusal: r } in ranges {
                writeln!(out, "range {start} {end} {} {} {}", r.number, r.start, r.end).unwrap();
            }
            for row in rows {
                write_row(out, &row);
            }
        }
    }
}

/// `accepted WIDTH BITS` or `accepted ROWS TESTS`.
pub fn write_pair(out: &mut String, found: Result<(u64, u64), Refusal>) {
    match found {
        Err(r) => write_refusal(out, r),
        Ok((first, second)) => writeln!(out, "accepted {first} {second}").unwrap(),
    }
}

/// `accepted integer N`, `accepted float BITS`, or `nan` for a NaN, `accepted bool 0|1`.
pub fn write_constant(out: &mut String, found: Result<Constant, NotThere>) {
    match found {
        Err(NotThere::Refused(r)) => write_refusal(out, r),
        Err(NotThere::NoRoom(count)) => write_no_room(out, count),
        Ok(Constant::Integer(n)) => writeln!(out, "accepted integer {n}").unwrap(),
        Ok(Constant::Float(x)) if x.is_nan() => out.push_str("accepted float nan\n"),
        Ok(Constant::Float(x)) => writeln!(out, "accepted float {}", x.to_bits()).unwrap(),
        Ok(Constant::Bool(b)) => writeln!(out, "accepted bool {}", u8::from(b)).unwrap(),
    }
}

pub fn write_refusal(out: &mut String, r: Refusal) {
    writeln!(out, "refused {} {} {}", r.number, r.start, r.end).unwrap();
}

pub fn write_no_room(out: &mut String, count: u64) {
    writeln!(out, "refused 10 0 0 {count}").unwrap();
}

/// Reads cases to the end of standard input and writes the answer to each. What is waiting is sent on before more
/// input is waited for.
pub fn serve(mut answer: impl FnMut(&Case<'_>, &mut String)) -> io::Result<()> {
    let mut input = io::BufReader::with_capacity(1 << 20, io::stdin().lock());
    let mut output = io::BufWriter::with_capacity(1 << 20, io::stdout().lock());
    let (mut header, mut source, mut text) = (Vec::new(), Vec::new(), String::new());
    loop {
        if input.buffer().is_empty() {
            output.flush()?;
        }
        header.clear();
        if input.read_until(b'\n', &mut header)? == 0 {
            return output.flush();
        }
        let (entry, length, [room, list, rows]) = parse_header(&header)
            .ok_or_else(|| io::Error::other(format!("not a case: {}", String::from_utf8_lossy(&header))))?;
        source.clear();
        if (&mut input).take(length).read_to_end(&mut source)? as u64 != length {
            return Err(io::Error::other("the last case is cut short"));
        }
        text.clear();
        answer(&Case { entry, source: &source, room, list, rows }, &mut text);
        text.push('\n');
        output.write_all(text.as_bytes())?;
    }
}

/// `REPEATS FILE ..`: for each file its length, the count that a function gives for it, and the shortest of so many
/// times that another took to read it, in nanoseconds.
pub fn time(
    arguments: &[String],
    mut count: impl FnMut(&[u8]) -> u64,
    mut read: impl FnMut(&[u8]),
) -> io::Result<()> {
    let repeats: u32 = arguments.first().and_then(|text| text.parse().ok()).unwrap_or(1);
    for file in arguments.iter().skip(1) {
        let source = std::fs::read(file)?;
        let counted = count(&source);
        let mut best = std::time::Duration::MAX;
        for _ in 0..repeats.max(1) {
            let begun = std::time::Instant::now();
            read(std::hint::black_box(&source));
            best = best.min(begun.elapsed());
        }
        println!("{} {counted} {}", source.len(), best.as_nanos());
    }
    Ok(())
}

fn parse_header(line: &[u8]) -> Option<(u8, u64, [u64; 3])> {
    let line = std::str::from_utf8(line.strip_suffix(b"\n")?).ok()?;
    let mut parts = line.split(' ');
    let entry = match parts.next()? {
        "a" => b'a',
        "b" => b'b',
        "c" => b'c',
        "e" => b'e',
        "f" => b'f',
        "k" => b'k',
        "n" => b'n',
        "o" => b'o',
        "p" => b'p',
        "s" => b's',
        "t" => b't',
        "w" => b'w',
        _ => return None,
    };
    let length = parts.next()?.parse().ok()?;
    let most = match entry {
        b'k' => 3,
        b's' => 2,
        _ => 1,
    };
    let mut numbers = [u64::MAX; 3];
    for number in &mut numbers[..most] {
        *number = parts.next().map_or(Some(u64::MAX), |text| text.parse().ok())?;
    }
    parts.next().is_none().then_some((entry, length, numbers))
}
