//! Literal values and decoded strings against Rust's own parsers: exhaustive over short texts, then random and damaged ones.
use std::net::{Ipv4Addr, Ipv6Addr};

use lekhyundo::sys;

type Row = Option<(u64, u64, u64)>;

fn ours(s: &[u8], code: u64, start: usize, end: usize) -> Row {
    let mut out = [9u64; 4];
    unsafe { sys::lekhyundo_literal(s.as_ptr(), s.len(), code, start, end, out.as_mut_ptr(), 4) };
    match out[0] {
        0 => Some((out[1], out[2], out[3])),
        7 => None,
        _ => panic!("number {}", out[0]),
    }
}

/// Whether a text is one token of the code.
fn one_token(s: &[u8], code: u64) -> bool {
    let mut out = [9u64; 5];
    unsafe { sys::lekhyundo_step(s.as_ptr(), s.len(), 0, out.as_mut_ptr(), 5) };
    out[..4] == [0, 0, s.len() as u64, code]
}

const SUFFIXES: [&str; 11] = ["", "i8", "i16", "i32", "i64", "u8", "u16", "u32", "u64", "f32", "f64"];

/// The greatest values of the types that a suffix of an integer names.
const EDGES: [u64; 8] = [
    i8::MAX as u64,
    i16::MAX as u64,
    i32::MAX as u64,
    i64::MAX as u64,
    u8::MAX as u64,
    u16::MAX as u64,
    u32::MAX as u64,
    u64::MAX,
];

fn figures(t: &str) -> usize {
    t.find(|c: char| !c.is_ascii_digit() && c != '_').unwrap_or(t.len())
}

fn suffix(t: &str) -> Option<u64> {
    SUFFIXES.iter().position(|s| *s == t).map(|i| i as u64)
}

fn digits(t: &str, radix: u32) -> Option<&str> {
    (!t.is_empty() && t.chars().all(|c| c.is_digit(radix))).then_some(t)
}

/// By the parser of the type that a suffix names, and by that of i64 without one.
fn whole(digits: &str, suffix: &str) -> Option<u64> {
    match suffix {
        "i8" => digits.parse::<i8>().ok().map(|v| v as u64),
        "i16" => digits.parse::<i16>().ok().map(|v| v as u64),
        "i32" => digits.parse::<i32>().ok().map(|v| v as u64),
        "u8" => digits.parse::<u8>().ok().map(u64::from),
        "u16" => digits.parse::<u16>().ok().map(u64::from),
        "u32" => digits.parse::<u32>().ok().map(u64::from),
        "u64" => digits.parse::<u64>().ok(),
        _ => digits.parse::<i64>().ok().map(|v| v as u64),
    }
}

fn integer(t: &str) -> Row {
    if !t.starts_with(|c: char| c.is_ascii_digit()) {
        return None;
    }
    let e = figures(t);
    match suffix(&t[e..])? {
        k @ (9 | 10) => Some((11, 0, k)),
        k => whole(&t[..e].replace('_', ""), &t[e..]).map(|v| (10, v, k)),
    }
}

/// A digit first and one behind the point, as the token has them.
fn float(t: &str) -> Row {
    let digit = |c: char| c.is_ascii_digit();
    let dot = figures(t);
    let rest = t[dot..].strip_prefix('.')?;
    if !t.starts_with(digit) || !rest.starts_with(digit) {
        return None;
    }
    match suffix(&rest[figures(rest)..])? {
        k @ (0 | 9 | 10) => Some((11, 0, k)),
        _ => None,
    }
}

/// The code points between quotes, by the Rust Reference; no line continuation.
fn points(inside: &str, quote: char) -> Option<Vec<char>> {
    let mut out = Vec::new();
    let mut rest = inside.chars();
    while let Some(c) = rest.next() {
        if c != '\\' {
            let bad = c == quote || c == '\r' || !c.is_ascii() || quote == '\'' && (c == '\n' || c == '\t');
            if bad {
                return None;
            }
            out.push(c);
            continue;
        }
        out.push(match rest.next()? {
            'n' => '\n',
            'r' => '\r',
            't' => '\t',
            '\\' => '\\',
            '0' => '\0',
            '\'' => '\'',
            '"' => '"',
            'x' => {
                let two: String = rest.by_ref().take(2).collect();
                if two.len() != 2 {
                    return None;
                }
                let v = u8::from_str_radix(digits(&two, 16)?, 16).ok()?;
                v.is_ascii().then_some(v as char)?
            }
            'u' => {
                let body = rest.as_str().strip_prefix('{')?;
                let end = body.find('}')?;
                let hex = &body[..end];
                if hex.starts_with('_') {
                    return None;
                }
                let plain = hex.replace('_', "");
                if plain.len() > 6 {
                    return None;
                }
                let v = u32::from_str_radix(digits(&plain, 16)?, 16).ok()?;
                rest = body[end + 1..].chars();
                char::from_u32(v)?
            }
            _ => return None,
        });
    }
    Some(out)
}

fn quoted(t: &str, quote: char) -> Option<Vec<char>> {
    points(t.strip_prefix(quote)?.strip_suffix(quote)?, quote)
}

fn expected(t: &[u8], code: u64) -> Row {
    let t = std::str::from_utf8(t).ok()?;
    match code {
        1 => t.parse::<Ipv6Addr>().ok().map(|a| (15, (u128::from(a) >> 64) as u64, u128::from(a) as u64)),
        2 => t.parse::<Ipv4Addr>().ok().map(|a| (14, u32::from(a) as u64, 0)),
        5 => digits(t.strip_prefix("AS")?, 10)?.parse::<u32>().ok().map(|v| (13, v as u64, 0)),
        6 => i64::from_str_radix(digits(t.strip_prefix("0x")?, 16)?, 16).ok().map(|v| (10, v as u64, 0)),
        7 => integer(t),
        8 => float(t),
        9 => quoted(t, '"').map(|_| (16, 0, 0)),
        10 => quoted(t, '\'').filter(|p| p.len() == 1).map(|p| (17, p[0] as u64, 0)),
        12 => t.parse::<bool>().ok().map(|b| (12, b as u64, 0)),
        _ => None,
    }
}

#[derive(Default)]
struct Tally {
    texts: u64,
    tokens: u64,
    values: u64,
    differences: u64,
}

impl Tally {
    fn note(&mut self, what: &str, text: &[u8], same: bool, holds: bool) {
        self.texts += 1;
        self.values += holds as u64;
        if !same {
            self.differences += 1;
            if self.differences < 10 {
                println!("DIFFERENT {what} {:?}", String::from_utf8_lossy(text));
            }
        }
    }

    fn literal(&mut self, text: &[u8], code: u64) {
        let want = expected(text, code);
        let got = ours(text, code, 0, text.len());
        self.note(&format!("{code} {got:?} not {want:?}"), text, got == want, want.is_some());
        if code == 1 {
            self.address_token(text, want.is_some());
        }
    }

    /// A text that holds an address is one token.
    fn address_token(&mut self, text: &[u8], holds: bool) {
        let token = one_token(text, 1);
        self.tokens += u64::from(token);
        if holds && !token {
            self.differences += 1;
            println!("NO TOKEN {:?}", String::from_utf8_lossy(text));
        }
    }

    /// A text inside a larger source, and ends that need not fit.
    fn part(&mut self, source: &[u8], code: u64, start: usize, end: usize) {
        let want = source.get(start..end).and_then(|text| expected(text, code));
        let got = ours(source, code, start, end);
        self.note(&format!("{code} {start} {end} {got:?} not {want:?}"), source, got == want, want.is_some());
    }

    fn decode(&mut self, text: &[u8], room: usize) {
        let n = text.len() as u64;
        let held = if text.len() <= 65535 { std::str::from_utf8(text).ok().and_then(|t| quoted(t, '"')) } else { None };
        let mut bytes = vec![0u8; room];
        let answer = match &held {
            None => [7, 0, n, 0],
            Some(points) => {
                let all: String = points.iter().collect();
                if room < all.len() {
                    [10, 0, 0, all.len() as u64]
                } else {
                    bytes[..all.len()].copy_from_slice(all.as_bytes());
                    [0, 0, n, all.len() as u64]
                }
            }
        };
        let mut out = vec![0xaau8; room];
        let mut got = [99u64; 4];
        unsafe { sys::lekhyundo_decode(text.as_ptr(), text.len(), out.as_mut_ptr(), room, got.as_mut_ptr(), 4) };
        let same = got == answer && out == bytes;
        self.note(&format!("decode {room} {got:?} not {answer:?}"), text, same, held.is_some());
    }
}

/// Every text over an alphabet up to a length, between a front and a back.
fn every(alphabet: &[u8], most: usize, front: &[u8], back: &[u8], mut each: impl FnMut(&[u8])) {
    for length in 0..=most {
        let mut at = vec![0usize; length];
        'texts: loop {
            let mut text = front.to_vec();
            text.extend(at.iter().map(|i| alphabet[*i]));
            text.extend(back);
            each(&text);
            let mut k = length;
            loop {
                if k == 0 {
                    break 'texts;
                }
                k -= 1;
                at[k] += 1;
                if at[k] < alphabet.len() {
                    break;
                }
                at[k] = 0;
            }
        }
    }
}

struct Random(u64);

impl Random {
    fn next(&mut self) -> u64 {
        self.0 ^= self.0 << 13;
        self.0 ^= self.0 >> 7;
        self.0 ^= self.0 << 17;
        self.0
    }
    fn below(&mut self, n: usize) -> usize {
        (self.next() >> 11) as usize % n
    }
    fn pick<'a>(&mut self, of: &[&'a str]) -> &'a str {
        of[self.below(of.len())]
    }
    fn run(&mut self, of: &str, most: usize) -> String {
        let n = self.below(most + 1);
        (0..n).map(|_| of.as_bytes()[self.below(of.len())] as char).collect()
    }
    /// A text near one that holds.
    fn text(&mut self, code: u64) -> String {
        match code {
            1 => {
                let n = self.below(10);
                let mut groups: Vec<String> = (0..n).map(|_| self.run("0123456789abcdefABCDEF", 4)).collect();
                if self.below(3) > 0 {
                    let k = self.below(groups.len() + 1);
                    groups.insert(k, String::new());
                }
                let edge = self.pick(&["", "", ":", "::"]);
                let back = self.pick(&["", "", "", ":"]);
                let quad = if self.below(2) == 0 { self.text(2) } else { String::new() };
                let colon = if quad.is_empty() || groups.is_empty() { "" } else { self.pick(&[":", ":", ":", "::", ""]) };
                format!("{edge}{}{back}{colon}{quad}", groups.join(":"))
            }
            2 => {
                let n = 3 + self.below(3);
                let parts: Vec<String> = (0..n)
                    .map(|_| match self.below(4) {
                        0 => self.run("0123456789", 4),
                        1 => format!("{}", self.below(300)),
                        _ => format!("{}", self.below(256)),
                    })
                    .collect();
                parts.join(".")
            }
            5 => format!("AS{}", self.number(u32::MAX as u64)),
            6 => format!("0x{:x}", self.near(i64::MAX as u64)),
            7 => {
                let edge = EDGES[self.below(EDGES.len())];
                let mut v = self.number(edge);
                if self.below(2) == 0 {
                    let k = self.below(v.len()) + 1;
                    v.insert(k, '_');
                }
                format!("{v}{}", self.pick(&SUFFIXES))
            }
            8 => format!("{}.{}{}", self.run("0123456789_", 5), self.run("0123456789_", 5), self.pick(&SUFFIXES)),
            12 => self.pick(&["true", "false"]).to_string(),
            _ => {
                let n = if code == 10 { 1 + self.below(2) } else { self.below(6) };
                let inside: String = (0..n).map(|_| self.piece()).collect();
                let quote = if code == 10 { '\'' } else { '"' };
                format!("{quote}{inside}{quote}")
            }
        }
    }
    fn near(&mut self, limit: u64) -> u64 {
        match self.below(3) {
            0 => limit.wrapping_add(self.below(5) as u64).wrapping_sub(2),
            1 => self.next() >> self.below(64),
            _ => self.next() % limit,
        }
    }
    fn number(&mut self, limit: u64) -> String {
        let v = self.near(limit);
        match self.below(8) {
            0 => format!("{v}{}", self.run("0123456789", 9)),
            1 => format!("{}{v}", self.run("0", 30)),
            _ => format!("{v}"),
        }
    }
    fn piece(&mut self) -> String {
        match self.below(6) {
            0 => self.pick(&["\\n", "\\r", "\\t", "\\\\", "\\0", "\\'", "\\\"", "\\a", "\\U", "\\\n"]).to_string(),
            1 => format!("\\x{:02x}", self.below(300)),
            2 => format!("\\u{{{:x}}}", [0xd7ff, 0xd800, 0xdfff, 0xe000, 0x10ffff, 0x110000, 0x7f, 0x80, 0x7ff, 0x800, 0xffff, 0x10000][self.below(12)]),
            3 => format!("\\u{{{}}}", self.run("0123456789aAbBcCdDeEfF_", 9)),
            4 => self.pick(&["\r", "\n", "\t", "'", "\"", "{", "}", "\u{80}", "\u{7f}", "\u{1}"]).to_string(),
            _ => self.run("abcxyz 019_", 3),
        }
    }
    /// A byte changed, lost, doubled, put in, or two swapped.
    fn damage(&mut self, text: &mut Vec<u8>) {
        const BYTES: &[u8] = b"0123456789abcdefgxuiABCDEFS.:_\\\"'{}\r\n\t \x7f\x80\xff";
        let b = BYTES[self.below(BYTES.len())];
        let n = text.len();
        if n == 0 {
            text.push(b);
            return;
        }
        let i = self.below(n);
        match self.below(5) {
            0 => text[i] = b,
            1 => drop(text.remove(i)),
            2 => text.insert(i, text[i]),
            3 => text.insert(i, b),
            _ => text.swap(i, (i + 1) % n),
        }
    }
}

fn kind(code: u64) -> &'static str {
    match code {
        1 => "IPv6",
        2 => "IPv4",
        5 => "AS number",
        6 => "hex",
        7 => "integer",
        8 => "float",
        9 => "string",
        10 => "char",
        12 => "bool",
        _ => "decode",
    }
}

fn exhaustive(code: u64, tally: &mut Tally) {
    let over: &[(&[u8], usize, &[u8], &[u8])] = match code {
        1 => &[
            (b":01fg", 9, b"", b""),
            (b":1", 19, b"", b""),
            (b":1F", 8, b"1:2:3:4:", b""),
            (b":1F", 8, b"", b":5:6:7"),
            (b"10a:.25", 9, b"", b""),
            (b":1", 16, b"", b"1.2.3.4"),
            (b"01a.:", 9, b"::", b""),
            (b"126.", 9, b"1:2:3:4:5:6:", b""),
        ],
        2 => &[(b"0126.", 9, b"", b""), (b"01.", 13, b"", b""), (b"0123456789.", 4, b"1.2.", b"3")],
        5 => &[(b"AS0189_", 7, b"", b""), (b"0123456789", 4, b"AS429496", b"")],
        6 => &[(b"0x18fFg_", 6, b"", b""), (b"0178fF", 3, b"0x7ffffffffffffff", b""), (b"0178fF", 3, b"0x", b"ffffffffffffff")],
        7 => &[(b"019_iuf8163246e.", 5, b"", b""), (b"0123456789", 5, b"922337203685477", b""), (b"iuf1234689_", 4, b"7", b"")],
        8 => &[(b"019_iuf3264.e", 5, b"", b""), (b"uif123468_", 4, b"1.5", b"")],
        9 => &[(b"\"\\nxu{}_07dD8a\r\n'\x80", 5, b"\"", b"\""), (b"\\u{}_0d8f", 7, b"\"", b"\""), (b"0123456789abcdefABCDEF_}", 4, b"\"\\u{", b"}\"")],
        10 => &[(b"\"\\nxu{}_07dD8a\r\n'\t\x80", 5, b"'", b"'"), (b"\\u{}_0d8f", 7, b"'", b"'"), (b"0123456789abcdefABCDEF_}", 4, b"'\\u{", b"}'")],
        12 => &[(b"truefals", 6, b"", b"")],
        _ => &[(b"\"\\nxu{}_07dD8a\r'\x80", 5, b"\"", b"\""), (b"\"\\a", 9, b"", b"")],
    };
    for (alphabet, most, front, back) in over {
        every(alphabet, *most, front, back, |text| {
            if code == 0 {
                tally.decode(text, text.len() / 2);
            } else {
                tally.literal(text, code);
            }
        });
    }
}

/// Each suffix behind every short text of digits and underscores, and behind every text that ends so and begins as an edge does.
fn edges(tally: &mut Tally) {
    const FIGURES: &[u8] = b"0123456789_";
    const SHORT: usize = 6;
    const CHANGED: usize = 5;
    for suffix in SUFFIXES {
        every(FIGURES, SHORT, b"", suffix.as_bytes(), |text| tally.literal(text, 7));
        for edge in EDGES.map(|v| v.to_string()).iter().filter(|edge| edge.len() > CHANGED) {
            let kept = edge.len() + 1 - CHANGED;
            every(FIGURES, CHANGED, edge[..kept].as_bytes(), suffix.as_bytes(), |text| tally.literal(text, 7));
        }
    }
}

fn random(code: u64, texts: usize, tally: &mut Tally) {
    let mut random = Random(0x9e37_79b9_7f4a_7c15 ^ code.wrapping_mul(0x1234_5678_9abc_def1));
    for round in 0..texts {
        let mut text = random.text(if code == 0 { 9 } else { code }).into_bytes();
        for _ in 0..random.below(4).saturating_sub(1) {
            random.damage(&mut text);
        }
        if code == 0 {
            let room = random.below(text.len() + 4);
            tally.decode(&text, room);
        } else if round % 4 == 0 {
            let start = random.below(6);
            let mut source = vec![b':'; start];
            source.extend(&text);
            source.extend(vec![b'0'; random.below(3)]);
            let end = start + text.len();
            tally.part(&source, code, start, end);
            tally.part(&source, code, random.below(9), random.below(source.len() + 3));
        } else {
            tally.literal(&text, code);
        }
    }
}

fn long(tally: &mut Tally) {
    let nines = "9".repeat(60000);
    let zeros = "0".repeat(60000);
    for suffix in SUFFIXES {
        tally.literal(format!("{nines}{suffix}").as_bytes(), 7);
        for edge in EDGES {
            tally.literal(format!("{zeros}{edge}{suffix}").as_bytes(), 7);
            tally.literal(format!("{zeros}{}{suffix}", edge as u128 + 1).as_bytes(), 7);
        }
    }
    for (code, text) in [
        (7, zeros.clone()),
        (7, format!("1{}", "_".repeat(65000))),
        (5, format!("AS{zeros}1")),
        (5, format!("AS{nines}")),
        (6, format!("0x{zeros}ff")),
        (6, format!("0x{nines}")),
        (2, format!("{zeros}.1.1.1")),
        (1, format!("::{zeros}")),
        (1, ":".repeat(60000)),
        (1, "1:".repeat(30000)),
        (1, format!("::{}1.2.3.4", "1:".repeat(30000))),
        (1, format!("::{zeros}.1.1.1")),
        (1, format!("::1.1.1.{zeros}")),
        (1, format!("::{}", "1.".repeat(30000))),
        (9, format!("\"{}\"", "\\u{1_0_F_f_f_f}".repeat(4000))),
        (9, format!("\"{}\"", "a".repeat(65533))),
        (9, format!("\"{}", "\\u{1".repeat(16000))),
        (10, format!("'\\u{{1{}}}'", "_".repeat(60000))),
        (10, format!("'\\u{{{zeros}1}}'")),
    ] {
        tally.literal(text.as_bytes(), code);
        tally.decode(text.as_bytes(), text.len());
    }
    for n in [65533, 65534] {
        let text = format!("\"{}\"", "a".repeat(n));
        tally.decode(text.as_bytes(), n);
        tally.decode(text.as_bytes(), n - 1);
    }
}

fn main() {
    let texts = std::env::args().nth(1).map_or(1_000_000, |n| n.parse().expect("how many random texts a kind"));
    let mut bad = 0;
    for code in [1, 2, 5, 6, 7, 8, 9, 10, 12, 0] {
        let mut tally = Tally::default();
        exhaustive(code, &mut tally);
        if code == 7 {
            edges(&mut tally);
        }
        let short = (tally.texts, tally.values);
        random(code, texts, &mut tally);
        println!(
            "{}: {} short texts ({} hold), {} random ({} hold), {} differences",
            kind(code),
            short.0,
            short.1,
            tally.texts - short.0,
            tally.values - short.1,
            tally.differences
        );
        if code == 1 {
            println!("IPv6: {} of them are one token", tally.tokens);
        }
        bad += tally.differences;
    }
    let mut tally = Tally::default();
    long(&mut tally);
    println!("long: {} texts ({} hold), {} differences", tally.texts, tally.values, tally.differences);
    bad += tally.differences;
    println!("{bad} differences");
    if bad > 0 {
        std::process::exit(1);
    }
}
