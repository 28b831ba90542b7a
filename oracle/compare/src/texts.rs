//! Texts for the lexer: tokens of each rule, texts that nearly are, blanks and comments, damage.

use crate::random::Random;

const DIGITS: &[u8] = b"0123456789";
const DIGITS_: &[u8] = b"0123456789_";
const HEX: &[u8] = b"0123456789abcdefABCDEF";
const HEX_COLON: &[u8] = b"0123456789abcdef:::";
const LETTERS: &[u8] = b"abcdefASfxrtuiXYZ_g";
const WORD: &[u8] = b"abcxAS019_f";
const BLANKS: &[u8] = b" \t\n\r\x0b\x0c";
const ANY_TEXT: &[u8] = b"ab \\\\\"'/{}n0x\n\r";

pub const SIGNS: [&str; 33] = [
    "==", "=>", "!=", "<=", ">=", "&&", "||", "->", "+=", "-=", "*=", "/=", "%=", "{", "}", "(", ")", "[",
    "]", ":", ";", ",", ".", "=", "?", "!", "-", "+", "*", "/", "%", "<", ">",
];

pub const WORDS: [&str; 24] = [
    "accept",
    "const",
    "dep",
    "else",
    "enum",
    "filter",
    "filtermap",
    "for",
    "fn",
    "if",
    "import",
    "in",
    "let",
    "match",
    "pkg",
    "record",
    "reject",
    "return",
    "std",
    "super",
    "test",
    "while",
    "true",
    "false",
];

/// Texts that stop short of a rule, or that a neighbouring rule takes.
pub const NEAR: [&str; 68] = [
    "&",
    "|",
    "#",
    "$",
    "@",
    "~",
    "`",
    "^",
    "\\",
    "**",
    "--",
    "/*",
    "*/",
    "..",
    ":::",
    "::",
    "a:",
    ":a",
    "1:",
    ":1",
    "a::b",
    "1.",
    "1..2",
    "1._",
    "1.a",
    "1.2",
    "1.2.",
    "1.2.3",
    "1.2.3.",
    "1.2.3.x",
    "1.2.3.4.5",
    "::1.2",
    "::1.2.3",
    "::1.2.3.",
    "::1.2.3.4",
    "::1.2.3.4.",
    "::1.2.3.4.5",
    "::1.2.3.4:5",
    "::1.2.3.4x",
    "::a1.2.3.4",
    "::.1.2.3",
    ":1.2.3.4",
    "1:1.1.1.1:1.1.1..",
    "AS",
    "ASx",
    "AS1x",
    "aAS1",
    "0x",
    "0xg",
    "0X1",
    "00x1",
    "f\"",
    "ff\"",
    "f'",
    "\"",
    "'",
    "''",
    "'''",
    "\"\\",
    "'\\",
    "\"\"",
    "\\\"",
    "f",
    "truefalse",
    "iff",
    "filterm",
    "_",
    "__",
];

/// One token text, of a rule chosen at random.
pub fn token(r: &mut Random, out: &mut Vec<u8>) {
    match r.below(16) {
        0 => ipv6(r, out),
        1 => ipv4(r, out),
        2..=4 => out.extend_from_slice(r.pick(&SIGNS).as_bytes()),
        5 => {
            out.extend_from_slice(b"AS");
            r.run(DIGITS, 1, 11, out);
        }
        6 => {
            out.extend_from_slice(b"0x");
            r.run(HEX, 0, 17, out);
        }
        7 | 8 => number(r, out),
        9 | 10 => quoted(r, out),
        11..=13 => out.extend_from_slice(r.pick(&WORDS).as_bytes()),
        _ => {
            out.push(r.byte_of(LETTERS));
            r.run(WORD, 0, 9, out);
        }
    }
}

fn ipv6(r: &mut Random, out: &mut Vec<u8>) {
    r.run(HEX, 0, 4, out);
    out.push(b':');
    r.run(HEX, 0, 4, out);
    out.push(b':');
    r.run(HEX_COLON, 0, 20, out);
    if r.once_in(3) {
        dotted(r, out);
    }
}

/// Digits, and two to four times a period with digits, one in a few of them without.
fn dotted(r: &mut Random, out: &mut Vec<u8>) {
    r.run(DIGITS, 0, 3, out);
    for _ in 0..2 + r.below(3) {
        out.push(b'.');
        let least = usize::from(!r.once_in(12));
        r.run(DIGITS, least, 3, out);
    }
}

fn ipv4(r: &mut Random, out: &mut Vec<u8>) {
    for _ in 0..3 {
        r.run(DIGITS, 1, 3, out);
        out.push(b'.');
    }
    r.run(DIGITS, 0, 3, out);
}

pub fn number(r: &mut Random, out: &mut Vec<u8>) {
    out.push(r.byte_of(DIGITS));
    r.run(DIGITS_, 0, 6, out);
    if r.once_in(3) {
        out.push(b'.');
        r.run(DIGITS_, 0, 5, out);
    }
    if r.once_in(3) {
        r.run(LETTERS, 1, 1, out);
        r.run(WORD, 0, 4, out);
    }
}

fn quoted(r: &mut Random, out: &mut Vec<u8>) {
    let quote = r.byte_of(b"\"\"'");
    out.push(quote);
    r.run(ANY_TEXT, 0, 8, out);
    out.push(quote);
}

fn blanks(r: &mut Random, out: &mut Vec<u8>) {
    match r.below(10) {
        0..=4 => out.push(b' '),
        5 => r.run(BLANKS, 0, 4, out),
        6 => {
            out.extend_from_slice(b"//");
            r.run(b"ab /\"'\r#", 0, 9, out);
            out.push(b'\n');
        }
        _ => {}
    }
}

/// About that many bytes of tokens and of texts that nearly are some.
pub fn source(r: &mut Random, size: usize, near_once_in: usize) -> Vec<u8> {
    let mut out = Vec::with_capacity(size + 32);
    while out.len() < size {
        match r.once_in(near_once_in) {
            true => out.extend_from_slice(r.pick(&NEAR).as_bytes()),
            false => token(r, &mut out),
        }
        blanks(r, &mut out);
    }
    if r.once_in(8) {
        out.extend_from_slice(b"//");
        r.run(b"ab /\"'\r", 0, 5, &mut out);
    }
    out
}

/// Long runs of one rule's bytes, where a slow or a narrow scan would show.
pub fn long_run(r: &mut Random, size: usize) -> Vec<u8> {
    const SETS: [&[u8]; 12] =
        [b"a", b"1", b"a_1", b"1_", b"0123456789abcdef", b":", b"1:", b"1.", b" ", b" \n", b"/", b"\\"];
    const FIRST: [&str; 9] = ["", "\"", "'", "//", "0x", "AS", "::", "1.", "x"];
    const LAST: [&str; 6] = ["", "\"", "\" ", "' ", "\n", " $"];
    let mut out = r.pick(&FIRST).as_bytes().to_vec();
    let set = r.pick(&SETS);
    while out.len() < size {
        out.push(r.byte_of(set));
    }
    out.extend_from_slice(r.pick(&LAST).as_bytes());
    out
}

/// One damage: a flip, a byte taken out or put in, a part doubled, a part cut off.
pub fn damage(r: &mut Random, source: &mut Vec<u8>) {
    if source.is_empty() {
        return;
    }
    let at = r.below(source.len());
    let end = (at + 1 + r.below(6)).min(source.len());
    match r.below(7) {
        0 => source[at] ^= 1 << r.below(8),
        1 => source[at] = r.next() as u8 & 127,
        2 => drop(source.drain(at..end)),
        3 => source.insert(at, r.next() as u8 & 127),
        4 => {
            let part = source[at..end].to_vec();
            source.splice(at..at, part);
        }
        5 => {
            let mut sign = Vec::new();
            token(r, &mut sign);
            source.splice(at..end, sign);
        }
        _ => source.truncate(at),
    }
}
