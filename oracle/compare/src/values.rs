//! Single literals, good ones, ones at the edge of a rule, and damaged ones.

use crate::{random::Random, run::Sink, texts};

const DIGITS: &[u8] = b"0123456789";
const HEX: &[u8] = b"0123456789abcdefABCDEF";

/// Through (b) with a blank after it; a string through (e) too, by itself.
pub fn random(sink: &mut Sink, entry: Option<u8>, count: u64, seed: u64) {
    let mut r = Random::new(seed);
    for _ in 0..count {
        if !sink.wanted() {
            return;
        }
        let mut text = one(&mut r);
        if r.once_in(4) {
            texts::damage(&mut r, &mut text);
        }
        let room = if r.once_in(4) { Some(r.below(12) as u64) } else { None };
        if entry != Some(b'b') && (entry == Some(b'e') || text.first() == Some(&b'"')) {
            sink.case(b'e', &text, room);
        }
        if entry != Some(b'e') {
            text.push(b' ');
            sink.case(b'b', &text, room);
        }
    }
}

fn one(r: &mut Random) -> Vec<u8> {
    let mut out = Vec::new();
    match r.below(12) {
        0 | 1 => integer(r, &mut out),
        2 => texts::number(r, &mut out),
        3 => hex(r, &mut out),
        4 => as_number(r, &mut out),
        5 => ipv4(r, &mut out),
        6 | 7 => ipv6(r, &mut out),
        8..=10 => quoted(r, b'"', 6, &mut out),
        _ => quoted(r, b'\'', 1, &mut out),
    }
    out
}

/// A number near one that a rule names as its greatest.
fn near(r: &mut Random, greatest: u128) -> u128 {
    match r.below(4) {
        0 => r.next() as u128 >> r.below(64),
        1 => greatest + 1 + r.below(40) as u128,
        2 => greatest * 10 + r.below(10) as u128,
        _ => greatest - r.below(40).min(greatest as usize) as u128,
    }
}

fn integer(r: &mut Random, out: &mut Vec<u8>) {
    const SUFFIXES: [&str; 20] = [
        "", "", "", "i8", "i16", "i32", "i64", "u8", "u16", "u32", "u64", "f32", "f64", "f16", "u128", "i",
        "u", "e5", "F32", "u8_",
    ];
    let zeros = if r.once_in(6) { "000" } else { "" };
    // The greatest value of a type of 8 to 64 bits, signed or not.
    let bits = [8, 16, 32, 64][r.below(4)] - r.below(2);
    let digits = format!("{zeros}{}", near(r, (1 << bits) - 1));
    for (i, digit) in digits.bytes().enumerate() {
        if i > 0 && r.once_in(8) {
            out.push(b'_');
        }
        out.push(digit);
    }
    if r.once_in(8) {
        out.extend_from_slice(b".0_1");
    }
    out.extend_from_slice(r.pick(&SUFFIXES).as_bytes());
}

fn hex(r: &mut Random, out: &mut Vec<u8>) {
    out.extend_from_slice(b"0x");
    match r.below(3) {
        0 => r.run(HEX, 0, 18, out),
        _ => {
            let zeros = if r.once_in(4) { "00" } else { "" };
            let value = near(r, 0x7fff_ffff_ffff_ffff);
            out.extend_from_slice(format!("{zeros}{value:x}").as_bytes());
        }
    }
}

fn as_number(r: &mut Random, out: &mut Vec<u8>) {
    let zeros = if r.once_in(4) { "000" } else { "" };
    let value = near(r, 4_294_967_295);
    out.extend_from_slice(format!("AS{zeros}{value}").as_bytes());
}

fn ipv4(r: &mut Random, out: &mut Vec<u8>) {
    for i in 0..4 {
        if i > 0 {
            out.push(b'.');
        }
        match r.below(12) {
            0 => r.run(DIGITS, 0, 4, out),
            1 => out.extend_from_slice(format!("0{}", r.below(256)).as_bytes()),
            2 => out.extend_from_slice(format!("{}", 250 + r.below(10)).as_bytes()),
            _ => out.extend_from_slice(format!("{}", r.below(256)).as_bytes()),
        }
    }
}

fn ipv6(r: &mut Random, out: &mut Vec<u8>) {
    let dotted = r.once_in(3);
    let groups = if r.once_in(2) { if dotted { 6 } else { 8 } } else { r.below(10) };
    let gap = r.below(12);
    for i in 0..groups {
        if i > 0 {
            out.push(b':');
        }
        if i == gap {
            out.push(b':');
        }
        let longest = if r.once_in(24) { 5 } else { 4 };
        let least = usize::from(!r.once_in(24));
        r.run(HEX, least, longest, out);
    }
    if gap >= groups && r.once_in(2) {
        out.extend_from_slice(b"::");
    } else if dotted {
        out.push(b':');
    }
    if dotted {
        ipv4(r, out);
    }
}

fn quoted(r: &mut Random, quote: u8, most: usize, out: &mut Vec<u8>) {
    out.push(quote);
    for _ in 0..r.below(most + 1).max(usize::from(!r.once_in(8))) {
        piece(r, out);
    }
    out.push(quote);
}

/// A byte or an escape, one in a few of them bad.
fn piece(r: &mut Random, out: &mut Vec<u8>) {
    const SIMPLE: [&str; 7] = ["\\n", "\\r", "\\t", "\\\\", "\\0", "\\'", "\\\""];
    const BAD: [&str; 14] = [
        "\\", "\\q", "\\\n", "\\\r", "\\x", "\\x4", "\\xg0", "\\x80", "\\u", "\\u{", "\\u{}", "\\u{_1}",
        "\\u41", "\r",
    ];
    match r.below(12) {
        0..=4 => out.push(r.byte_of(b"ab z09{}/\n\t\x01\x7f'")),
        5..=7 => out.extend_from_slice(r.pick(&SIMPLE).as_bytes()),
        8 => out.extend_from_slice(format!("\\x{:02x}", r.below(140)).as_bytes()),
        9 | 10 => unicode(r, out),
        _ => out.extend_from_slice(r.pick(&BAD).as_bytes()),
    }
}

fn unicode(r: &mut Random, out: &mut Vec<u8>) {
    const EDGES: [u32; 12] =
        [0, 0x7f, 0x80, 0x7ff, 0x800, 0xd7ff, 0xd800, 0xdfff, 0xe000, 0xffff, 0x10_ffff, 0x11_0000];
    let value = if r.once_in(2) { EDGES[r.below(12)] } else { r.below(0x12_0000) as u32 };
    let digits = if r.once_in(3) { format!("{value:06X}") } else { format!("{value:x}") };
    out.extend_from_slice(b"\\u{");
    for (i, digit) in digits.bytes().enumerate() {
        if i > 0 && r.once_in(8) {
            out.push(b'_');
        }
        out.push(digit);
    }
    if r.once_in(12) {
        out.extend_from_slice(b"_");
    }
    if r.once_in(16) {
        out.extend_from_slice(b"0");
    }
    out.push(b'}');
}
