//! Cases for entry (c), and for any entry every text over an alphabet or of a few tokens.

use crate::{random::Random, run::Sink, texts};

const LONGEST: usize = 65_535;

/// Every text of up to so many bytes over an alphabet, shortest first.
pub fn exhaustive(sink: &mut Sink, entry: u8, alphabet: &[u8], longest: usize) {
    let parts: Vec<&[u8]> = alphabet.chunks(1).collect();
    joined(sink, entry, &parts, longest, b"", (b"", b""));
}

/// Every text of up to so many parts with `between` between them, between two texts that stay.
pub fn joined(
    sink: &mut Sink,
    entry: u8,
    parts: &[&[u8]],
    longest: usize,
    between: &[u8],
    frame: (&[u8], &[u8]),
) {
    let mut source = Vec::new();
    for length in 0..=longest {
        let mut chosen = vec![0; length];
        loop {
            source.clear();
            source.extend_from_slice(frame.0);
            for (i, part) in chosen.iter().enumerate() {
                if i > 0 {
                    source.extend_from_slice(between);
                }
                source.extend_from_slice(parts[*part]);
            }
            source.extend_from_slice(frame.1);
            sink.case(entry, &source, None);
            if !advance(&mut chosen, parts.len()) || !sink.wanted() {
                break;
            }
        }
    }
}

/// The next choice in order; false after the last.
fn advance(chosen: &mut [usize], many: usize) -> bool {
    for digit in chosen.iter_mut().rev() {
        *digit += 1;
        if *digit < many {
            return true;
        }
        *digit = 0;
    }
    false
}

/// Random texts, whole and damaged: most small, some at the greatest length and just beyond.
pub fn random(sink: &mut Sink, entry: u8, count: u64, seed: u64) {
    let mut r = Random::new(seed);
    for _ in 0..count {
        if !sink.wanted() {
            return;
        }
        let source = one(&mut r);
        let room = room(&mut r, source.len());
        sink.case(entry, &source, room);
    }
}

pub fn one(r: &mut Random) -> Vec<u8> {
    let mut source = match r.below(4096) {
        0 => at_the_end(r),
        1 => {
            let size = r.below(LONGEST);
            texts::long_run(r, size)
        }
        2..=3 => {
            let size = r.below(LONGEST);
            texts::source(r, size, 1 << 16)
        }
        4..=200 => {
            let size = r.below(600);
            texts::source(r, size, 400)
        }
        201..=300 => {
            let size = r.below(40);
            texts::long_run(r, size)
        }
        _ => {
            let size = r.below(40);
            texts::source(r, size, 12)
        }
    };
    if r.once_in(3) {
        for _ in 0..1 + r.below(3) {
            texts::damage(r, &mut source);
        }
    }
    if r.once_in(200) {
        source.splice(0..0, *b"#!");
    }
    if r.once_in(100) && !source.is_empty() {
        let at = r.below(source.len());
        source[at] |= 128;
    }
    source
}

/// 65,534 to 65,537 bytes.
fn at_the_end(r: &mut Random) -> Vec<u8> {
    let size = LONGEST - 1 + r.below(4);
    let mut source = match r.below(2) {
        0 => texts::source(r, size, 1 << 20),
        _ => texts::long_run(r, size),
    };
    source.resize(size, b' ');
    if r.once_in(2) {
        let last = r.byte_of(b"a1:\"'; \n\x80$");
        source[size - 1] = last;
    }
    source
}

/// No word on the room mostly; else about as many as there may be.
fn room(r: &mut Random, length: usize) -> Option<u64> {
    match r.below(8) {
        0 => Some(0),
        1 | 2 => Some(r.below(6) as u64),
        3 => Some(r.below(length + 2) as u64),
        _ => None,
    }
}
