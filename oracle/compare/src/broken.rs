//! Broken files for entry s (C-23): declarations, most of them on lines of their own, cut, joined, interleaved and damaged, with quotes and
//! brackets that nothing closes.

use crate::{grammar, random::Random, run::Sink, texts};

const DECLARATIONS: [&str; 24] = [
    "import a;",
    "import a.{b, c};",
    "import super.a;",
    "const A: u8 = 1;",
    "const A: u8 = 256u8;",
    "const A: String = \"a { b\";",
    "const A: String = \"a\nfn f() {}\n\";",
    "const A: String = f\"a{b}c\";",
    "const A: String = f\"a{\nb}\";",
    "const A: b = {\nimport a;\n} = 1;",
    "const A: b = {\nlet c = 1;\nc\n};",
    "const A: char = 'a';",
    "fn f() {}",
    "fn f() {\n    a\n}",
    "fn f(a: u8) -> u8 {\n    if a == 1 { 2 } else { 3 }\n}",
    "fn f() {\nimport a;\n}",
    "fn f() { f\"{a}\" }",
    "filter f(r: Route) {\n    if r.len > 24 { reject }\n    accept\n}",
    "filter f() {}",
    "filtermap f() { accept 1 }",
    "filtermap f(\na: b,\n) {\n}",
    "test t {}",
    "record A { a: b }",
    "// fn f() {}",
];

const BETWEEN: [&str; 14] =
    ["\n", "\n", "\n", "\n", "\n\n", "\n// a\n", " ", "", "\n ", "\r\n", "\r", "\t", ";\n", "\n}\n"];

const STRAYS: [&str; 40] = [
    "\"", "'", "f\"", "\\", "{", "}", "(", ")", "[", "{{", "}}", ";", ",", "=", " = 1", "+", "$", "#", "&", "//",
    "fn", "const", "import", "filter", "filtermap", "test", "\nfn", "\nfn ", "\nfn(", "\nfnx", "\nfn_", "\nimport",
    "\nimport a;\n", "\nconst", "\nfilter", "\nfiltermap", "\nfn f() {}\n", "<<<<<<< HEAD\n", "=======\n", ">>>>>>> b\n",
];

/// So many broken files; rooms that are too small now and then.
pub fn random(sink: &mut Sink, count: u64, seed: u64) {
    let mut r = Random::new(seed);
    for _ in 0..count {
        if !sink.wanted() {
            return;
        }
        let source = source(&mut r);
        let rows = if r.once_in(2) { u32::MAX.into() } else { r.below(60) as u64 };
        let numbers = [rows, r.below(5) as u64];
        let given = if r.once_in(4) { 1 + r.below(2) } else { 0 };
        sink.numbered(b's', &source, &numbers[..given]);
    }
}

fn source(r: &mut Random) -> Vec<u8> {
    let mut source = Vec::new();
    for _ in 0..1 + r.below(5) {
        let piece = piece(r);
        source.extend_from_slice(&piece);
        source.extend_from_slice(r.pick(&BETWEEN).as_bytes());
    }
    for _ in 0..r.below(4) {
        match r.below(3) {
            0 => texts::damage(r, &mut source),
            _ => stray(r, &mut source),
        }
    }
    if r.once_in(100) {
        source.splice(0..0, *b"#!");
    }
    source
}

/// A declaration, whole, cut at either end, or its lines among those of another.
fn piece(r: &mut Random) -> Vec<u8> {
    let mut text = declaration(r);
    match r.below(8) {
        0 => text.truncate(r.below(text.len() + 1)),
        1 => drop(text.drain(..r.below(text.len() + 1))),
        2 => text = interleaved(&text, &declaration(r)),
        _ => {}
    }
    text
}

fn declaration(r: &mut Random) -> Vec<u8> {
    match r.below(12) {
        0 | 1 => grammar::short(r),
        2 if r.once_in(4) => format!("const A: b = {}a;", "!".repeat(31 + r.below(3))).into_bytes(),
        _ => r.pick(&DECLARATIONS).as_bytes().to_vec(),
    }
}

fn interleaved(left: &[u8], right: &[u8]) -> Vec<u8> {
    let mut rest = right.split_inclusive(|byte| *byte == b'\n');
    let mut out = Vec::new();
    for line in left.split_inclusive(|byte| *byte == b'\n') {
        out.extend_from_slice(line);
        out.extend_from_slice(rest.next().unwrap_or_default());
    }
    rest.for_each(|line| out.extend_from_slice(line));
    out
}

fn stray(r: &mut Random, source: &mut Vec<u8>) {
    let at = r.below(source.len() + 1);
    source.splice(at..at, r.pick(&STRAYS).bytes());
}
