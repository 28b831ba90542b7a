//! Files that aren't quite a file of ours: one number, count or byte changed, cut, lengthened, or with a section changed and its count with it.

use crate::random::Random;
use front::files::{Sections, file};
use protocol::{Row, WIDTH};

/// Where the parts of a file are.
pub struct Layout {
    source: usize,
    rows: usize,
    indexes: usize,
}

const COUNT: usize = 4;
const NUMBER: usize = 8;

impl Layout {
    pub fn of(sections: &Sections<'_>) -> Self {
        Layout { source: sections.source.len(), rows: sections.rows.len(), indexes: sections.indexes.len() }
    }

    fn first_row(&self) -> usize {
        2 * COUNT + self.source
    }

    fn first_index(&self) -> usize {
        self.first_row() + self.rows * WIDTH * NUMBER + COUNT
    }

    fn counts(&self) -> [usize; 3] {
        [0, COUNT + self.source, self.first_index() - COUNT]
    }

    fn any_count(&self, r: &mut Random) -> usize {
        self.counts()[r.below(3)]
    }

    fn any_number(&self, r: &mut Random) -> usize {
        self.first_row() + NUMBER * r.below(WIDTH * self.rows)
    }

    fn any_index(&self, r: &mut Random) -> Option<usize> {
        (self.indexes > 0).then(|| self.first_index() + COUNT * r.below(self.indexes))
    }
}

/// A number near another, near an end of its width, or with one bit changed.
fn other(r: &mut Random, old: u64, bits: u32) -> u64 {
    let most = u64::MAX >> (64 - bits);
    let new = match r.below(9) {
        0 => 0,
        1 => 1,
        2 => old.wrapping_add(1),
        3 => old.wrapping_sub(1),
        4 => most,
        5 => most - r.below(64) as u64,
        6 => old.wrapping_add(1 << (bits / 2)),
        7 => r.next(),
        _ => old ^ 1 << r.below(bits as usize),
    };
    new & most
}

fn put_other(r: &mut Random, mut file: Vec<u8>, at: usize, width: usize) -> Vec<u8> {
    let mut old = [0; NUMBER];
    old[..width].copy_from_slice(&file[at..at + width]);
    let new = other(r, u64::from_le_bytes(old), 8 * width as u32);
    file[at..at + width].copy_from_slice(&new.to_le_bytes()[..width]);
    file
}

fn cut(r: &mut Random, file: &[u8]) -> Vec<u8> {
    let length =
        if r.once_in(3) { file.len() - 1 - r.below(file.len().min(60)) } else { r.below(file.len()) };
    file[..length].to_vec()
}

fn lengthened(r: &mut Random, mut file: Vec<u8>) -> Vec<u8> {
    let many = if r.once_in(3) { 1 + r.below(60) } else { COUNT };
    file.resize(file.len() + many, r.byte_of(&[0, 0, 1, 255]));
    file
}

/// One of the three counts, a number of a row, an index, a byte; cut; lengthened.
pub const SIMPLE: usize = 6;

pub fn simple(r: &mut Random, which: usize, file: &[u8], layout: &Layout) -> Vec<u8> {
    let mut new = file.to_vec();
    match (which, layout.any_index(r)) {
        (0, _) => {
            let at = layout.any_count(r);
            put_other(r, new, at, COUNT)
        }
        (1, _) => {
            let at = layout.any_number(r);
            put_other(r, new, at, NUMBER)
        }
        (2, Some(at)) => put_other(r, new, at, COUNT),
        (2 | 3, _) => {
            let at = r.below(new.len());
            new[at] ^= 1 + r.below(255) as u8;
            new
        }
        (4, _) => cut(r, file),
        _ => lengthened(r, new),
    }
}

/// One thing more, fewer, twice, or in another's place; counts follow, so that the sections still fill the file.
fn edit<T: Clone>(r: &mut Random, list: &mut Vec<T>, fresh: T) {
    let at = r.below(list.len() + 1);
    match r.below(6) {
        0 => list.insert(at, fresh),
        1 => list.push(fresh),
        2 => drop(list.pop()),
        3 if at < list.len() => drop(list.remove(at)),
        4 if at < list.len() => list.insert(at, list[at].clone()),
        _ if at < list.len() => {
            let with = r.below(list.len());
            list.swap(at, with);
        }
        _ => list.truncate(at / 2),
    }
}

/// A file whose sections fill it, with one of them changed.
pub fn section(r: &mut Random, sections: &Sections<'_>) -> Vec<u8> {
    let (mut source, mut rows, mut indexes) =
        (sections.source.to_vec(), sections.rows.clone(), sections.indexes.clone());
    match r.below(4) {
        0 => edit_source(r, &mut source),
        1 => edit_row(r, &mut rows),
        2 => {
            let fresh = if r.once_in(2) { 0 } else { r.below(rows.len() + 2) as u32 };
            edit(r, &mut indexes, fresh);
        }
        _ => {
            edit_row(r, &mut rows);
            edit(r, &mut indexes, 0);
            if r.once_in(3) {
                edit_source(r, &mut source);
            }
        }
    }
    file(&Sections { source: &source, rows, indexes })
}

fn edit_source(r: &mut Random, source: &mut Vec<u8>) {
    let fresh = r.byte_of(b" ;}a1\"/$\xff");
    edit(r, source, fresh);
}

fn edit_row(r: &mut Random, rows: &mut Vec<Row>) {
    let fresh = if r.once_in(2) { [0; WIDTH] } else { rows[r.below(rows.len())] };
    edit(r, rows, fresh);
}

/// Every byte with each bit turned, every cut, and a byte more.
pub fn each(file: &[u8], mut one: impl FnMut(&[u8])) {
    let mut new = file.to_vec();
    for at in 0..file.len() {
        for bit in 0..8 {
            new[at] ^= 1 << bit;
            one(&new);
            new[at] = file[at];
        }
        one(&file[..at]);
    }
    new.push(0);
    one(&new);
}

/// Files that no change of ours makes: sections of no items, counts near 2^32 with little behind them.
pub fn edges() -> Vec<Vec<u8>> {
    const COUNTS: [u32; 16] = [
        0,
        1,
        2,
        3,
        7,
        8,
        12,
        65_535,
        65_536,
        1 << 31,
        (1 << 31) + 1,
        u32::MAX - 55,
        u32::MAX - 7,
        u32::MAX - 4,
        u32::MAX - 1,
        u32::MAX,
    ];
    // 56 * 2454267026 and 56 * 306783379 are 2^37 and 2^34 with a few more: only a sum of 64 bits keeps them.
    const WRAPS: [u32; 4] = [2_454_267_026, 306_783_379, 76_695_845, 1 << 30];
    let all: Vec<u32> = COUNTS.into_iter().chain(WRAPS).collect();
    let mut made = vec![vec![]];
    for tail in 0..80 {
        for &first in &all {
            let mut file = first.to_le_bytes().to_vec();
            file.resize(4 + tail, 0);
            made.push(file);
        }
        for &rows in &all {
            for &indexes in &all {
                let mut file = [0, rows, indexes].map(u32::to_le_bytes).concat();
                file.resize(12 + tail, if tail % 2 == 0 { 0 } else { 255 });
                made.push(file.clone());
                // The third count where the first rows' numbers end.
                if rows == 1 {
                    file.resize(8 + 56, 0);
                    file.extend(indexes.to_le_bytes());
                    file.resize(file.len() + tail, 0);
                    made.push(file);
                }
            }
        }
    }
    made
}

/// Sources at the edges: none, the longest and one more, the refusals of a source as a whole, and many declarations.
pub fn sources() -> Vec<Vec<u8>> {
    const LONGEST: usize = 65_535;
    let texts = [
        "",
        " ",
        "#!",
        "#!\n",
        "$",
        "const",
        "f",
        "test t{}",
        "import a;",
        "fn f(){import a;}test t{}fn g(){}",
    ];
    let mut made: Vec<Vec<u8>> = texts.iter().map(|text| text.as_bytes().to_vec()).collect();
    made.push(b"\x80".to_vec());
    made.push(b"#!\xff".to_vec());
    for length in [LONGEST - 1, LONGEST, LONGEST + 1, LONGEST + 2] {
        made.push(vec![b' '; length]);
        let mut text = b"import a;".repeat(length / 9);
        text.resize(length, b' ');
        made.push(text);
    }
    made
}
