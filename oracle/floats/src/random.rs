//! Random literals of every length, some of them damaged.

use crate::Tally;

/// The same seed gives the same texts on every machine.
pub struct Random(u64);

impl Random {
    pub fn new(seed: u64) -> Self {
        Random(seed)
    }

    /// SplitMix64.
    pub fn next(&mut self) -> u64 {
        self.0 = self.0.wrapping_add(0x9e37_79b9_7f4a_7c15);
        let mut z = self.0;
        z = (z ^ (z >> 30)).wrapping_mul(0xbf58_476d_1ce4_e5b9);
        z = (z ^ (z >> 27)).wrapping_mul(0x94d0_49bb_1331_11eb);
        z ^ (z >> 31)
    }

    pub fn below(&mut self, n: usize) -> usize {
        (self.next() % n as u64) as usize
    }

    fn digits(&mut self, count: usize, gaps: bool, out: &mut Vec<u8>) {
        for i in 0..count {
            if gaps && i > 0 && self.below(5) == 0 {
                out.push(b'_');
            }
            out.push(b'0' + self.below(10) as u8);
        }
    }

    /// Some zeros, and as many digits as the texts before it had, or one more or fewer.
    pub fn literal(&mut self, length: usize) -> Vec<u8> {
        const SUFFIXES: [&str; 4] = ["", "f32", "f64", "f32"];
        let mut out = Vec::new();
        if self.below(8) == 0 {
            out.resize(self.below(30), b'0');
        }
        let gaps = self.below(4) == 0;
        let before = self.below(length + 1);
        self.digits(before.max(usize::from(out.is_empty())), gaps, &mut out);
        if before < length {
            out.push(b'.');
            self.digits(length - before, gaps, &mut out);
        }
        out.extend_from_slice(SUFFIXES[self.below(SUFFIXES.len())].as_bytes());
        out
    }

    /// A byte changed, lost, put in, or two swapped.
    fn damage(&mut self, text: &mut Vec<u8>) {
        const BYTES: &[u8] = b"0123456789._f326xeASu:- \n/\"\x80";
        let byte = BYTES[self.below(BYTES.len())];
        let at = self.below(text.len());
        match self.below(4) {
            0 => text[at] = byte,
            1 => drop(text.remove(at)),
            2 => text.insert(at, byte),
            _ => {
                let other = self.below(text.len());
                text.swap(at, other);
            }
        }
    }
}

/// So many of lengths 1 to 21, and as many of those damaged once in four times.
pub fn texts(count: usize, tally: &mut Tally) {
    const LONGEST: usize = 21;
    let mut random = Random::new(20_261);
    for i in 0..count {
        let mut text = random.literal(1 + i % LONGEST);
        tally.text(&text);
        if i % 4 == 0 {
            random.damage(&mut text);
            tally.text(&text);
        }
    }
}
