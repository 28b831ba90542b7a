//! Literals a second, of our code and of Rust's `parse::<f64>`, which is handed the digits alone.

use crate::{ours, random::Random};
use std::{hint::black_box, time::Instant};

/// The best of so many runs over a list of texts, in nanoseconds a text.
fn best(texts: &[Vec<u8>], mut read: impl FnMut(&[u8])) -> f64 {
    const RUNS: usize = 200;
    let run = || {
        let begun = Instant::now();
        texts.iter().for_each(|text| read(black_box(text)));
        begun.elapsed().as_nanos() as f64 / texts.len() as f64
    };
    std::iter::repeat_with(run).take(RUNS).fold(f64::MAX, f64::min)
}

pub fn print() {
    const TEXTS: usize = 20_000;
    let mut random = Random::new(5);
    println!("{:<28} {:>9} {:>12} {:>12}", "", "ours, ns", "M literals/s", "parse, ns");
    for digits in [3, 6, 12, 19] {
        for suffix in ["", "f32"] {
            let texts: Vec<Vec<u8>> = (0..TEXTS).map(|_| random.six(digits, suffix)).collect();
            let ours = best(&texts, |text| {
                black_box(ours(text));
            });
            let rust = best(&texts, |text| {
                let text = std::str::from_utf8(&text[..text.len() - suffix.len()]).expect("digits");
                black_box(text.parse::<f64>().is_ok());
            });
            println!("{:<28} {ours:>9.1} {:>12.1} {rust:>12.1}", format!("{digits} digits and a point {suffix}"), 1e3 / ours);
        }
    }
}

impl Random {
    /// So many digits with a point somewhere among them.
    fn six(&mut self, digits: usize, suffix: &str) -> Vec<u8> {
        let mut text: Vec<u8> = (0..digits).map(|_| b'0' + self.below(10) as u8).collect();
        text.insert(1 + self.below(digits - 1), b'.');
        text.extend_from_slice(suffix.as_bytes());
        text
    }
}
