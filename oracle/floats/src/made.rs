//! Texts that are made and not drawn: every short one, powers, exact ties, the edges of the digit rules.

use crate::{Tally, random::Random};

/// The greatest whole number of 19 digits.
const MOST: u128 = 9_999_999_999_999_999_999;
const PLACES: usize = 19;

/// Every text of up to 7 bytes.
pub fn short(tally: &mut Tally) {
    const ALPHABET: &[u8] = b"019._f32";
    const LONGEST: u32 = 7;
    for length in 0..=LONGEST {
        for number in 0..ALPHABET.len().pow(length) {
            let mut rest = number;
            let text: Vec<u8> = (0..length)
                .map(|_| {
                    let byte = ALPHABET[rest % ALPHABET.len()];
                    rest /= ALPHABET.len();
                    byte
                })
                .collect();
            tally.text(&text);
        }
    }
}

/// A whole number over a power of ten, as a float of either width and without a suffix.
fn decimal(number: u128, places: usize, tally: &mut Tally) {
    if number > MOST || places > PLACES {
        return;
    }
    let digits = format!("{number:0>width$}", width = places + 1);
    let (whole, part) = digits.split_at(digits.len() - places);
    let point = if part.is_empty() { "" } else { "." };
    for suffix in ["", "f32", "f64"] {
        tally.text(format!("{whole}{point}{part}{suffix}").as_bytes());
    }
}

/// It and its neighbours, in its last place and in each place behind that within 19 digits.
fn around(number: u128, places: usize, tally: &mut Tally) {
    let (mut number, mut places) = (number, places);
    while number <= MOST && places <= PLACES {
        for near in [number.saturating_sub(1), number, number + 1] {
            decimal(near, places, tally);
        }
        number *= 10;
        places += 1;
    }
}

/// Powers of two and of ten.
pub fn powers(tally: &mut Tally) {
    for k in 0..PLACES {
        around(10u128.pow(k as u32), 0, tally);
        around(1, k, tally);
    }
    around(1, PLACES, tally);
    for k in 0..64 {
        around(1 << k, 0, tally);
    }
    for k in 1..=PLACES {
        around(5u128.pow(k as u32), k, tally);
    }
}

/// Halfway between two floats of a width: an odd number of one binary digit more than a float has, times a power of two. Every power
/// that 19 digits let through; of the odd numbers under each so many, spread evenly with a draw in each part, and the first and last.
pub fn ties(tally: &mut Tally) {
    const OF_EACH: u128 = 4_000;
    let mut random = Random::new(17);
    let mut count = 0;
    for digits in [24u32, 53] {
        for power in -(PLACES as i32)..64 {
            let places = (-power).max(0) as usize;
            let factor: u128 = if power < 0 { 5u128.pow(places as u32) } else { 1 << power };
            let least = 1u128 << digits;
            let most = (least * 2 - 1).min(MOST / factor);
            if most < least {
                continue;
            }
            let mut tie = |odd: u128| {
                let odd = odd | 1;
                if (least..=most).contains(&odd) {
                    count += 1;
                    for near in [odd * factor - 1, odd * factor, odd * factor + 1] {
                        decimal(near, places, tally);
                    }
                    // One more in the last place that there may be.
                    let (mut number, mut behind) = (odd * factor, places);
                    while number * 10 < MOST && behind < PLACES {
                        (number, behind) = (number * 10, behind + 1);
                    }
                    decimal(number - 1, behind, tally);
                    decimal(number + 1, behind, tally);
                }
            };
            tie(least);
            tie(most - 1);
            let step = ((most - least) / OF_EACH).max(1);
            for part in 0..OF_EACH {
                tie(least + part * step + u128::from(random.next()) % step);
            }
        }
    }
    println!("{count} exact ties, each with its neighbours:");
}

/// Zeros and underscores before, between and behind the digits, around 19 of them, and lengths around 65,535 bytes.
pub fn lengths(tally: &mut Tally) {
    for zeros in 0..24 {
        for digits in 0..22 {
            for places in 0..23 {
                for gap in ["", "_"] {
                    let first = format!("{}{gap}{}", "0".repeat(zeros), "7".repeat(digits));
                    let second = format!("{}{gap}", "0".repeat(places));
                    for suffix in ["", "f32", "f64", "f16", "u8"] {
                        tally.text(format!("{first}.{second}{suffix}").as_bytes());
                        tally.text(format!("{first}{suffix}").as_bytes());
                        tally.text(format!("0.{second}{}{suffix}", "3".repeat(digits)).as_bytes());
                    }
                }
            }
        }
    }
    for length in 65_525..65_545 {
        for last in ["1f64", "1.5", "2.5f32", "1", "1.5u8"] {
            for fill in ["0", "_"] {
                let middle = fill.repeat(length - last.len() - 1);
                tally.text(format!("0{middle}{last}").as_bytes());
            }
        }
    }
}
