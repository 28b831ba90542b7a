//! The search beside a walk over all rows, at 1,000 positions of a filter of 60 KiB.

use crate::{ours, table_of};
use protocol::WIDTH;
use std::{hint::black_box, time::Instant};

const ONE: &str = "\
filter customers(route: Route, peer: Peer) {
    let limit: u8 = 24;
    if route.prefix.len() > limit || route.prefix.covers(10.0.0.0) {
        reject \"prefix\"
    }
    match route.origin {
        Some(asn) if asn == AS64496 => { accept route.with_pref(100) },
        Some(asn) => if peer.allows(asn) && !route.path.contains(AS23456) { accept } else { reject },
        _ => reject,
    }
}
";

const POSITIONS: u64 = 1_000;

/// The walk as it is written where nothing is known of subtrees: no copy of the table, back from its end to the first leaf.
fn walked(table: &[u64], position: u64) -> u64 {
    let holds = |row: &[u64]| row[3] == 0 && row[1] <= position && position < row[2];
    let leaf = table.chunks_exact(WIDTH).rposition(holds);
    leaf.map_or(13, |index| index as u64)
}

/// Nanoseconds a position, the best of twenty runs.
fn best(length: u64, mut one: impl FnMut(u64) -> u64) -> f64 {
    let run = |one: &mut dyn FnMut(u64) -> u64| {
        let begun = Instant::now();
        for i in 0..POSITIONS {
            black_box(one(i * length / POSITIONS));
        }
        begun.elapsed().as_nanos() as f64 / POSITIONS as f64
    };
    (0..20).map(|_| run(&mut one)).fold(f64::MAX, f64::min)
}

pub fn print() {
    let source = ONE.repeat(61_440 / ONE.len());
    let table = table_of(source.as_bytes(), true).expect("a filter");
    let length = source.len() as u64;
    let search = best(length, |position| ours(black_box(&table), position)[3]);
    let walk = best(length, |position| walked(black_box(&table), position));
    println!("{} rows of {length} bytes: {search:.0} ns a search, {walk:.0} ns a walk", table.len() / WIDTH);
}
