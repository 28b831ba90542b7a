//! How long the longest constants take (C-18), and how much stack: 1,024 rows of each shape, beside fewer rows and beside reading the source alone.

#[path = "../painted.rs"]
mod painted;

use std::{hint::black_box, time::Instant};

use lekhyundo::sys;
use painted::Painted;
use protocol::WIDTH;

const RUNS: usize = 400;
const INSTRUCTION: usize = 5;
const MOST: usize = 1_024;

/// What is read, and where the answers go.
struct Call {
    source: String,
    table: Vec<u64>,
    list: Vec<u64>,
    answer: [u64; 6],
}

unsafe extern "C" fn tree(call: *mut Call) {
    // SAFETY: it is lent by someone who alone holds it, and each pointer is to that many elements.
    unsafe {
        let Call { source, table, answer, .. } = &mut *call;
        sys::lekhyundo_tree(
            source.as_ptr(),
            source.len(),
            table.as_mut_ptr(),
            table.len(),
            answer.as_mut_ptr(),
            4,
        );
    }
}

unsafe extern "C" fn constant(call: *mut Call) {
    // SAFETY: as above.
    unsafe {
        let Call { source, table, list, answer } = &mut *call;
        sys::lekhyundo_constant(
            source.as_ptr(),
            source.len(),
            0,
            table.as_mut_ptr(),
            table.len(),
            list.as_mut_ptr(),
            list.len(),
            answer.as_mut_ptr(),
            6,
        );
    }
}

/// Microseconds, the best of many runs.
fn time(function: unsafe extern "C" fn(*mut Call), call: &mut Call) -> f64 {
    let once = |call: &mut Call| {
        let begun = Instant::now();
        // SAFETY: as above.
        unsafe { function(black_box(call)) };
        begun.elapsed().as_nanos() as f64 / 1e3
    };
    (0..RUNS).map(|_| once(call)).fold(f64::MAX, f64::min)
}

/// So many rows: of `one` and `sign` alone, where nothing else is said.
fn chain(one: &str, sign: &str, rows: usize) -> String {
    let odd = if rows.is_multiple_of(2) { "-" } else { "" };
    format!("{odd}{one}{}", format!("{sign}{one}").repeat((rows - 1) / 2))
}

/// Groups of so many rows each, joined by `+`, and a chain for the rest; one row fewer where one is left over.
fn groups(group: &str, size: usize, rows: usize) -> String {
    let many = (rows + 1) / (size + 1);
    let rest = rows + 1 - many * (size + 1);
    let sign = if rest % 2 == 1 && rest > 2 { "+-1" } else { "" };
    format!("{}{sign}{}", vec![group; many].join("+"), "+1".repeat((rest - sign.len()) / 2))
}

type Shape = (&'static str, &'static str, fn(usize) -> String);

const SHAPES: [Shape; 7] = [
    ("to the left", "i64", |rows| chain("1", "+", rows)),
    ("to the right, 31 brackets", "i64", |rows| {
        groups(&format!("{}1{}", "1-(".repeat(31), ")".repeat(31)), 63, rows)
    }),
    ("runs of 32 signs", "i64", |rows| groups(&format!("{}1", "-".repeat(32)), 33, rows)),
    ("divisions", "i8", |rows| chain("127", "/", rows)),
    ("products", "u64", |rows| chain("9223372036854775807", "*", rows - 1)),
    ("floats of 19 digits", "f64", |rows| chain("0.3333333333333333333", "%", rows)),
    ("comparisons", "bool", |rows| format!("{}1==1", "1==1&&".repeat((rows + 1) / 4 - 1))),
];

/// The source that takes most stack to read; it ends where it is deepest.
const DEEPEST: &str = include_str!("../../../../vectors/deepest");

fn call(source: String) -> Call {
    let table = vec![0; (source.len() * 3 / 2 + 2) * WIDTH];
    Call { source, table, list: vec![0; MOST * INSTRUCTION], answer: [0; 6] }
}

fn line(name: &str, call: &mut Call, painted: &mut Painted, number: u64) {
    let whole = time(constant, call);
    assert_eq!(call.answer[0], number, "{name}");
    let (rows, bytes) = (call.answer[3], call.source.len());
    let read = time(tree, call);
    let (stack, below) = (painted.taken(constant, call), painted.taken(tree, call));
    println!("{name:<26} {rows:>5} {bytes:>6} {whole:>11.1} {read:>11.1} {stack:>11} {below:>11}");
}

fn main() {
    let mut painted = Painted::new();
    println!(
        "{:<26} {:>5} {:>6} {:>11} {:>11} {:>11} {:>11}",
        "shape", "rows", "bytes", "constant us", "tree us", "stack", "tree's"
    );
    for (name, declared, shape) in SHAPES {
        for rows in [MOST / 8, MOST / 4, MOST / 2, MOST] {
            let source = format!("const A: {declared} = {};", shape(rows));
            line(name, &mut call(source), &mut painted, 0);
        }
    }
    line("the deepest source (11)", &mut call(DEEPEST.to_string()), &mut painted, 11);
}
