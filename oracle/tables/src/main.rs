//! Files of tables (C-21): our check and our writer against the oracle's account of document 02's words, on files of ours, on such files
//! changed in one place, and on files that are no file of ours at all.

mod changes;
mod ours;
#[allow(dead_code)]
#[path = "../../compare/src/random.rs"]
mod random;

use changes::Layout;
use front::files::{self, Checked, ROW, Sections};
use protocol::{Refusal, Row, WIDTH, serve};
use random::Random;
use std::collections::BTreeMap;

const NO_ROOM: u64 = 10;

/// A source and what the oracle reads in it, so that it is read once for all files that hold it: by the old grammar, as files are, and by the new
/// one, as the writer reads (C-22).
struct Known<'a> {
    source: &'a [u8],
    old: Result<Vec<Row>, Refusal>,
    new: Result<Vec<Row>, Refusal>,
}

impl<'a> Known<'a> {
    fn of(source: &'a [u8]) -> Self {
        Known { source, old: front::old_tree(source), new: front::tree(source) }
    }

    fn read(&self, source: &[u8]) -> Result<Vec<Row>, Refusal> {
        if source == self.source { self.old.clone() } else { front::old_tree(source) }
    }
}

/// The numbers of a table that holds rows and zeros behind them.
fn filled(rows: &[Row], size: usize) -> Vec<u64> {
    let mut table = rows.concat();
    table.resize(size, 0);
    table
}

/// What the check must say of a file, with a table of so many numbers, and the rows that it leaves there.
fn wanted(file: &[u8], size: usize, known: &Known<'_>) -> (ours::Checked, Vec<Row>) {
    let mut rows = Vec::new();
    let said = files::check(file, |source| {
        rows = known.read(source)?;
        Ok(rows.clone())
    });
    let room = size.saturating_sub(1) / WIDTH;
    match said {
        Err(Refusal { number, start, end }) if number < ROW => ([number, start, end, 0, 0], vec![]),
        _ if rows.len() > room => ([NO_ROOM, 0, 0, rows.len() as u64, 0], vec![]),
        Err(Refusal { number, start, end }) => ([number, start, end, 0, 0], vec![]),
        Ok(Checked { rows: count, tests }) => ([0, 0, file.len() as u64, count, tests], rows),
    }
}

#[derive(Default)]
struct Tally {
    /// How many of our files, changed files and other files had which number.
    numbers: [BTreeMap<u64, u64>; 3],
    writes: BTreeMap<u64, u64>,
    differences: u64,
    shortest: Option<usize>,
}

const OURS: usize = 0;
const CHANGED: usize = 1;
const OTHERS: usize = 2;

/// Bytes that are printed of a file or source; the rest is made again by the same seed.
const SHOWN: usize = 2_000;

fn hex(bytes: &[u8]) -> String {
    bytes.iter().map(|byte| format!("{byte:02x}")).collect()
}

impl Tally {
    /// Only what is shorter than every difference before it is printed.
    fn different(&mut self, what: String, bytes: &[u8], got: &[u64], want: &[u64]) {
        self.differences += 1;
        if self.shortest.is_none_or(|shortest| bytes.len() < shortest) {
            self.shortest = Some(bytes.len());
            println!("DIFFERENT {what}: {got:?} not {want:?} for {}", hex(&bytes[..bytes.len().min(SHOWN)]));
        }
    }

    fn check(&mut self, group: usize, file: &[u8], size: usize, known: &Known<'_>) {
        let (want, rows) = wanted(file, size, known);
        let (got, table) = ours::check(file, size);
        *self.numbers[group].entry(want[0]).or_default() += 1;
        if got != want {
            self.different(format!("check in {size} numbers"), file, &got, &want);
        } else if table != filled(&rows, size) {
            self.different(format!("table of check in {size} numbers"), file, &got, &want);
        }
    }

    /// The writer, with a table of so many numbers and a buffer of so many bytes.
    fn write(&mut self, known: &Known<'_>, size: usize, bytes: usize) {
        let file = files::write(known.source, |_| known.new.clone());
        let rows = known.new.as_ref().map_or(0, Vec::len);
        let (want, left) = match file {
            Err(refusal) => ([refusal.number, refusal.start, refusal.end, 0], vec![]),
            Ok(_) if rows > size / WIDTH => ([NO_ROOM, 0, 0, rows as u64], vec![]),
            Ok(file) if file.len() > bytes => ([NO_ROOM, 0, 0, file.len() as u64], vec![]),
            Ok(file) => ([0, 0, known.source.len() as u64, file.len() as u64], file),
        };
        let (got, table, mut out) = ours::write(known.source, size, bytes);
        *self.writes.entry(want[0]).or_default() += 1;
        let kept = if want[0] == 0 { known.new.clone().unwrap_or_default() } else { vec![] };
        if got != want {
            self.different(format!("write in {size} numbers, {bytes} bytes"), known.source, &got, &want);
        } else if table != filled(&kept, size) {
            self.different(
                format!("table of write in {size} numbers, {bytes} bytes"),
                known.source,
                &got,
                &table,
            );
        } else if out.split_off(left.len()).iter().any(|&byte| byte != 0) || out != left {
            self.different(
                format!("bytes of write in {size} numbers, {bytes} bytes"),
                known.source,
                &got,
                &want,
            );
        }
    }

    /// A source that is accepted: its file, written and checked, and that file changed.
    fn accepted(&mut self, r: &mut Random, known: &Known<'_>, rows: &[Row]) {
        let sections =
            Sections { source: known.source, rows: rows.to_vec(), indexes: files::declarations(rows) };
        let file = files::file(&sections);
        let layout = Layout::of(&sections);
        // Enough for the rows, one number and some more; and too little.
        let enough = rows.len() * WIDTH + 1 + r.below(3 * WIDTH);
        let short = r.below(rows.len() * WIDTH);
        self.check(OURS, &file, enough, known);
        self.check(CHANGED, &file, short, known);
        self.write(known, enough, file.len() + r.below(3));
        self.write(known, enough, r.below(file.len()));
        self.write(known, short, file.len());
        let size = |r: &mut Random| if r.once_in(8) { r.below(enough) } else { enough + r.below(2) * WIDTH };
        for which in 0..changes::SIMPLE {
            let changed = changes::simple(r, which, &file, &layout);
            self.check(CHANGED, &changed, size(r), known);
        }
        for _ in 0..4 {
            let changed = changes::section(r, &sections);
            self.check(CHANGED, &changed, size(r), known);
        }
        if file.len() < 700 && r.once_in(2_000) {
            changes::each(&file, |changed| self.check(CHANGED, changed, enough, known));
        }
    }

    /// A source that is refused, in files with and without rows.
    fn refused(&mut self, r: &mut Random, known: &Known<'_>) {
        self.write(known, r.below(3 * WIDTH), r.below(9));
        for rows in 0..3 {
            let rows = vec![[r.below(48) as u64, 0, 1, 0, 0, 0, 1]; rows];
            let indexes = vec![0; r.below(3)];
            let file = files::file(&Sections { source: known.source, rows, indexes });
            self.check(OTHERS, &file, r.below(4 * WIDTH), known);
            self.check(OTHERS, &file[..r.below(file.len())], r.below(4 * WIDTH), known);
        }
    }

    fn source(&mut self, r: &mut Random, source: &[u8]) {
        let known = Known::of(source);
        match &known.old {
            Ok(rows) => self.accepted(r, &known, rows),
            Err(_) => self.refused(r, &known),
        }
    }

    fn edges(&mut self) {
        let known = Known::of(b"");
        for file in changes::edges() {
            for size in [0, 1, WIDTH - 1, WIDTH, WIDTH + 1, 2 * WIDTH + 3] {
                self.check(OTHERS, &file, size, &known);
            }
        }
    }

    fn print(&self) {
        for (what, numbers) in ["files of ours", "changed files", "other files"].iter().zip(&self.numbers) {
            println!("{what}: {} {numbers:?}", numbers.values().sum::<u64>());
        }
        println!("written: {} {:?}", self.writes.values().sum::<u64>(), self.writes);
        println!("{} differences", self.differences);
    }
}

fn run() -> std::io::Result<()> {
    let seed = std::env::args().nth(1).and_then(|word| word.parse().ok()).unwrap_or(0);
    let mut r = Random::new(seed);
    let mut tally = Tally::default();
    tally.edges();
    changes::sources().iter().for_each(|source| tally.source(&mut r, source));
    serve(|case, _| tally.source(&mut r, case.source))?;
    tally.print();
    std::process::exit(i32::from(tally.differences > 0));
}

fn main() -> std::io::Result<()> {
    front::answer::on_large_stack(run)
}
