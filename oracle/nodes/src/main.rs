//! The node under the cursor (C-15): our code against two accounts of document 02's words, on our tables and on damaged ones.

mod accounts;
mod speed;

use accounts::{Answer, search, walk};
use lekhyundo::sys;
use protocol::{WIDTH, serve};

pub fn ours(table: &[u64], position: u64) -> Answer {
    let mut out = [u64::MAX; 4];
    // SAFETY: each pointer is to that many elements, and the library keeps none.
    unsafe { sys::lekhyundo_at(table.as_ptr(), table.len(), position, out.as_mut_ptr(), out.len()) };
    out
}

/// The rows of a source by (a) or (b), one behind the other; none where it is refused.
pub fn table_of(source: &[u8], tree: bool) -> Option<Vec<u64>> {
    // No source has more than three rows to two bytes, and one.
    let mut table = vec![0; (source.len() * 3 / 2 + 2) * WIDTH];
    let mut answer = [u64::MAX; 4];
    let entry = if tree { sys::lekhyundo_tree } else { sys::lekhyundo_expression };
    // SAFETY: as above.
    unsafe { entry(source.as_ptr(), source.len(), table.as_mut_ptr(), table.len(), answer.as_mut_ptr(), answer.len()) };
    table.truncate(answer[3] as usize * WIDTH);
    (answer[0] == 0).then_some(table)
}

#[derive(Default)]
struct Tally {
    tables: u64,
    positions: u64,
    leaves: u64,
    damaged: u64,
    wrong: u64,
    differences: u64,
}

impl Tally {
    fn same(&mut self, table: &[u64], position: u64, want: Answer) {
        let got = ours(table, position);
        if got != want {
            self.differences += 1;
            if self.differences < 10 {
                println!("DIFFERENT at {position}: {got:?} not {want:?} in {table:?}");
            }
        }
    }

    /// Every position, one past the end and the greatest.
    fn whole(&mut self, table: &[u64], length: u64) {
        self.tables += 1;
        for position in (0..=length + 1).chain([u64::MAX]) {
            let want = walk(table, position);
            self.positions += 1;
            self.leaves += u64::from(want[0] == 0);
            self.same(table, position, want);
            self.same(table, position, search(table, position));
        }
    }

    /// Each number of each row changed, and numbers left over or missing at the end.
    fn damage(&mut self, table: &[u64], length: u64) {
        let mut other = table.to_vec();
        for i in 0..table.len() {
            let old = table[i];
            let rows = (table.len() / WIDTH) as u64;
            for new in [0, 1, old.wrapping_sub(1), old.wrapping_add(1), rows, rows + 1, u64::MAX] {
                other[i] = new;
                let place = i as u64 % (length + 1);
                for position in [0, place, length / 2, length.saturating_sub(1), length, u64::MAX] {
                    self.damaged_at(&other, position);
                }
            }
            other[i] = old;
        }
        for cut in 1..WIDTH.min(table.len() + 1) {
            self.damaged_at(&table[..table.len() - cut], length / 2);
        }
    }

    fn damaged_at(&mut self, table: &[u64], position: u64) {
        let want = search(table, position);
        self.damaged += 1;
        self.wrong += u64::from(want[0] == 12);
        self.same(table, position, want);
    }

    fn print(&self) {
        let Tally { tables, positions, leaves, damaged, wrong, differences } = self;
        println!("{tables} tables, {positions} positions, {leaves} with a leaf; {damaged} searches of damaged tables, {wrong} with a wrong size; {differences} differences");
    }
}

fn main() -> std::io::Result<()> {
    let word = std::env::args().nth(1);
    if word.as_deref() == Some("speed") {
        speed::print();
        return Ok(());
    }
    let mut tally = Tally::default();
    // Longer tables are searched whole, but not damaged number by number.
    const SHORT: usize = 60 * WIDTH;
    serve(|case, _| {
        if let Some(table) = table_of(case.source, case.entry == b'a') {
            tally.whole(&table, case.source.len() as u64);
            if table.len() <= SHORT {
                tally.damage(&table, case.source.len() as u64);
            }
        }
    })?;
    tally.print();
    std::process::exit(i32::from(tally.differences > 0));
}
