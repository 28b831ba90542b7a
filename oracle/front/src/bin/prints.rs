//! Checks the oracle's own prints (C-20) of the sources among cases on standard input: the print's tree and the print's print; no comma or `;` that
//! can go; and, for trees of up to so many expressions (the argument), parentheses against every choice of pairs.

use front::printing::{Tree, needs, print, same, spaced, tokens};
use protocol::{Row, serve};

/// Where a pair can stand: an expression's row, and which of the others are above it.
struct Choices<'a> {
    rows: &'a [Row],
    source: &'a [u8],
    tree: &'a Tree<'a>,
    spots: Vec<usize>,
}

#[derive(Default)]
struct Tally {
    sources: u64,
    signs: u64,
    trees: u64,
    choices: u64,
    pairs: u64,
    problems: u64,
    shortest: Option<usize>,
}

fn reads_as(rows: &[Row], source: &[u8], text: &str) -> bool {
    front::tree(text.as_bytes()).is_ok_and(|again| same(rows, source, &again, text.as_bytes()))
}

impl Choices<'_> {
    fn above(&self, upper: usize, lower: usize) -> bool {
        let (upper, lower) = (self.spots[upper], self.spots[lower]);
        lower < upper && upper < lower + self.rows[upper][6] as usize
    }

    fn text(&self, mask: usize) -> String {
        let at = |index| self.spots.iter().position(|spot| *spot == index).expect("a spot");
        spaced(&tokens(self.tree, &mut |tree, _| mask >> at(tree.index()) & 1 == 1))
    }

    fn printed(&self) -> usize {
        let (mut mask, mut spot) = (0, 0);
        tokens(self.tree, &mut |tree, place| {
            let pair = needs(tree, place);
            mask |= usize::from(pair) << spot;
            spot += 1;
            pair
        });
        mask
    }

    /// A row has a pair exactly where each text without it, the pairs above it being the print's, whatever pairs stand elsewhere, has no
    /// reading or another tree; and each pair of the print is needed in it.
    fn problem(&self) -> Option<String> {
        let all: Vec<bool> = (0..1 << self.spots.len())
            .map(|mask| reads_as(self.rows, self.source, &self.text(mask)))
            .collect();
        let print = self.printed();
        if !all[print] {
            return Some("the print is another tree".to_string());
        }
        for spot in 0..self.spots.len() {
            let upper = (0..self.spots.len())
                .filter(|other| self.above(*other, spot))
                .fold(0, |mask, other| mask | 1 << other);
            let free =
                (0..all.len()).any(|mask| all[mask] && mask >> spot & 1 == 0 && (mask ^ print) & upper == 0);
            let pair = print >> spot & 1 == 1;
            if pair == free || pair && all[print ^ 1 << spot] {
                return Some(format!("row {}: pair {pair}, free {free}", self.spots[spot]));
            }
        }
        None
    }
}

impl Tally {
    fn problem(&mut self, source: &[u8], what: &str) {
        self.problems += 1;
        if self.shortest.is_none_or(|shortest| source.len() < shortest) {
            self.shortest = Some(source.len());
            println!("PROBLEM {what}: {}", source.escape_ascii());
        }
    }

    fn source(&mut self, source: &[u8], most: usize) {
        let Ok(rows) = front::tree(source) else { return };
        let tree = Tree::of(&rows, std::str::from_utf8(source).expect("ASCII"));
        let list = tokens(&tree, &mut needs);
        let text = spaced(&list);
        let Ok(again) = front::tree(text.as_bytes()) else { return };
        self.sources += 1;
        if !same(&rows, source, &again, text.as_bytes()) || print(&again, &text) != text {
            self.problem(source, "another tree, or another print");
        }
        self.signs(source, &rows, &list);
        let mut spots = Vec::new();
        tokens(&tree, &mut |tree, place| {
            spots.push(tree.index());
            needs(tree, place)
        });
        if spots.len() <= most {
            self.trees += 1;
            self.choices += 1 << spots.len();
            let choices = Choices { rows: &rows, source, tree: &tree, spots };
            self.pairs += u64::from(choices.printed().count_ones());
            if let Some(what) = choices.problem() {
                self.problem(source, &what);
            }
        }
    }

    fn signs(&mut self, source: &[u8], rows: &[Row], list: &[&str]) {
        const MOST: usize = 60;
        for at in (0..list.len().min(MOST)).filter(|at| matches!(list[*at], "," | ";")) {
            self.signs += 1;
            let without = [&list[..at], &list[at + 1..]].concat();
            if reads_as(rows, source, &spaced(&without)) {
                self.problem(source, &format!("token {at} can go"));
            }
        }
    }
}

fn run() -> std::io::Result<()> {
    let most = std::env::args().nth(1).and_then(|word| word.parse().ok()).unwrap_or(0);
    let mut tally = Tally::default();
    serve(|case, _| tally.source(case.source, most))?;
    println!("{} prints read back and printed again, {} commas and `;` left out", tally.sources, tally.signs);
    println!(
        "{} trees with {} choices of pairs, {} pairs in their prints",
        tally.trees, tally.choices, tally.pairs
    );
    println!("{} problems", tally.problems);
    std::process::exit(i32::from(tally.problems > 0));
}

fn main() -> std::io::Result<()> {
    front::answer::on_large_stack(run)
}
