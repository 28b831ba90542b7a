//! walk [FILE ..]: how long reading a filter takes, and how long walks over all nodes of its tree: in the order of the table, from each
//! node to its children, and to its children with a question for the parent of each. Without a file one of 60 KiB. The best of 200 runs.

use std::{hint::black_box, time::Instant};

use lekhyundo::{Node, Reader, Tree};

const ONE: &str = "\
// Routes of customers, at most a /24, that no private network hides in.
filter customers(route: Route, peer: Peer) {
    let limit: u8 = 24;
    if route.prefix.len() > limit || route.prefix.covers(10.0.0.0) {
        reject \"prefix\"
    }
    match route.origin {
        Some(asn) if asn == AS64496 => { accept route.with_pref(100) },
        Some(asn) => if peer.allows(asn) && !route.path.contains(AS23456) { accept } else { reject },
        _ => reject,
    }
}
";

/// Microseconds.
fn best(mut run: impl FnMut() -> usize) -> f64 {
    let mut once = || {
        let begun = Instant::now();
        black_box(run());
        begun.elapsed().as_nanos() as f64 / 1e3
    };
    (0..200).map(|_| once()).fold(f64::MAX, f64::min)
}

/// Something of each node, so that all of it is looked at.
fn look(node: Node<'_>) -> usize {
    node.text().len() + node.kind().number() as usize
}

fn in_order(tree: Tree<'_>) -> usize {
    tree.nodes().map(look).sum()
}

fn down(node: Node<'_>) -> usize {
    look(node) + node.children().map(down).sum::<usize>()
}

fn down_and_up(node: Node<'_>) -> usize {
    node.parent().map_or(0, |parent| parent.index()) + node.children().map(down_and_up).sum::<usize>()
}

fn main() -> std::io::Result<()> {
    let mut sources = std::env::args().skip(1).map(std::fs::read).collect::<std::io::Result<Vec<_>>>()?;
    if sources.is_empty() {
        sources.push(ONE.repeat(61_440 / ONE.len()).into_bytes());
    }
    println!(
        "{:>6} {:>6} {:>9} {:>9} {:>9} {:>9}  microseconds",
        "bytes", "nodes", "read", "in order", "down", "parents"
    );
    let mut reader = Reader::default();
    for source in &sources {
        let read = best(|| reader.tree(black_box(source)).map_or(0, |tree| tree.rows().len()));
        match reader.tree(source) {
            Ok(tree) => {
                let root = tree.root();
                let walks = [
                    best(|| in_order(black_box(tree))),
                    best(|| down(black_box(root))),
                    best(|| down_and_up(black_box(root))),
                ];
                assert_eq!(in_order(tree), down(root));
                let [order, down, parents] = walks;
                println!(
                    "{:>6} {:>6} {read:>9.1} {order:>9.1} {down:>9.1} {parents:>9.1}",
                    source.len(),
                    tree.rows().len()
                );
            }
            Err(refusal) => println!("{:>6} {refusal}", source.len()),
        }
    }
    Ok(())
}
