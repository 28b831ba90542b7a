//! outline FILE: the declarations of a filter with their names and lines, and under each what an editor can fold: blocks, matches and
//! records over more than one line. A refusal goes to standard error, with status 1.

use std::process::ExitCode;

use lekhyundo::{Kind, Lines, Node, Reader, Tree};

/// The lines of a node's first byte and of its last.
fn between(lines: &Lines, node: Node<'_>) -> (usize, usize) {
    (lines.place(node.start()).line, lines.place(node.end().saturating_sub(1)).line)
}

/// What a declaration declares, or an import takes in.
fn title(declaration: Node<'_>) -> &str {
    declaration.children().find_map(|child| child.name()).unwrap_or(declaration.text())
}

fn folds(node: &Node<'_>) -> bool {
    matches!(node.kind(), Kind::Block | Kind::Match | Kind::Record | Kind::RecordType)
}

fn print(tree: Tree<'_>) {
    let lines = Lines::of(tree.source().as_bytes());
    for declaration in tree.root().children() {
        let (first, last) = between(&lines, declaration);
        println!("{} {} {first}-{last}", declaration.kind(), title(declaration));
        for fold in declaration.subtree().filter(folds) {
            let (first, last) = between(&lines, fold);
            if first < last {
                println!("    fold {} {first}-{last}, {} nodes", fold.kind(), fold.size());
            }
        }
    }
}

fn main() -> ExitCode {
    let Some(file) = std::env::args().nth(1) else {
        eprintln!("usage: outline FILE");
        return ExitCode::from(2);
    };
    let source = match std::fs::read(&file) {
        Ok(source) => source,
        Err(error) => {
            eprintln!("{file}: {error}");
            return ExitCode::from(2);
        }
    };
    match Reader::default().tree(&source) {
        Ok(tree) => print(tree),
        Err(refusal) => {
            eprintln!("{file}:{}: {refusal}", refusal.place(&source));
            return ExitCode::from(1);
        }
    }
    ExitCode::SUCCESS
}
