//! What can be folded: blocks, records and matches over more than two lines, imports in a row, comments in a row.

use lekhyundo::{Dropped, Kind, Node};
use serde_json::{Value, json};

use crate::{
    pieces::{Class, pieces},
    reading::Reading,
    text::Text,
};

/// The first line and the last that is hidden behind it, and LSP's name of the kind, if there is one.
type Fold = (usize, usize, Option<&'static str>);

pub fn folds(text: &Text) -> Value {
    let reading = Reading::of(text.bytes());
    let mut all = comments(text, &reading);
    if let Some(tree) = reading.tree() {
        all.extend(tree.nodes().filter(bracketed).map(|node| inside(text, node)));
        all.extend(imports(text, tree.root(), &reading.dropped));
    }
    all.retain(|(first, last, _)| first < last);
    all.sort();
    all.dedup();
    all.into_iter().map(fold).collect()
}

fn fold((first, last, kind): Fold) -> Value {
    let mut fold = json!({ "startLine": first, "endLine": last });
    if let Some(kind) = kind {
        fold["kind"] = kind.into();
    }
    fold
}

fn bracketed(node: &Node<'_>) -> bool {
    matches!(node.kind(), Kind::Block | Kind::Match | Kind::Record | Kind::RecordType)
}

/// The lines of a node but for that of its closing bracket, which stays in view.
fn inside(text: &Text, node: Node<'_>) -> Fold {
    let last = text.line(node.end().saturating_sub(1));
    (text.line(node.start()), last.saturating_sub(1), None)
}

/// Imports with nothing dropped between them.
fn imports(text: &Text, root: Node<'_>, dropped: &[Dropped]) -> Vec<Fold> {
    let whole = |from: usize, to: usize| {
        let behind = dropped.partition_point(|dropped| dropped.range.start < from);
        dropped.get(behind).is_none_or(|dropped| to <= dropped.range.start)
    };
    let declarations: Vec<_> = root.children().collect();
    let both = |one: &Node<'_>, next: &Node<'_>| [one, next].iter().all(|node| node.kind() == Kind::Import);
    let rows = declarations.chunk_by(|one, next| both(one, next) && whole(one.end(), next.start()));
    let lines = |row: &[Node<'_>]| (text.line(row[0].start()), text.line(row[row.len() - 1].end()), Some("imports"));
    rows.filter(|row| row[0].kind() == Kind::Import).map(lines).collect()
}

/// Lines that hold nothing but a comment, one behind another.
fn comments(text: &Text, reading: &Reading) -> Vec<Fold> {
    let pieces = pieces(text.bytes(), reading);
    let lines = pieces.iter().map(|piece| (text.line(piece.bytes.start), text.line(piece.bytes.end), piece.class));
    let mut behind = None;
    let mut alone = Vec::new();
    for (first, last, class) in lines {
        if class == Class::Comment && behind != Some(first) {
            alone.push(first);
        }
        behind = Some(last);
    }
    let rows = alone.chunk_by(|one, next| one + 1 == *next);
    rows.map(|row| (row[0], row[row.len() - 1], Some("comment"))).collect()
}
