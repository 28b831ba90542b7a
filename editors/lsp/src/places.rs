//! The nodes at a place, and selections that grow by them.

use std::ops::Range;

use lekhyundo::{Node, Tree};
use serde_json::{Value, json};

use crate::{
    reading::Reading,
    text::{Position, Text},
};

/// Selections in one another: `1+1+..` nests 32,000 deep, which neither clients nor writers of JSON follow. The whole file is one of them.
const MOST_NESTED: usize = 100;

/// The nodes from the root down to the smallest that holds a byte: the leaf of C-15, or where there is none the innermost node.
pub fn path(tree: Tree<'_>, at: usize) -> Vec<Node<'_>> {
    match tree.at(at) {
        Some(leaf) => leaf.path().collect(),
        None => inner(tree, at),
    }
}

fn inner(tree: Tree<'_>, at: usize) -> Vec<Node<'_>> {
    let holds = |node: &Node<'_>| node.span().contains(&at);
    let mut path = vec![tree.root()];
    while let Some(child) = path[path.len() - 1].children().rev().find(holds) {
        path.push(child);
    }
    path
}

/// The path at a cursor, which may stand right behind a leaf.
pub fn path_at_cursor(tree: Tree<'_>, at: usize) -> Vec<Node<'_>> {
    let before = at.checked_sub(1).filter(|&before| tree.at(at).is_none() && tree.at(before).is_some());
    path(tree, before.unwrap_or(at))
}

/// LSP's selection range at each position.
pub fn selections(text: &Text, positions: &[Position]) -> Value {
    let reading = Reading::of(text.bytes());
    positions.iter().map(|&position| selection(text, &reading, text.offset(position))).collect()
}

fn selection(text: &Text, reading: &Reading, at: usize) -> Value {
    let whole = 0..text.bytes().len();
    let dropped = reading.dropped.iter().map(|dropped| dropped.range.clone()).find(|bytes| bytes.contains(&at));
    let mut spans = match (dropped, reading.tree()) {
        (Some(bytes), _) => vec![whole, bytes],
        (None, Some(tree)) => path_at_cursor(tree, at).iter().map(|node| node.span()).collect(),
        (None, None) => Vec::from([whole]),
    };
    spans.dedup();
    if spans.len() > MOST_NESTED {
        spans.drain(1..=spans.len() - MOST_NESTED);
    }
    nested(text, &spans)
}

/// A span inside the one before it, and so on.
fn nested(text: &Text, spans: &[Range<usize>]) -> Value {
    spans.iter().fold(Value::Null, |parent, span| {
        let mut selection = json!({ "range": text.range(span.clone()) });
        if !parent.is_null() {
            selection["parent"] = parent;
        }
        selection
    })
}
