//! The declarations of a file with their names and spans.

use std::ops::Range;

use lekhyundo::{Kind, Node, Tokens};
use serde_json::{Value, json};

use crate::{reading::Reading, text::Text};

/// LSP's numbers of symbol kinds.
const MODULE: u32 = 2;
const FUNCTION: u32 = 12;
const CONSTANT: u32 = 14;

/// As a tree, or, for a client that knows none, as a list with the file's name.
pub fn symbols(text: &Text, flat_in: Option<&str>) -> Value {
    let reading = Reading::of(text.bytes());
    let Some(tree) = reading.tree() else { return json!([]) };
    tree.root().children().map(|declaration| symbol(text, declaration, flat_in)).collect()
}

fn symbol(text: &Text, declaration: Node<'_>, flat_in: Option<&str>) -> Value {
    let (name, place) = named(declaration);
    let (kind, range) = (symbol_kind(declaration), text.range(declaration.span()));
    match flat_in {
        Some(uri) => json!({ "name": name, "kind": kind, "location": { "uri": uri, "range": range } }),
        None => json!({
            "name": name,
            "detail": first_word(declaration),
            "kind": kind,
            "range": range,
            "selectionRange": text.range(place),
        }),
    }
}

fn symbol_kind(declaration: Node<'_>) -> u32 {
    match declaration.kind() {
        Kind::Import => MODULE,
        Kind::Const => CONSTANT,
        _ => FUNCTION,
    }
}

/// What a declaration declares, or an import takes in, and where that stands.
fn named(declaration: Node<'_>) -> (String, Range<usize>) {
    let name = declaration.children().find(|child| child.name().is_some()).unwrap_or(declaration);
    (name.text().split_ascii_whitespace().collect::<Vec<_>>().join(" "), name.span())
}

/// The word that a declaration begins with; an import's span doesn't hold its own.
fn first_word(declaration: Node<'_>) -> &str {
    if declaration.kind() == Kind::Import {
        return Kind::Import.text();
    }
    let source = declaration.tree().source();
    let word = Tokens::starting_at(source.as_bytes(), declaration.start()).next();
    word.and_then(Result::ok).map_or("", |word| &source[word.start..word.end])
}
