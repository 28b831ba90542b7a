//! Semantic tokens: the pieces of a file as LSP's differences.

use serde_json::{Value, json};

use crate::{
    pieces::pieces,
    reading::Reading,
    text::{Position, Text},
};

pub fn colours(text: &Text) -> Value {
    let reading = Reading::of(text.bytes());
    let mut data = Vec::new();
    let mut last = Position { line: 0, character: 0 };
    for piece in pieces(text.bytes(), &reading) {
        for (at, length) in text.by_lines(piece.bytes.clone()) {
            let from = if at.line == last.line { last.character } else { 0 };
            data.extend([at.line - last.line, at.character - from, length, piece.class as usize, 0]);
            last = at;
        }
    }
    json!({ "data": data })
}
