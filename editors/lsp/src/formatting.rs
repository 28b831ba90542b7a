//! The one way of writing a file (C-20).

use lekhyundo::print;
use serde_json::{Value, json};

use crate::text::Text;

/// One edit of the whole text; none where the text is its own print, or where it has none.
pub fn formatting(text: &Text) -> Value {
    let source = text.bytes();
    match print(source) {
        Ok(print) if print.as_bytes() != source => {
            json!([{ "range": text.range(0..source.len()), "newText": print }])
        }
        _ => json!([]),
    }
}
