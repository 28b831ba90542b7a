//! All refusals of a file.

use lekhyundo::{Dropped, Refusal};
use serde_json::{Value, json};

use crate::{
    answers::with,
    reading::{Reading, message, tried_behind},
    text::Text,
};

/// LSP's severity of an error.
const ERROR: u32 = 1;

/// Bytes that words may be tried behind while a client waits for an answer: some milliseconds.
pub const AT_ONCE: usize = 8 << 10;

/// What a message costs beside them.
const EACH: usize = 16;

/// The refusals, and whether each is in `./check`'s words. A message is found by trying words; those for which more than so many bytes would have
/// to be tried behind say what the number means instead.
pub fn diagnostics(text: &Text, mut most: usize) -> (Vec<Value>, bool) {
    let mut all_said = true;
    let reading = Reading::of(text.bytes());
    let diagnostics = reading.dropped.iter().map(|dropped| {
        let cost = tried_behind(dropped) + EACH;
        let said = cost <= most;
        all_said &= said;
        most = most.saturating_sub(cost);
        let words = if said { message(text.bytes(), dropped) } else { dropped.refusal.meaning().into() };
        diagnostic(text, dropped, words)
    });
    (diagnostics.collect(), all_said)
}

fn diagnostic(text: &Text, dropped: &Dropped, message: String) -> Value {
    let Refusal { number, start, end, .. } = dropped.refusal;
    let diagnostic = json!({ "severity": ERROR, "code": number, "source": "lekhyundo", "message": message });
    with(diagnostic, "range", text.range(start..end))
}
