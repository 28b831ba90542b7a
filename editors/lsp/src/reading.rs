//! What the library says of a file (C-23): the tree of what it keeps, and what it drops with the refusal of each.

use lekhyundo::{Dropped, Reason, Refusal, Salvage, Tree, salvage};

pub struct Reading {
    /// None where nothing could be read (1, 2 and 3).
    kept: Option<Salvage>,
    pub dropped: Vec<Dropped>,
}

impl Reading {
    pub fn of(source: &[u8]) -> Reading {
        match salvage(source) {
            Ok(mut salvage) => {
                let dropped = std::mem::take(&mut salvage.dropped);
                Reading { kept: Some(salvage), dropped }
            }
            Err(refusal) => Reading { kept: None, dropped: vec![Dropped { range: 0..source.len(), refusal }] },
        }
    }

    /// The tree of what is kept, in a source with spaces for what is dropped.
    pub fn tree(&self) -> Option<Tree<'_>> {
        self.kept.as_ref().map(Salvage::tree)
    }
}

/// What `./check` says of what is dropped. It begins as a declaration does, so what could stand at the place is seen from there on.
pub fn message(source: &[u8], dropped: &Dropped) -> String {
    let from = dropped.range.start;
    let Refusal { start, end, .. } = dropped.refusal;
    let refusal = Refusal { start: start - from, end: end - from, ..dropped.refusal };
    refusal.message(&source[from..])
}

/// How many bytes words are tried behind for a message.
pub fn tried_behind(dropped: &Dropped) -> usize {
    match dropped.refusal.reason() {
        Some(Reason::Unusable | Reason::EndsEarly) => dropped.refusal.start - dropped.range.start,
        _ => 0,
    }
}
