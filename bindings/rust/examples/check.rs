//! check FILE ..: reads filters, and prints for each that is refused `FILE:LINE:COLUMN: refused NUMBER: what that means`, the line
//! and a caret under the place. Exits with 1 if any file is refused, with 2 if one can't be read.

use std::process::ExitCode;

use lekhyundo::{Reader, Refusal};

fn report(file: &str, source: &[u8], refusal: &Refusal) {
    let place = refusal.place(source);
    println!("{file}:{place}: refused {}: {}", refusal.number, refusal.meaning());
    let at = refusal.start.min(source.len());
    let start = at + 1 - place.column;
    let end = source[start..].iter().position(|&byte| byte == b'\n').map_or(source.len(), |at| start + at);
    let text: String =
        String::from_utf8_lossy(&source[start..end]).replace(|c: char| c.is_control() && c != '\t', "\u{fffd}");
    // Tabs are kept in front of the caret, so that it stands under its column however wide they are.
    let indent: String = source[start..at].iter().map(|&byte| if byte == b'\t' { '\t' } else { ' ' }).collect();
    let width = refusal.end.min(end).saturating_sub(refusal.start).max(1);
    println!("{text}\n{indent}{}", "^".repeat(width));
}

fn main() -> ExitCode {
    let mut reader = Reader::default();
    let (mut refused, mut unread) = (false, false);
    for file in std::env::args().skip(1) {
        let source = match std::fs::read(&file) {
            Ok(source) => source,
            Err(error) => {
                eprintln!("{file}: {error}");
                unread = true;
                continue;
            }
        };
        if let Err(refusal) = reader.tree(&source) {
            report(&file, &source, &refusal);
            refused = true;
        }
    }
    if unread {
        ExitCode::from(2)
    } else if refused {
        ExitCode::from(1)
    } else {
        ExitCode::SUCCESS
    }
}
