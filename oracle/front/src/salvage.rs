//! A broken file salvaged (C-23), by document 02's words alone: after each drop the text is read anew from its first byte, with the dropped
//! bytes as spaces. What reads a source is handed in.

use protocol::{Range, Refusal, Row, Salvaged};

/// "the whole word `const`, `fn`, `filter`, `filtermap` or `import`".
const WORDS: [&[u8]; 5] = [b"const", b"fn", b"filter", b"filtermap", b"import"];

/// "drop the bytes .. and go on", until nothing refuses. "1, 2, 3 stop the tool".
pub fn salvage(source: &[u8], read: impl Fn(&[u8]) -> Result<Vec<Row>, Refusal>) -> Result<Salvaged, Refusal> {
    let mut text = source.to_vec();
    let mut ranges = Vec::new();
    loop {
        let refusal = match read(&text) {
            Ok(rows) => return Ok(Salvaged { rows, ranges }),
            Err(refusal) if refusal.number <= 3 => return Err(refusal),
            Err(refusal) => refusal,
        };
        let start = first_byte(&text, &read);
        let end = next_line(source, (refusal.start as usize).max(start + 1));
        text[start..end].fill(b' ');
        ranges.push(Range { start: start as u64, end: end as u64, refusal });
    }
}

/// "the first of the declaration it falls in, or of the refused token where none has begun": the longest part of the text that is read to its
/// end has whole declarations, and the blanks and comments behind them.
fn first_byte(text: &[u8], read: impl Fn(&[u8]) -> Result<Vec<Row>, Refusal>) -> usize {
    (0..text.len()).rev().find(|end| read(&text[..*end]).is_ok()).expect("an empty text is read")
}

/// "the next line, starting at or after .., that begins, at column 0, with the whole word .., or to the end".
fn next_line(source: &[u8], from: usize) -> usize {
    let begins = |at: usize| (at == 0 || source[at - 1] == b'\n') && WORDS.iter().any(|word| is_word(&source[at..], word));
    (from..source.len()).find(|at| begins(*at)).unwrap_or(source.len())
}

fn is_word(text: &[u8], word: &[u8]) -> bool {
    let goes_on = |byte: &u8| byte.is_ascii_alphanumeric() || *byte == b'_';
    text.strip_prefix(word).is_some_and(|rest| !rest.first().is_some_and(goes_on))
}
