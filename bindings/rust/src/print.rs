use crate::{MOST_BYTES, Refusal, WIDTH, rows_for, sys};

/// The numbers of the plan, in which rows wait to be written, for each row.
const PLAN: usize = 4;

/// The one way of writing a source's tree (C-20): a space between two tokens, a newline behind `{`, `}` and `;`, literals as they are written, and of
/// parentheses, commas and `;` only those that the tree needs; comments go. Two sources with one tree have one print, and the print of a print is itself.
/// A `test` is a declaration here, and is printed.
///
/// Refused are what [`Reader::tree`](crate::Reader::tree) refuses, `test` apart; 1 where the print would have more than [`MOST_BYTES`]; and 9 where it
/// would pass another limit, with the place in the print: 33 prefixes in a row, which parentheses kept apart in the source.
///
/// ```
/// use lekhyundo::print;
///
/// let text = print(b"fn f(){ (a) + (b*c) // sum\n}")?;
/// assert_eq!(text, "fn f ( ) {\na + b * c }\n");
/// assert_eq!(print(text.as_bytes())?, text);
///
/// let refusal = print(b"fn f( {}").unwrap_err();
/// assert_eq!(refusal.to_string(), "refused 6 at 6..7: token not usable here");
/// # Ok::<(), lekhyundo::Refusal>(())
/// ```
pub fn print(source: &[u8]) -> Result<String, Refusal> {
    let rows = rows_for(source.len());
    let (mut table, mut plan, mut text) = (vec![0; rows * WIDTH], vec![0; rows * PLAN], vec![0; MOST_BYTES]);
    let mut answer = [0; 5];
    // SAFETY: each pointer is to that many elements.
    #[rustfmt::skip]
    unsafe {
        sys::lekhyundo_print(
            source.as_ptr(), source.len(), table.as_mut_ptr(), table.len(), plan.as_mut_ptr(), plan.len(), text.as_mut_ptr(), text.len(),
            answer.as_mut_ptr(), 5,
        )
    };
    let [number, start, end, count, _] = answer;
    text.truncate(Refusal::or_count([number, start, end, count])?);
    Ok(String::from_utf8(text).expect("a print has no byte of 128 or more"))
}
