use crate::{Refusal, WIDTH, rows_for, sys};

/// What a constant comes to: its declared type says which of the three. No integer is below -9223372036854775808 or above
/// 18446744073709551615.
#[derive(Clone, Copy, Debug, PartialEq)]
pub enum Constant {
    /// Of a type from `i8` to `u64`.
    Integer(i128),
    /// Of type `f64`.
    Float(f64),
    /// Of type `bool`.
    Bool(bool),
}

/// Instructions that are enough for any constant, and the numbers of each.
const MOST_INSTRUCTIONS: usize = 1_024;
const INSTRUCTION: usize = 5;

/// The declared types by their numbers in an answer: i8 to i64, then u8 to u64 between, f64 and bool.
const SIGNED_FIRST: u64 = 1;
const SIGNED_LAST: u64 = 4;
const F64: u64 = 10;
const BOOL: u64 = 12;

/// The value of the `const` declaration with a number, from 0, in the order of the source. Integers wrap at the declared width; `&&` and
/// `||` evaluate both sides. Besides the source's own refusals: 15 where there is no such constant, where its expression has over 1,024
/// rows, where its type is none of the ten, and at the first row with a form that isn't taken, a wrong type or too large a literal; 14
/// there for a float of too many digits; 16 at the operator whose integer divisor is zero.
///
/// ```
/// use lekhyundo::{Constant, Reason, constant};
///
/// let source = b"const LIMIT: u8 = 3 * 8; const SHARE: f64 = 1.0 / 4.0; const OPEN: bool = 24 <= 32; const BAD: i8 = 1 / 0;";
/// assert_eq!(constant(source, 0), Ok(Constant::Integer(24)));
/// assert_eq!(constant(source, 1), Ok(Constant::Float(0.25)));
/// assert_eq!(constant(source, 2), Ok(Constant::Bool(true)));
/// let refusal = constant(source, 3).unwrap_err();
/// assert_eq!(refusal.reason(), Some(Reason::ZeroDivisor));
/// assert_eq!(&source[refusal.start..refusal.end], b"1 / 0");
/// assert_eq!(constant(source, 4).unwrap_err().reason(), Some(Reason::NotTaken));
/// ```
pub fn constant(source: &[u8], n: u64) -> Result<Constant, Refusal> {
    let mut table = vec![0; rows_for(source.len()) * WIDTH];
    let mut list = vec![0; MOST_INSTRUCTIONS * INSTRUCTION];
    let mut answer = [0; 6];
    let (rows, room) = (table.len(), list.len());
    // SAFETY: each pointer is to that many elements.
    #[rustfmt::skip]
    unsafe {
        sys::lekhyundo_constant(
            source.as_ptr(), source.len(), n, table.as_mut_ptr(), rows, list.as_mut_ptr(), room, answer.as_mut_ptr(), 6,
        )
    };
    let [number, start, end, count, kind, bits] = answer;
    Refusal::or_count([number, start, end, count])?;
    Ok(match kind {
        SIGNED_FIRST..=SIGNED_LAST => Constant::Integer((bits as i64).into()),
        F64 => Constant::Float(f64::from_bits(bits)),
        BOOL => Constant::Bool(bits == 1),
        _ => Constant::Integer(bits.into()),
    })
}
