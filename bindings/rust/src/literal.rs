use crate::{Kind, Refusal, Row, sys};

/// (d) The text of a name row; empty for any other row and for a span that doesn't fit.
pub fn name<'a>(source: &'a [u8], row: &Row) -> &'a [u8] {
    let (start, end) = (row[1] as usize, row[2] as usize);
    // SAFETY: the pointer is to that many elements.
    let length = unsafe { sys::lekhyundo_name(source.as_ptr(), source.len(), row[0], start, end) };
    if length == 0 { &source[..0] } else { &source[start..start + length] }
}

/// (e) A string token, quotes included, decoded to UTF-8.
///
/// ```
/// assert_eq!(lekhyundo::decode(br#""caf\u{e9}""#)?, "café".as_bytes());
/// # Ok::<(), lekhyundo::Refusal>(())
/// ```
pub fn decode(token: &[u8]) -> Result<Vec<u8>, Refusal> {
    let mut out = vec![0; token.len()];
    let mut answer = [0; 4];
    // SAFETY: as above.
    unsafe { sys::lekhyundo_decode(token.as_ptr(), token.len(), out.as_mut_ptr(), out.len(), answer.as_mut_ptr(), 4) };
    out.truncate(Refusal::or_count(answer)?);
    Ok(out)
}

/// The number of a float literal, of the width that its suffix names; an f64 without one.
#[derive(Clone, Copy, Debug, PartialEq)]
pub enum Float {
    /// With the suffix `f32`.
    F32(f32),
    /// With the suffix `f64` or none.
    F64(f64),
}

/// The float nearest to the decimal that one float literal writes, ties to even; 7 for bytes that are none, 14 for more than 19 digits.
///
/// ```
/// use lekhyundo::{Float, float};
///
/// assert_eq!(float(b"0.1"), Ok(Float::F64(0.1)));
/// assert_eq!(float(b"0.1f32"), Ok(Float::F32(0.1)));
/// ```
pub fn float(literal: &[u8]) -> Result<Float, Refusal> {
    let mut answer = [0; 5];
    // SAFETY: as above.
    unsafe { sys::lekhyundo_float(literal.as_ptr(), literal.len(), answer.as_mut_ptr(), 5) };
    let [number, start, end, width, bits] = answer;
    Refusal::or_count([number, start, end, 0])?;
    Ok(if width == 32 { Float::F32(f32::from_bits(bits as u32)) } else { Float::F64(f64::from_bits(bits)) })
}

/// The number of a float's row, a refusal placed at it; 7 for any other row and for a span that doesn't fit.
pub fn float_of(source: &[u8], row: &Row) -> Result<Float, Refusal> {
    let (start, end) = (row[1] as usize, row[2] as usize);
    let text = source.get(start..end).filter(|_| row[0] == Kind::Float.number());
    float(text.unwrap_or_default()).map_err(|refusal| Refusal { start, end, ..refusal })
}
