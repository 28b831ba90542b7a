//! Stand-in for the crate `rustc_literal_escaper`, by the Rust Reference ("Tokens": character
//! and string literals, their escapes, string continuation).

use std::ops::Range;

#[derive(Clone, Copy, Debug, PartialEq, Eq)]
pub enum EscapeError {
    ZeroChars,
    MoreThanOneChar,
    LoneSlash,
    InvalidEscape,
    BareCarriageReturn,
    EscapeOnlyChar,
    HexEscape,
    UnicodeEscape,
}

impl EscapeError {
    /// The library's warnings are not made here, so each of these refuses.
    pub fn is_fatal(&self) -> bool {
        true
    }
}

type Chars<'a> = std::iter::Peekable<std::str::CharIndices<'a>>;

pub fn unescape_char(source: &str) -> Result<char, EscapeError> {
    let mut chars = source.char_indices().peekable();
    let (_, first) = chars.next().ok_or(EscapeError::ZeroChars)?;
    let value = match first {
        '\\' => escape(&mut chars)?,
        '\n' | '\t' | '\'' => return Err(EscapeError::EscapeOnlyChar),
        '\r' => return Err(EscapeError::BareCarriageReturn),
        other => other,
    };
    match chars.next() {
        None => Ok(value),
        Some(_) => Err(EscapeError::MoreThanOneChar),
    }
}

pub fn unescape_str(source: &str, mut each: impl FnMut(Range<usize>, Result<char, EscapeError>)) {
    let mut chars = source.char_indices().peekable();
    while let Some((start, c)) = chars.next() {
        let value = match c {
            '\\' if chars.next_if(|next| next.1 == '\n').is_some() => {
                while chars.next_if(|next| matches!(next.1, '\t' | '\n' | '\r' | ' ')).is_some() {}
                continue;
            }
            '\\' => escape(&mut chars),
            '\r' => Err(EscapeError::BareCarriageReturn),
            '"' => Err(EscapeError::EscapeOnlyChar),
            other => Ok(other),
        };
        let end = chars.peek().map_or(source.len(), |next| next.0);
        each(start..end, value);
    }
}

/// What stands after a backslash.
fn escape(chars: &mut Chars<'_>) -> Result<char, EscapeError> {
    let (_, c) = chars.next().ok_or(EscapeError::LoneSlash)?;
    match c {
        'n' => Ok('\n'),
        'r' => Ok('\r'),
        't' => Ok('\t'),
        '\\' => Ok('\\'),
        '0' => Ok('\0'),
        '\'' => Ok('\''),
        '"' => Ok('"'),
        'x' => hex_escape(chars),
        'u' => unicode_escape(chars),
        _ => Err(EscapeError::InvalidEscape),
    }
}

fn hex_escape(chars: &mut Chars<'_>) -> Result<char, EscapeError> {
    let mut value = 0;
    for _ in 0..2 {
        let digit = chars.next().and_then(|next| next.1.to_digit(16));
        value = value * 16 + digit.ok_or(EscapeError::HexEscape)?;
    }
    if value > 0x7f {
        return Err(EscapeError::HexEscape);
    }
    char::from_u32(value).ok_or(EscapeError::HexEscape)
}

fn unicode_escape(chars: &mut Chars<'_>) -> Result<char, EscapeError> {
    let refused = EscapeError::UnicodeEscape;
    chars.next_if(|next| next.1 == '{').ok_or(refused)?;
    let (mut value, mut digits) = (0u32, 0);
    loop {
        let (_, c) = chars.next().ok_or(refused)?;
        match c {
            '_' if digits > 0 => {}
            '}' if digits > 0 => return char::from_u32(value).ok_or(refused),
            _ => {
                digits += 1;
                let digit = c.to_digit(16).filter(|_| digits <= 6).ok_or(refused)?;
                value = value * 16 + digit;
            }
        }
    }
}
