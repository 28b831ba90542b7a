use std::iter::FusedIterator;

use crate::{MOST_BYTES, Refusal, numbered::numbered, sys};

numbered! {
    /// What a token is.
    TokenCode {
        Ipv6 = 1 "IPv6 address",
        Ipv4 = 2 "IPv4 address",
        /// `==` and the like.
        TwoSigns = 3 "two signs",
        OneSign = 4 "one sign",
        Asn = 5 "AS number",
        Hex = 6 "hex number",
        Integer = 7 "integer",
        Float = 8 "float",
        String = 9 "string",
        Char = 10 "char",
        Keyword = 11 "keyword",
        /// `true` and `false`.
        Bool = 12 "bool",
        Name = 13 "name",
    }
}

/// A token's code and its bytes, from `start` up to `end`.
#[derive(Clone, Copy, Debug, PartialEq, Eq, Hash)]
pub struct Token {
    /// What it is.
    pub code: TokenCode,
    /// Its first byte.
    pub start: usize,
    /// The byte behind its last.
    pub end: usize,
}

impl Token {
    /// Its bytes in the source that it is of; none where that is another, shorter one.
    pub fn text<'a>(&self, source: &'a [u8]) -> &'a [u8] {
        source.get(self.start..self.end).unwrap_or_default()
    }

    fn of(code: u64, start: usize, end: usize) -> Token {
        Token { code: TokenCode::of(code).expect("a token's code is one of 13"), start, end }
    }
}

/// (c) The tokens of a source, all or none: 5 at an f-string, which only trees and expressions have.
///
/// ```
/// use lekhyundo::{Token, TokenCode, token_list};
///
/// let keyword = Token { code: TokenCode::Keyword, start: 0, end: 2 };
/// let address = Token { code: TokenCode::Ipv6, start: 3, end: 6 };
/// assert_eq!(token_list(b"if ::1"), Ok(vec![keyword, address]));
/// assert_eq!(token_list(b"if '").unwrap_err().to_string(), "refused 4 at 3..4: no token starts here");
/// ```
pub fn token_list(source: &[u8]) -> Result<Vec<Token>, Refusal> {
    // No source that is accepted has more tokens than bytes.
    let mut list = vec![sys::Token::default(); source.len().min(MOST_BYTES)];
    let mut answer = [0; 4];
    // SAFETY: each pointer is to that many elements.
    unsafe {
        sys::lekhyundo_token_list(source.as_ptr(), source.len(), list.as_mut_ptr(), list.len(), answer.as_mut_ptr(), 4)
    };
    let count = Refusal::or_count(answer)?;
    Ok(list[..count].iter().map(|token| Token::of(token.code, token.start, token.end)).collect())
}

/// The tokens of a source one by one, without allocation: each is read when it is asked for, from the end of the one before. So what
/// stands behind a place isn't looked at, and 1 to 3, which speak of the whole source, aren't given: a comment may hold any bytes.
/// A refusal (4, or 5 at an f-string) is the last item.
///
/// ```
/// use lekhyundo::{TokenCode, tokens};
///
/// let source = b"accept // fine\n1.5";
/// let codes: Result<Vec<_>, _> = tokens(source).map(|token| token.map(|token| token.code)).collect();
/// assert_eq!(codes, Ok(vec![TokenCode::Keyword, TokenCode::Float]));
/// ```
pub fn tokens(source: &[u8]) -> Tokens<'_> {
    Tokens::starting_at(source, 0)
}

/// See [`tokens`].
#[derive(Clone, Debug)]
pub struct Tokens<'a> {
    source: &'a [u8],
    /// Where the next one is looked for; none behind a refusal and the end.
    at: Option<usize>,
}

impl<'a> Tokens<'a> {
    /// Those at or behind a place, which should be no place inside a token, a comment or an f-string's text.
    pub fn starting_at(source: &'a [u8], at: usize) -> Self {
        Tokens { source, at: Some(at) }
    }
}

impl Iterator for Tokens<'_> {
    type Item = Result<Token, Refusal>;

    fn next(&mut self) -> Option<Self::Item> {
        let mut out = [0; 5];
        // SAFETY: as above.
        unsafe { sys::lekhyundo_step(self.source.as_ptr(), self.source.len(), self.at.take()?, out.as_mut_ptr(), 5) };
        let [number, start, end, code, _] = out;
        match Refusal::or_count([number, start, end, 0]) {
            Ok(_) => {
                self.at = Some(end as usize);
                Some(Ok(Token::of(code, start as usize, end as usize)))
            }
            Err(_) if number == ENDS => None,
            Err(refusal) => Some(Err(refusal)),
        }
    }
}

impl FusedIterator for Tokens<'_> {}

/// What a step says at the end of the source.
const ENDS: u64 = crate::Reason::EndsEarly.number();
