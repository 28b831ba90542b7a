//! Stand-in for `parser/error.rs`: what a refusal was about, kept so far that it has a number of document 01.

use std::fmt::Display;

use super::meta::Span;

#[derive(Clone, Debug, PartialEq)]
pub enum ParseErrorKind {
    EndOfInput,
    FailedToParseEntireInput,
    InvalidToken,
    Expected,
    InvalidLiteral,
    Custom(String),
    /// Only the oracle's steps make this one: document 01's limits.
    TooDeep,
}

#[derive(Clone, Debug)]
pub struct Hint {
    pub location: Span,
    pub text: String,
}

#[derive(Clone, Debug)]
pub struct ParseError {
    pub kind: ParseErrorKind,
    pub location: Span,
    pub note: Option<String>,
    pub hints: Vec<Hint>,
}

impl ParseError {
    pub fn new(kind: ParseErrorKind, location: Span) -> Self {
        ParseError { kind, location, note: None, hints: Vec::new() }
    }

    pub fn expected(_expected: impl Display, _got: impl Display, span: Span) -> Self {
        Self::new(ParseErrorKind::Expected, span)
    }

    pub fn invalid_literal(
        _description: impl Display,
        _token: impl Display,
        _inner: impl Display,
        span: Span,
    ) -> Self {
        Self::new(ParseErrorKind::InvalidLiteral, span)
    }

    pub fn escape(_inner: &rustc_literal_escaper::EscapeError, span: Span) -> Self {
        Self::new(ParseErrorKind::InvalidLiteral, span)
    }

    pub fn custom(description: impl Display, _label: impl Display, span: Span) -> Self {
        Self::new(ParseErrorKind::Custom(description.to_string()), span)
    }

    pub fn with_note(mut self, note: impl Display) -> Self {
        self.note = Some(note.to_string());
        self
    }

    /// The number of document 01 for this refusal. Of the two `custom` errors one is about the left side of an
    /// assignment (8), the other about chained operators (6).
    pub fn number(&self) -> u64 {
        match &self.kind {
            ParseErrorKind::InvalidToken => 4,
            ParseErrorKind::Expected | ParseErrorKind::FailedToParseEntireInput => 6,
            ParseErrorKind::InvalidLiteral => 7,
            ParseErrorKind::Custom(text) if text.starts_with("left-hand side") => 8,
            ParseErrorKind::Custom(_) => 6,
            ParseErrorKind::TooDeep => 9,
            ParseErrorKind::EndOfInput => 11,
        }
    }
}
