//! A file's text and the one mapping between its bytes, which the library counts, and LSP's lines and characters.

use std::ops::Range;

use serde_json::{Value, json};

use crate::answers::with;

/// What a client counts in a line.
#[derive(Clone, Copy, Debug, PartialEq, Eq)]
pub enum Encoding {
    Utf8,
    Utf16,
}

impl Encoding {
    pub fn name(self) -> &'static str {
        match self {
            Encoding::Utf8 => "utf-8",
            Encoding::Utf16 => "utf-16",
        }
    }

    fn width(self, character: char) -> usize {
        match self {
            Encoding::Utf8 => character.len_utf8(),
            Encoding::Utf16 => character.len_utf16(),
        }
    }
}

/// A line and a character in it, both from 0.
#[derive(Clone, Copy, Debug, PartialEq, Eq, PartialOrd, Ord)]
pub struct Position {
    pub line: usize,
    pub character: usize,
}

impl Position {
    pub fn of(value: &Value) -> Option<Position> {
        let number = |key| value.get(key)?.as_u64().map(|number| usize::try_from(number).unwrap_or(usize::MAX));
        Some(Position { line: number("line")?, character: number("character")? })
    }

    fn json(self) -> Value {
        json!({ "line": self.line, "character": self.character })
    }
}

/// A text, where its lines start, and how its characters are counted.
#[derive(Debug, PartialEq, Eq)]
pub struct Text {
    content: String,
    starts: Vec<usize>,
    encoding: Encoding,
    /// Behind each character that isn't ASCII, how many bytes more than units there are from the text's start on.
    extra: Vec<(usize, usize)>,
}

impl Text {
    pub fn new(content: String, encoding: Encoding) -> Text {
        let starts = line_starts(content.as_bytes());
        let extra = extra_bytes(&content, encoding);
        Text { content, starts, encoding, extra }
    }

    pub fn bytes(&self) -> &[u8] {
        self.content.as_bytes()
    }

    /// Puts a text in place of the bytes between two positions. A line starts where the two bytes around say so, so only those that the new
    /// text touches are looked at.
    pub fn replace(&mut self, one: Position, other: Position, by: &str) {
        let (one, other) = (self.offset(one), self.offset(other));
        let (from, to) = (one.min(other), one.max(other));
        self.content.replace_range(from..to, by);
        self.extra = extra_bytes(&self.content, self.encoding);
        let (end, first) = (from + by.len(), from.max(1));
        let behind = self.starts.split_off(self.starts.partition_point(|&start| start <= to));
        self.starts.truncate(self.starts.partition_point(|&start| start < first));
        let bytes = self.content.as_bytes();
        self.starts.extend((first..=end).filter(|&start| ends_line(bytes, start - 1)));
        self.starts.extend(behind.iter().map(|start| start - to + end));
    }

    /// The byte at a position; behind the end of a line that end, behind the last line the text's.
    pub fn offset(&self, position: Position) -> usize {
        let Some(&start) = self.starts.get(position.line) else { return self.content.len() };
        let line = &self.content[start..self.line_end(position.line)];
        if self.extra.is_empty() {
            return start + position.character.min(line.len());
        }
        let mut units = 0;
        let behind = |character: char| {
            units += self.encoding.width(character);
            units > position.character
        };
        start + line.find(behind).unwrap_or(line.len())
    }

    /// The position of a byte: that of its character, and of the end of its line where the byte is of what ends the line.
    pub fn position(&self, at: usize) -> Position {
        let at = (0..=at.min(self.content.len())).rev().find(|&at| self.content.is_char_boundary(at)).unwrap_or(0);
        let line = self.line(at);
        let (start, end) = (self.starts[line], at.min(self.line_end(line)));
        Position { line, character: end - start - (self.extra_before(end) - self.extra_before(start)) }
    }

    fn extra_before(&self, at: usize) -> usize {
        let behind = self.extra.partition_point(|&(end, _)| end <= at);
        behind.checked_sub(1).map_or(0, |last| self.extra[last].1)
    }

    /// The line that a byte is on.
    pub fn line(&self, at: usize) -> usize {
        self.starts.partition_point(|&start| start <= at) - 1
    }

    /// Where a line ends, what ends it apart.
    pub fn line_end(&self, line: usize) -> usize {
        let start = self.starts[line];
        let Some(&next) = self.starts.get(line + 1) else { return self.content.len() };
        let bytes = &self.bytes()[start..next];
        start + bytes.strip_suffix(b"\r\n").unwrap_or(&bytes[..bytes.len() - 1]).len()
    }

    /// Bytes as LSP's range: whole characters.
    pub fn range(&self, bytes: Range<usize>) -> Value {
        let end = bytes.end.min(self.content.len());
        let end = (end..=self.content.len()).find(|&at| self.content.is_char_boundary(at)).unwrap_or(end);
        let start = with(json!({}), "start", self.position(bytes.start).json());
        with(start, "end", self.position(end).json())
    }

    /// The parts of some bytes by lines: position and length in characters, none empty.
    pub fn by_lines(&self, bytes: Range<usize>) -> impl Iterator<Item = (Position, usize)> {
        let lines = self.line(bytes.start)..=self.line(bytes.end);
        lines.filter_map(move |line| {
            let first = self.position(bytes.start.max(self.starts[line]));
            let length = self.position(bytes.end.min(self.line_end(line))).character.checked_sub(first.character)?;
            (length > 0).then_some((first, length))
        })
    }
}

fn extra_bytes(content: &str, encoding: Encoding) -> Vec<(usize, usize)> {
    if content.is_ascii() {
        return Vec::new();
    }
    let mut extra = 0;
    let others = content.char_indices().filter(|(_, character)| !character.is_ascii());
    let behind = others.map(|(at, character)| {
        extra += character.len_utf8() - encoding.width(character);
        (at + character.len_utf8(), extra)
    });
    behind.collect()
}

fn line_starts(bytes: &[u8]) -> Vec<usize> {
    std::iter::once(0).chain((1..=bytes.len()).filter(|&start| ends_line(bytes, start - 1))).collect()
}

/// Whether a byte is the last of a line by the protocol: a newline, or a carriage return without one.
fn ends_line(bytes: &[u8], at: usize) -> bool {
    bytes[at] == b'\n' || (bytes[at] == b'\r' && bytes.get(at + 1) != Some(&b'\n'))
}

#[cfg(test)]
mod tests {
    use super::{Encoding, Position, Text};

    const MIXED: &str = "a\u{e9}\u{1f600}b\n\n\r\n\t\u{20ac}\rlast \u{1f600}";

    fn at(line: usize, character: usize) -> Position {
        Position { line, character }
    }

    /// Every place that a position names goes there and back.
    #[test]
    fn there_and_back() {
        for encoding in [Encoding::Utf8, Encoding::Utf16] {
            let text = Text::new(MIXED.into(), encoding);
            let inside = MIXED.find("\r\n").unwrap() + 1;
            let places = (0..=MIXED.len()).filter(|&place| MIXED.is_char_boundary(place) && place != inside);
            let positions: Vec<_> = places.clone().map(|place| text.position(place)).collect();
            assert!(positions.is_sorted() && positions.windows(2).all(|two| two[0] != two[1]));
            assert!(positions.iter().zip(places).all(|(&position, place)| text.offset(position) == place));
        }
    }

    #[test]
    fn units() {
        let utf16 = Text::new(MIXED.into(), Encoding::Utf16);
        let utf8 = Text::new(MIXED.into(), Encoding::Utf8);
        let b = MIXED.find('b').unwrap();
        assert_eq!((utf16.position(b), utf8.position(b)), (at(0, 4), at(0, 7)));
        // Inside a character a place is the character's, and between CR and LF the line's end.
        assert_eq!((utf16.position(4), utf16.offset(at(0, 3))), (at(0, 2), 3));
        assert_eq!(utf16.position(MIXED.find("\r\n").unwrap() + 1), at(2, 0));
        assert_eq!((utf8.position(MIXED.len()), utf16.position(MIXED.len())), (at(4, 9), at(4, 7)));
    }

    #[test]
    fn clamped() {
        for content in [MIXED, "ab\nc\n"] {
            let text = Text::new(content.into(), Encoding::Utf16);
            assert_eq!(text.offset(at(0, 1_000)), content.find('\n').unwrap());
            assert_eq!(text.offset(at(1_000, 0)), content.len());
            assert_eq!(text.position(1_000), text.position(content.len()));
        }
    }

    /// Any replacement leaves what the new text alone gives.
    #[test]
    fn replaced() {
        let pieces = ["", "\n", "\r", "\r\n", "x", "\u{e9}", "\n\r", "x\ry\n"];
        let content = "a\r\n\r\nb\n\u{e9}\r\r\nc";
        let places: Vec<_> = (0..=content.len()).filter(|&at| content.is_char_boundary(at)).collect();
        for (&from, by) in places.iter().flat_map(|from| pieces.map(|by| (from, by))) {
            for &to in places.iter().filter(|&&to| from <= to) {
                let mut text = Text::new(content.into(), Encoding::Utf16);
                let (one, other) = (text.position(from), text.position(to));
                let bytes = text.offset(one)..text.offset(other);
                text.replace(other, one, by);
                let mut whole = String::from(content);
                whole.replace_range(bytes, by);
                assert_eq!(text, Text::new(whole, Encoding::Utf16));
            }
        }
    }
}
