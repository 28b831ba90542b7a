use std::{error::Error, fmt};

use crate::{Place, numbered::numbered, sys};

numbered! {
    /// Why something was refused.
    Reason {
        TooLong = 1 "longer than 65,535 bytes",
        HighByte = 2 "byte of 128 or more",
        Shebang = 3 "source begins `#!`",
        NoToken = 4 "no token starts here",
        FString = 5 "f-string in a token list",
        Unusable = 6 "token not usable here",
        Valueless = 7 "literal without a value",
        NoPath = 8 "left side of an assignment is no path",
        TooDeep = 9 "nested too deep",
        NoRoom = 10 "no room",
        EndsEarly = 11 "source ends too early",
        WrongSize = 12 "size of a row wrong",
        NoLeaf = 13 "no leaf there",
        TooManyDigits = 14 "float with too many digits",
        NotTaken = 15 "no such constant, or none that can be worked out",
        ZeroDivisor = 16 "integer divisor zero",
        Unfilled = 17 "sections don't fill the file exactly",
        WrongRow = 18 "row is not that of the source",
        WrongIndex = 19 "index is not that of the declaration",
    }
}

/// Room behind the place for any word of the language with a blank on each side.
const LONGEST_WORD: usize = 16;

/// Room for any report of a file without a name.
const LONGEST_REPORT: usize = 8_192;

/// A number from 1 to 19, its place, and what is needed for 10.
///
/// ```
/// use lekhyundo::{Reader, Reason};
///
/// let source = b"fn f() {\n    if x {y: 1} {}\n}";
/// let refusal = Reader::default().tree(source).unwrap_err();
/// assert_eq!(refusal.reason(), Some(Reason::Unusable));
/// assert_eq!(&source[refusal.start..refusal.end], b":");
/// assert_eq!(refusal.to_string(), "refused 6 at 20..21: token not usable here");
/// assert_eq!(refusal.place(source).to_string(), "2:12");
/// ```
#[derive(Clone, Copy, Debug, PartialEq, Eq, Hash)]
pub struct Refusal {
    /// Of [`Reason`].
    pub number: u64,
    /// The first byte of the place; of 18 and 19 the number of a row or an index.
    pub start: usize,
    /// What is behind the place.
    pub end: usize,
    /// The rows, instructions or bytes that there must be room for; 0 where the number isn't 10.
    pub needed: usize,
}

impl Refusal {
    /// The number by name.
    pub const fn reason(&self) -> Option<Reason> {
        Reason::of(self.number)
    }

    /// What the number means.
    pub const fn meaning(&self) -> &'static str {
        match self.reason() {
            Some(reason) => reason.text(),
            None => "unknown number",
        }
    }

    /// Where in a source it starts. Not for 17 to 19, whose place is no byte of a source.
    pub fn place(&self, source: &[u8]) -> Place {
        Place::of(source, self.start)
    }

    /// What `./check` prints of a refusal of (a): place and message, the line, carets under the place, what could stand there. Its words
    /// are found by trying each, so this takes as long as some 70 readings of the source up to the place.
    ///
    /// ```
    /// let source = b"fn f(,)";
    /// let refusal = lekhyundo::Reader::default().tree(source).unwrap_err();
    /// let lines = ["a.roto:1:6: error[6]: ',' can't stand here", "  fn f(,)", "       ^", "  expected one of a name ')'", ""];
    /// assert_eq!(refusal.report("a.roto", source), lines.join("\n"));
    /// ```
    pub fn report(&self, name: &str, source: &[u8]) -> String {
        let Refusal { number, start, end, needed } = *self;
        let mut room = vec![0; start.min(source.len()) + LONGEST_WORD];
        let mut out = vec![0; name.len() + LONGEST_REPORT];
        let (room_length, out_room) = (room.len(), out.len());
        // SAFETY: each pointer is to that many elements.
        #[rustfmt::skip]
        let count = unsafe {
            sys::lekhyundo_report(
                name.as_ptr(), name.len(), source.as_ptr(), source.len(), number, start, end, needed,
                room.as_mut_ptr(), room_length, out.as_mut_ptr(), out_room,
            )
        };
        String::from_utf8_lossy(&out[..count.min(out_room)]).into_owned()
    }

    /// The words of [`report`](Refusal::report) alone: the message, and on a line of its own what could stand there.
    ///
    /// ```
    /// let source = b"const A: u8 = 300u8;";
    /// let refusal = lekhyundo::Reader::default().tree(source).unwrap_err();
    /// assert_eq!(refusal.message(source), "300 doesn't fit u8 (at most 255)");
    /// ```
    pub fn message(&self, source: &[u8]) -> String {
        let report = self.report("", source);
        let mut lines = report.lines();
        let message = lines.next().and_then(|head| head.split_once("]: ")).map_or("", |(_, message)| message);
        // Behind the line and the carets.
        lines.nth(2).map_or(message.into(), |expected| format!("{message}\n{}", expected.trim_start()))
    }

    /// An answer's count, or the refusal.
    pub(crate) fn or_count([number, start, end, count]: [u64; 4]) -> Result<usize, Refusal> {
        let (start, end, count) = (start as usize, end as usize, count as usize);
        if number == 0 { Ok(count) } else { Err(Refusal { number, start, end, needed: count }) }
    }
}

impl fmt::Display for Refusal {
    fn fmt(&self, f: &mut fmt::Formatter<'_>) -> fmt::Result {
        let Refusal { number, start, end, needed } = self;
        write!(f, "refused {number}")?;
        match self.reason() {
            Some(Reason::NoRoom) => write!(f, ": {}, {needed} needed", self.meaning()),
            _ => write!(f, " at {start}..{end}: {}", self.meaning()),
        }
    }
}

impl Error for Refusal {}
