//! The functions of liblekhyundo.a as C sees them; `include/lekhyundo.h` says what each writes.
//!
//! They are unsafe for one reason: each pointer must be to as many elements as the number behind it says, not null and aligned, also
//! for none; what is lent to be written to is nobody else's meanwhile. Nothing is asked of the elements, and no pointer is kept.

/// A token as the list of (c) has it; the code is a number here, since zero tokens fill the list.
#[repr(C)]
#[derive(Clone, Copy, Debug, Default, PartialEq, Eq)]
pub struct Token {
    /// Of [`TokenCode`](crate::TokenCode), or 0.
    pub code: u64,
    /// Its first byte.
    pub start: usize,
    /// The byte behind its last.
    pub end: usize,
}

/// What (a) and (b) are: a source, a table and an answer of four numbers.
pub type Entry = unsafe extern "C" fn(*const u8, usize, *mut u64, usize, *mut u64, usize);

#[rustfmt::skip]
unsafe extern "C" {
    /// (a) into `table`, seven numbers a row; answer: number, start, end, rows.
    pub fn lekhyundo_tree(source: *const u8, length: usize, table: *mut u64, room: usize, answer: *mut u64, four: usize);
    /// (b) likewise.
    pub fn lekhyundo_expression(source: *const u8, length: usize, table: *mut u64, room: usize, answer: *mut u64, four: usize);
    /// (c) into `list`; answer: number, start, end, tokens.
    pub fn lekhyundo_token_list(source: *const u8, length: usize, list: *mut Token, room: usize, answer: *mut u64, four: usize);
    /// The same answer with room for so many tokens, without a list.
    pub fn lekhyundo_tokens(source: *const u8, length: usize, room: usize, answer: *mut u64, four: usize);
    /// The token at or behind a place; out: 0, start, end, code, word; or 4, 5 or 11, start, end, 0, 0.
    pub fn lekhyundo_step(source: *const u8, length: usize, at: usize, out: *mut u64, five: usize);
    /// (d): how long the text of a name row is, which starts at `start`.
    pub fn lekhyundo_name(source: *const u8, length: usize, kind: u64, start: usize, end: usize) -> usize;
    /// (e) into `out`; answer: number, start, end, bytes.
    pub fn lekhyundo_decode(source: *const u8, length: usize, out: *mut u8, room: usize, answer: *mut u64, four: usize);
    /// The value of a token of a code; out: 0, kind, value, detail; or 7 and zeros.
    pub fn lekhyundo_literal(source: *const u8, length: usize, code: u64, start: usize, end: usize, out: *mut u64, four: usize);
    /// C-17; answer: number, start, end, width, bits.
    pub fn lekhyundo_float(literal: *const u8, length: usize, answer: *mut u64, five: usize);
    /// C-15; answer: number, start, end, index.
    pub fn lekhyundo_at(table: *const u64, length: usize, position: u64, answer: *mut u64, four: usize);
    /// C-18; answer: number, start, end, instructions, type, bits.
    pub fn lekhyundo_constant(
        source: *const u8, length: usize, number: u64, table: *mut u64, room: usize, list: *mut u64, list_room: usize,
        answer: *mut u64, six: usize,
    );
    /// C-21, the rows in `table`; answer: number, start, end, rows, tests.
    pub fn lekhyundo_table_check(file: *const u8, length: usize, table: *mut u64, room: usize, answer: *mut u64, five: usize);
    /// C-21, the rows in `table`; answer: number, start, end, bytes.
    pub fn lekhyundo_table_write(
        source: *const u8, length: usize, table: *mut u64, room: usize, file: *mut u8, file_room: usize, answer: *mut u64,
        four: usize,
    );
    /// C-23, spaces for what is dropped in `source` itself, the rows in `table`, five numbers a range in `ranges`; answer: number, start,
    /// end, rows, ranges.
    pub fn lekhyundo_salvage(
        source: *mut u8, length: usize, table: *mut u64, room: usize, ranges: *mut u64, range_room: usize, answer: *mut u64,
        five: usize,
    );
    /// C-20, the print in `text`, the rows in `table`, four numbers a row in `plan`, which are zeros in the end; answer: number, start, end, bytes,
    /// tests.
    pub fn lekhyundo_print(
        source: *const u8, length: usize, table: *mut u64, room: usize, plan: *mut u64, plan_room: usize, text: *mut u8,
        text_room: usize, answer: *mut u64, five: usize,
    );
    /// A refusal of (a) to a named source as lines of text into `out`, by the source up to its place and a word more in `room`: how
    /// many bytes.
    pub fn lekhyundo_report(
        name: *const u8, name_length: usize, source: *const u8, length: usize, number: u64, start: usize, end: usize, needed: usize,
        room: *mut u8, room_length: usize, out: *mut u8, out_room: usize,
    ) -> usize;
}
