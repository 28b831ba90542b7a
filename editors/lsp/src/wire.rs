//! Messages on a pipe: a header with `Content-Length`, an empty line, so many bytes.

use std::io::{self, BufRead, Read, Write};

use serde_json::Value;

/// No message of a client is longer: a file that is read has 65,535 bytes, and one change may hold some of them.
const MOST_BYTES: u64 = 64 << 20;

/// The longest line of a header that is looked at in one piece.
const MOST_LINE: u64 = 4_096;

/// What stands next on the pipe.
pub enum Frame {
    Message(Vec<u8>),
    /// A header without a length, or a message too long; it is read past.
    Malformed(&'static str),
    End,
}

enum Header {
    Length(u64),
    None,
    End,
}

pub fn read(input: &mut impl BufRead) -> io::Result<Frame> {
    match header(input)? {
        Header::End => Ok(Frame::End),
        Header::None => Ok(Frame::Malformed("header without Content-Length")),
        Header::Length(length) if length > MOST_BYTES => {
            io::copy(&mut input.take(length), &mut io::sink())?;
            Ok(Frame::Malformed("message too long"))
        }
        Header::Length(length) => {
            let mut body = Vec::new();
            let got = input.take(length).read_to_end(&mut body)?;
            Ok(if got as u64 == length { Frame::Message(body) } else { Frame::End })
        }
    }
}

/// The lines up to an empty one; empty lines before them are read past.
fn header(input: &mut impl BufRead) -> io::Result<Header> {
    let (mut found, mut seen) = (None, false);
    let mut line = Vec::new();
    loop {
        line.clear();
        if input.take(MOST_LINE).read_until(b'\n', &mut line)? == 0 {
            return Ok(Header::End);
        }
        let empty = line.trim_ascii().is_empty();
        match found {
            Some(length) if empty => return Ok(Header::Length(length)),
            None if empty && seen => return Ok(Header::None),
            _ => found = content_length(&line).or(found),
        }
        seen |= !empty;
    }
}

fn content_length(line: &[u8]) -> Option<u64> {
    let (name, value) = std::str::from_utf8(line).ok()?.split_once(':')?;
    value.trim().parse().ok().filter(|_| name.trim().eq_ignore_ascii_case("content-length"))
}

pub fn write(output: &mut impl Write, message: &Value) -> io::Result<()> {
    let body = serde_json::to_vec(message)?;
    write!(output, "Content-Length: {}\r\n\r\n", body.len())?;
    output.write_all(&body)?;
    output.flush()
}
