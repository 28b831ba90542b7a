//! A language server for Roto route filters on standard input and output: what it says of a file is what the proved library says.
//!
//! One message is answered before the next is looked at; a few may wait, then the pipe does. Of a file only its text is kept.

mod answers;
mod colours;
mod diagnostics;
mod folds;
mod formatting;
mod hover;
mod pieces;
mod places;
mod reading;
mod server;
mod symbols;
mod text;
mod wire;

use std::{
    io::{self, BufReader, BufWriter},
    process::ExitCode,
    sync::mpsc::{Receiver, SyncSender, TryRecvError, sync_channel},
    thread,
};

use serde_json::Value;
use server::Server;
use wire::Frame;

/// Messages that may wait.
const WAITING: usize = 8;

/// Hands on what comes in, to its end.
fn listen(heard: SyncSender<Frame>) {
    let mut input = BufReader::new(io::stdin().lock());
    while let Ok(frame) = wire::read(&mut input) {
        if matches!(frame, Frame::End) || heard.send(frame).is_err() {
            return;
        }
    }
}

/// The next messages out: the answers to one that waits, or what is left to say while none does. None at the end of the input.
fn next(server: &mut Server, incoming: &Receiver<Frame>) -> Option<Vec<Value>> {
    let frame = match incoming.try_recv() {
        Ok(frame) => frame,
        Err(TryRecvError::Disconnected) => return None,
        Err(TryRecvError::Empty) => match server.rest() {
            Some(rest) => return Some(vec![rest]),
            None => incoming.recv().ok()?,
        },
    };
    match frame {
        Frame::Message(message) => Some(server.handle(&message)),
        Frame::Malformed(why) => Some(vec![answers::failed(Value::Null, answers::malformed(why))]),
        Frame::End => None,
    }
}

/// The status that the process ends with: 1 where the input ended without `exit`.
fn serve() -> io::Result<u8> {
    let mut output = BufWriter::new(io::stdout().lock());
    let mut server = Server::default();
    let (heard, incoming) = sync_channel(WAITING);
    thread::spawn(move || listen(heard));
    while let Some(messages) = next(&mut server, &incoming) {
        for message in &messages {
            wire::write(&mut output, message)?;
        }
        if let Some(status) = server.ended() {
            return Ok(status);
        }
    }
    Ok(1)
}

fn main() -> ExitCode {
    match serve() {
        Ok(status) => ExitCode::from(status),
        Err(error) => {
            eprintln!("lekhyundo-lsp: {error}");
            ExitCode::from(1)
        }
    }
}
