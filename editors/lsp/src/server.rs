//! The life of a server and its open files: a message in, messages out.

use std::collections::HashMap;

use serde_json::{Value, json};

use crate::{
    answers::{self, Fault},
    colours::colours,
    diagnostics::{AT_ONCE, diagnostics},
    folds::folds,
    formatting::formatting,
    hover::hover,
    pieces::CLASSES,
    places::selections,
    symbols::symbols,
    text::{Encoding, Position, Text},
};

#[derive(Clone, Copy, PartialEq, Eq)]
enum Phase {
    Fresh,
    Running,
    ShutDown,
    Ended,
}

struct Document {
    text: Text,
    version: Value,
}

impl Document {
    /// The new text of a range, or of the whole file; a change that is neither does nothing.
    fn change(&mut self, change: &Value, encoding: Encoding) -> Option<()> {
        let (content, range) = (change["text"].as_str()?, &change["range"]);
        if range.is_null() {
            self.text = Text::new(content.into(), encoding);
        } else {
            self.text.replace(Position::of(&range["start"])?, Position::of(&range["end"])?, content);
        }
        Some(())
    }
}

pub struct Server {
    phase: Phase,
    /// What `shutdown` before `exit` says.
    status: u8,
    encoding: Encoding,
    /// Whether the client knows symbols as a tree.
    symbol_tree: bool,
    documents: HashMap<String, Document>,
    /// Files whose refusals aren't all in words yet.
    unsaid: Vec<String>,
}

impl Default for Server {
    fn default() -> Self {
        Server {
            phase: Phase::Fresh,
            status: 1,
            encoding: Encoding::Utf16,
            symbol_tree: false,
            documents: HashMap::new(),
            unsaid: Vec::new(),
        }
    }
}

impl Server {
    /// The process's status once `exit` came.
    pub fn ended(&self) -> Option<u8> {
        (self.phase == Phase::Ended).then_some(self.status)
    }

    /// What is left to say when nothing is asked.
    pub fn rest(&mut self) -> Option<Value> {
        let uri = self.unsaid.pop()?;
        self.published(&uri, usize::MAX)
    }

    /// The messages that one message is answered with.
    pub fn handle(&mut self, message: &[u8]) -> Vec<Value> {
        let Ok(message) = serde_json::from_slice::<Value>(message) else {
            return vec![answers::failed(Value::Null, answers::malformed("no JSON"))];
        };
        let id = message.get("id").cloned();
        match (message.get("method").and_then(Value::as_str), id) {
            (Some(method), Some(id)) => vec![answers::answer(id, self.request(method, &message["params"]))],
            (Some(method), None) => self.notified(method, &message["params"]),
            // An answer: nothing was asked of the client.
            (None, Some(_)) if message.get("result").or(message.get("error")).is_some() => Vec::new(),
            (None, id) => vec![answers::failed(id.unwrap_or_default(), answers::invalid("no method"))],
        }
    }

    fn request(&mut self, method: &str, params: &Value) -> Result<Value, Fault> {
        match (self.phase, method) {
            (Phase::Fresh, "initialize") => Ok(self.initialize(params)),
            (Phase::Fresh, _) => Err(answers::uninitialized()),
            (Phase::Running, "initialize") => Err(answers::invalid("initialized already")),
            (Phase::Running, "shutdown") => {
                (self.phase, self.status) = (Phase::ShutDown, 0);
                Ok(Value::Null)
            }
            (Phase::Running, _) => self.asked(method, params),
            (Phase::ShutDown | Phase::Ended, _) => Err(answers::invalid("shut down")),
        }
    }

    fn initialize(&mut self, params: &Value) -> Value {
        self.phase = Phase::Running;
        let offered = &params["capabilities"]["general"]["positionEncodings"];
        if offered.as_array().is_some_and(|names| names.iter().any(|name| name == Encoding::Utf8.name())) {
            self.encoding = Encoding::Utf8;
        }
        let tree = &params["capabilities"]["textDocument"]["documentSymbol"]["hierarchicalDocumentSymbolSupport"];
        self.symbol_tree = tree == true;
        json!({
            "capabilities": self.capabilities(),
            "serverInfo": { "name": env!("CARGO_PKG_NAME"), "version": env!("CARGO_PKG_VERSION") },
        })
    }

    fn capabilities(&self) -> Value {
        /// LSP's number for changes by ranges.
        const INCREMENTAL: u32 = 2;
        json!({
            "positionEncoding": self.encoding.name(),
            "textDocumentSync": { "openClose": true, "change": INCREMENTAL },
            "foldingRangeProvider": true,
            "documentSymbolProvider": true,
            "selectionRangeProvider": true,
            "hoverProvider": true,
            "documentFormattingProvider": true,
            "semanticTokensProvider": { "legend": { "tokenTypes": CLASSES, "tokenModifiers": [] }, "full": true },
        })
    }

    /// A question about a file.
    fn asked(&self, method: &str, params: &Value) -> Result<Value, Fault> {
        let text = || self.text(params);
        match method {
            "textDocument/foldingRange" => text().map(folds),
            "textDocument/documentSymbol" => {
                let flat_in = uri(params).filter(|_| !self.symbol_tree);
                text().map(|text| symbols(text, flat_in))
            }
            "textDocument/selectionRange" => {
                let positions = params["positions"].as_array().ok_or(answers::wrong("no positions"))?;
                let positions: Option<Vec<_>> = positions.iter().map(Position::of).collect();
                Ok(selections(text()?, &positions.ok_or(answers::wrong("no positions"))?))
            }
            "textDocument/hover" => {
                let text = text()?;
                let position = Position::of(&params["position"]).ok_or(answers::wrong("no position"))?;
                Ok(hover(text, text.offset(position)))
            }
            "textDocument/semanticTokens/full" => text().map(colours),
            "textDocument/formatting" => text().map(formatting),
            _ => Err(answers::unknown(method)),
        }
    }

    fn text(&self, params: &Value) -> Result<&Text, Fault> {
        let uri = uri(params).ok_or(answers::wrong("no textDocument"))?;
        self.documents.get(uri).map(|document| &document.text).ok_or(answers::wrong("not open"))
    }

    fn notified(&mut self, method: &str, params: &Value) -> Vec<Value> {
        match (self.phase, method) {
            (_, "exit") => {
                self.phase = Phase::Ended;
                Vec::new()
            }
            (Phase::Running, "textDocument/didOpen") => self.opened(params).into_iter().collect(),
            (Phase::Running, "textDocument/didChange") => self.changed(params).into_iter().collect(),
            (Phase::Running, "textDocument/didClose") => self.closed(params).into_iter().collect(),
            _ => Vec::new(),
        }
    }

    fn opened(&mut self, params: &Value) -> Option<Value> {
        let (uri, content) = (uri(params)?, params["textDocument"]["text"].as_str()?);
        let text = Text::new(content.into(), self.encoding);
        let document = Document { text, version: params["textDocument"]["version"].clone() };
        self.documents.insert(uri.into(), document);
        self.published(uri, AT_ONCE)
    }

    /// The pipe keeps the order of changes, so each is applied as it comes, whatever number it has.
    fn changed(&mut self, params: &Value) -> Option<Value> {
        let uri = uri(params)?;
        let document = self.documents.get_mut(uri)?;
        for change in params["contentChanges"].as_array()? {
            document.change(change, self.encoding);
        }
        document.version = params["textDocument"]["version"].clone();
        self.published(uri, AT_ONCE)
    }

    /// A file that is closed has no diagnostics.
    fn closed(&mut self, params: &Value) -> Option<Value> {
        let uri = uri(params)?;
        self.documents.remove(uri)?;
        self.unsaid.retain(|unsaid| unsaid != uri);
        Some(answers::published(uri, &Value::Null, Vec::new()))
    }

    fn published(&mut self, uri: &str, most: usize) -> Option<Value> {
        let Document { text, version } = self.documents.get(uri)?;
        let (diagnostics, all_said) = diagnostics(text, most);
        self.unsaid.retain(|unsaid| unsaid != uri);
        if !all_said {
            self.unsaid.push(uri.into());
        }
        Some(answers::published(uri, version, diagnostics))
    }
}

fn uri(params: &Value) -> Option<&str> {
    params["textDocument"]["uri"].as_str()
}
