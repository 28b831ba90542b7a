//! The protocol's frame: what is answered when, and that nothing ends the server but `exit` and the end of its input.

use crate::client::{Client, range};
use serde_json::{Value, json};

const MALFORMED: i64 = -32700;
const INVALID: i64 = -32600;
const UNKNOWN: i64 = -32601;
const WRONG: i64 = -32602;
const UNINITIALIZED: i64 = -32002;

const FILE: &str = "file:///a.roto";

#[test]
fn before_initialize() {
    let mut client = Client::fresh();
    assert_eq!(client.error("textDocument/hover", json!({})), UNINITIALIZED);
    assert_eq!(client.error("shutdown", Value::Null), UNINITIALIZED);
    client.tell("textDocument/didOpen", json!({ "textDocument": { "uri": FILE, "text": "fn", "version": 1 } }));
    client.result("initialize", json!({ "capabilities": {} }));
    // What was opened before isn't open.
    assert_eq!(client.error("textDocument/foldingRange", json!({ "textDocument": { "uri": FILE } })), WRONG);
    assert_eq!(client.error("initialize", json!({ "capabilities": {} })), INVALID);
}

#[test]
fn after_shutdown() {
    let mut client = Client::with(json!([]));
    client.open(FILE, "import a;");
    assert_eq!(client.result("shutdown", Value::Null), Value::Null);
    assert_eq!(client.error("textDocument/foldingRange", json!({ "textDocument": { "uri": FILE } })), INVALID);
    assert_eq!(client.error("initialize", json!({})), INVALID);
    client.tell("textDocument/didChange", json!({ "textDocument": { "uri": FILE }, "contentChanges": [] }));
    client.tell("exit", Value::Null);
    assert_eq!(client.status(), Some(0));
}

#[test]
fn ends_without_shutdown() {
    let mut client = Client::with(json!([]));
    client.tell("exit", Value::Null);
    assert_eq!(client.status(), Some(1));
    assert_eq!(Client::fresh().status(), Some(1));
    let mut client = Client::fresh();
    client.raw(b"Content-Length: 100\r\n\r\n{");
    assert_eq!(client.status(), Some(1));
}

#[test]
fn malformed() {
    let mut client = Client::with(json!([]));
    let deep = "[".repeat(100_000);
    let bodies: [&[u8]; 6] = [b"{", b"", b"nul", b"{\"id\":\"\xff\"}", b"{\"a\":\"\\ud800\"}", deep.as_bytes()];
    for body in bodies {
        client.raw(format!("Content-Length: {}\r\n\r\n", body.len()).as_bytes());
        client.raw(body);
        let answer = client.receive();
        assert_eq!((&answer["error"]["code"], &answer["id"]), (&json!(MALFORMED), &Value::Null), "{answer}");
    }
    for header in ["Content-Type: x\r\n\r\n", "Content-Length: -1\r\n\r\n", "Content-Length: x\r\n\r\n", "junk\n\n"] {
        client.raw(header.as_bytes());
        assert_eq!(client.receive()["error"]["code"], MALFORMED, "{header}");
    }
    assert_eq!(client.open(FILE, "import a;"), [] as [Value; 0]);
}

#[test]
fn headers() {
    let mut client = Client::with(json!([]));
    let body = r#"{"jsonrpc":"2.0","id":"x","method":"shutdown"}"#;
    let header =
        format!("\r\ncontent-length:{}\nContent-Type: application/vscode-jsonrpc; charset=utf-8\n\n", body.len());
    client.raw(header.as_bytes());
    client.raw(body.as_bytes());
    assert_eq!(client.receive(), json!({ "jsonrpc": "2.0", "id": "x", "result": null }));
}

#[test]
fn too_long() {
    let mut client = Client::with(json!([]));
    let length = (64 << 20) + 1;
    client.raw(format!("Content-Length: {length}\r\n\r\n").as_bytes());
    client.raw(&vec![b' '; length]);
    assert_eq!(client.receive()["error"]["code"], MALFORMED);
    assert_eq!(client.error("none", Value::Null), UNKNOWN);
}

#[test]
fn odd_messages() {
    let mut client = Client::with(json!([]));
    assert_eq!(client.error("textDocument/rename", json!({})), UNKNOWN);
    assert_eq!(client.error("$/none", json!({})), UNKNOWN);
    client.tell("$/cancelRequest", json!({ "id": 7 }));
    client.tell("none", json!([]));
    client.send(&json!({ "jsonrpc": "2.0", "id": 9, "result": null }));
    for message in [json!([]), json!(1), json!({ "jsonrpc": "2.0" }), json!({ "method": 3 })] {
        client.send(&message);
        assert_eq!(client.receive()["error"]["code"], INVALID, "{message}");
    }
    for params in [Value::Null, json!([]), json!({ "textDocument": 1 }), json!({ "textDocument": { "uri": FILE } })] {
        assert_eq!(client.error("textDocument/hover", params), WRONG);
    }
}

#[test]
fn odd_params_of_an_open_file() {
    let mut client = Client::with(json!([]));
    client.open(FILE, "import a;");
    let document = json!({ "uri": FILE });
    for position in [
        Value::Null,
        json!({ "line": -1, "character": 0 }),
        json!({ "line": 0 }),
        json!({ "line": 0.5, "character": 0 }),
    ] {
        let params = json!({ "textDocument": document, "position": position });
        assert_eq!(client.error("textDocument/hover", params), WRONG, "{position}");
        let params = json!({ "textDocument": document, "positions": [position] });
        assert_eq!(client.error("textDocument/selectionRange", params), WRONG);
    }
    assert_eq!(client.hover(FILE, usize::MAX >> 1, usize::MAX >> 1), Value::Null);
}

#[test]
fn files_not_open() {
    let mut client = Client::with(json!([]));
    client.tell("textDocument/didClose", json!({ "textDocument": { "uri": FILE } }));
    let change = json!([{ "text": "fn" }]);
    client.tell("textDocument/didChange", json!({ "textDocument": { "uri": FILE }, "contentChanges": change }));
    // Neither is answered: the next message is that of the file opened.
    assert_eq!(client.open(FILE, "import a;"), [] as [Value; 0]);
    client.tell("textDocument/didClose", json!({ "textDocument": { "uri": FILE } }));
    assert_eq!(client.diagnostics(FILE), [] as [Value; 0]);
    assert_eq!(client.error("textDocument/hover", json!({ "textDocument": { "uri": FILE } })), WRONG);
}

#[test]
fn versions_with_gaps() {
    let mut client = Client::with(json!([]));
    client.open(FILE, "import a;");
    assert_eq!(client.change(FILE, 7, json!([{ "text": "fn" }])).len(), 1);
    assert_eq!(client.change(FILE, 5, json!([{ "text": "import b;" }])).len(), 0);
    let document = json!({ "uri": FILE });
    client.tell("textDocument/didChange", json!({ "textDocument": document, "contentChanges": [] }));
    let published = client.receive();
    assert_eq!(published["params"], json!({ "uri": FILE, "diagnostics": [] }));
}

#[test]
fn odd_changes() {
    let mut client = Client::with(json!([]));
    client.open(FILE, "fn");
    let end = json!({ "line": 0, "character": 0 });
    let odd =
        [Value::Null, json!({}), json!({ "text": 1 }), json!({ "text": "", "range": { "start": {}, "end": end } })];
    for change in odd {
        assert_eq!(client.change(FILE, 2, json!([change])).len(), 1, "{change}");
    }
    // A range whose ends are exchanged is the same range.
    let exchanged = json!([{ "range": range((0, 2), (0, 0)), "text": "import a;" }]);
    assert_eq!(client.change(FILE, 3, exchanged), [] as [Value; 0]);
}
