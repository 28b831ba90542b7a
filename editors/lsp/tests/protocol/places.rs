//! Bytes, characters and lines: a refusal is where the client counts it to be.

use crate::client::{Client, on_line, range};
use serde_json::{Value, json};

const FILE: &str = "file:///a.roto";

/// Number and range of each refusal.
fn refusals(client: &mut Client, text: &str) -> Vec<(Value, Value)> {
    let diagnostics = client.open(FILE, text);
    diagnostics.iter().map(|diagnostic| (diagnostic["code"].clone(), diagnostic["range"].clone())).collect()
}

#[test]
fn negotiated() {
    let choose = |offered: Value| {
        let capabilities = json!({ "general": { "positionEncodings": offered } });
        let answer = Client::fresh().result("initialize", json!({ "capabilities": capabilities }));
        answer["capabilities"]["positionEncoding"].clone()
    };
    assert_eq!(choose(json!(["utf-16", "utf-8"])), "utf-8");
    assert_eq!(choose(json!(["utf-32", "utf-16"])), "utf-16");
    assert_eq!(choose(Value::Null), "utf-16");
}

#[test]
fn multi_byte() {
    let text = "import a;\n// \u{e9}t\u{e9}\n";
    let twos = |encodings| refusals(&mut Client::with(encodings), text);
    assert_eq!(twos(json!([])), [(json!(2), on_line(1, 3, 4))]);
    assert_eq!(twos(json!(["utf-8"])), [(json!(2), on_line(1, 3, 5))]);
    let wide = "\t\u{1f600}";
    assert_eq!(refusals(&mut Client::with(json!([])), wide), [(json!(2), on_line(0, 1, 3))]);
    assert_eq!(refusals(&mut Client::with(json!(["utf-8"])), wide), [(json!(2), on_line(0, 1, 5))]);
}

#[test]
fn changed_behind_multi_byte() {
    for (encodings, from, to) in [(json!([]), 4, 6), (json!(["utf-8"]), 5, 9)] {
        let mut client = Client::with(encodings);
        client.open(FILE, "//\u{e9} \u{1f600}\nimport a;");
        // The face goes, then what stands before it: nothing is refused.
        assert_eq!(client.change(FILE, 2, json!([{ "range": on_line(0, from, to), "text": "" }])).len(), 1);
        let character = json!([{ "range": on_line(0, 2, from - 1), "text": "" }]);
        assert_eq!(client.change(FILE, 3, character), [] as [Value; 0]);
        let symbols = client.about("textDocument/documentSymbol", FILE);
        assert_eq!((&symbols[0]["name"], &symbols[0]["range"]), (&json!("a"), &on_line(1, 7, 8)));
    }
}

#[test]
fn ends_of_lines() {
    let mut client = Client::with(json!([]));
    for end in ["\n", "\r\n", "\r"] {
        let text = format!("import a;{end}{end}\tconst A: u8 = 300u8;{end}");
        assert_eq!(refusals(&mut client, &text), [(json!(7), on_line(2, 15, 20))], "{end:?}");
    }
    // For the library a carriage return ends no comment, and no line.
    assert_eq!(refusals(&mut client, "// a\r)\n"), []);
    assert_eq!(refusals(&mut client, "// a\r\n)\r\n"), [(json!(6), on_line(1, 0, 1))]);
}

#[test]
fn empty() {
    let mut client = Client::with(json!([]));
    assert_eq!(refusals(&mut client, ""), []);
    for method in ["foldingRange", "documentSymbol"] {
        assert_eq!(client.about(&format!("textDocument/{method}"), FILE), json!([]));
    }
    assert_eq!(client.about("textDocument/semanticTokens/full", FILE), json!({ "data": [] }));
    assert_eq!(client.hover(FILE, 0, 0), Value::Null);
    assert_eq!(client.change(FILE, 2, json!([{ "range": on_line(3, 3, 4), "text": "fn" }])).len(), 1);
}

#[test]
fn without_a_last_newline() {
    let mut client = Client::with(json!([]));
    assert_eq!(refusals(&mut client, "import a;\nfn f() {"), [(json!(11), on_line(1, 8, 8))]);
    assert_eq!(refusals(&mut client, "import a;\nfn f() {\n"), [(json!(11), on_line(2, 0, 0))]);
    let open = client.open(FILE, "fn f() { g(\"a\"");
    assert_eq!(open[0]["message"], "\"a\" at the end of a file needs a newline after it");
}

#[test]
fn too_long() {
    let mut client = Client::with(json!([]));
    let text = "import a;\n".repeat(7_000);
    assert_eq!(text.len(), 70_000);
    let diagnostics = client.open(FILE, &text);
    assert_eq!((diagnostics.len(), &diagnostics[0]["code"]), (1, &json!(1)));
    assert_eq!(diagnostics[0]["message"], "the file has more than 65535 bytes: split it");
    assert_eq!(client.about("textDocument/documentSymbol", FILE), json!([]));
    // Cut to what may be, it is read again.
    let cut = json!([{ "range": range((6_000, 0), (9_000, 0)), "text": "" }]);
    assert_eq!(client.change(FILE, 2, cut), [] as [Value; 0]);
    assert_eq!(client.about("textDocument/documentSymbol", FILE).as_array().unwrap().len(), 6_000);
}
