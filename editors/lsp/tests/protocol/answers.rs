//! What is said of a file: refusals, folds, symbols, selections, colours, values.

use crate::client::{Client, on_line, range};
use serde_json::{Value, json};

const FILE: &str = "file:///a.roto";

const FILTERS: &str = include_str!("../../../../bindings/rust/examples/files/customers.roto");

fn opened(text: &str) -> Client {
    let mut client = Client::with(json!([]));
    client.open(FILE, text);
    client
}

#[test]
fn refused() {
    let mut client = Client::with(json!([]));
    let source = "fn f() {\n    if x {y: 1} {}\n}\n";
    let diagnostics = client.open(FILE, source);
    let expected = "':' can't stand here\nexpected one of an operator an assignment sign '(' '{' '}' ';' '.' '?'";
    let all = json!([{
        "range": on_line(1, 11, 12),
        "severity": 1,
        "code": 6,
        "source": "lekhyundo",
        "message": expected,
    }]);
    assert_eq!(Value::from(diagnostics), all);
    let mended = json!([{ "range": on_line(1, 11, 14), "text": "" }]);
    assert_eq!(client.change(FILE, 2, mended), [] as [Value; 0]);
}

#[test]
fn folds() {
    let text = "import a;\nimport b;\n\n// one\n// two\nfn f() {\n    match x {\n        A => {\n            1\n        }\n        _ => T {\n            a: 1,\n        },\n    }\n}\nconst A: {\n    a: u8,\n} = 1;\nfn g() { 1 }\n";
    let folds = opened(text).about("textDocument/foldingRange", FILE);
    let lines = |first: u64, last: u64| json!({ "startLine": first, "endLine": last });
    let imports = json!({ "startLine": 0, "endLine": 1, "kind": "imports" });
    let comments = json!({ "startLine": 3, "endLine": 4, "kind": "comment" });
    let all = [imports, comments, lines(5, 13), lines(6, 12), lines(7, 8), lines(10, 11), lines(15, 16)];
    assert_eq!(folds, Value::from(all.to_vec()));
}

#[test]
fn folds_beside_refusals() {
    let text =
        "import a;\nimport b;\nimport 1;\nimport c;\nimport d;\nfn f() { match x {\n    A => 1,\n    B => 2,\n}}\n";
    let folds = opened(text).about("textDocument/foldingRange", FILE);
    let imports = |first: u64| json!({ "startLine": first, "endLine": first + 1, "kind": "imports" });
    assert_eq!(folds, json!([imports(0), imports(3), { "startLine": 5, "endLine": 7 }]));
}

#[test]
fn symbols() {
    let mut client = opened(FILTERS);
    let symbol = |name, detail, kind, span, place| json!({ "name": name, "detail": detail, "kind": kind, "range": span, "selectionRange": place });
    let filter = symbol("customers", "filter", 12, range((1, 0), (10, 1)), on_line(1, 7, 16));
    let import = symbol("std.{net, log}", "import", 2, on_line(12, 7, 21), on_line(12, 7, 21));
    let constant = symbol("LIMITS", "const", 14, range((14, 0), (17, 9)), on_line(14, 6, 12));
    assert_eq!(client.about("textDocument/documentSymbol", FILE), json!([filter, import, constant]));
}

#[test]
fn symbols_as_a_list() {
    let mut client = Client::fresh();
    client.result("initialize", json!({ "capabilities": {} }));
    client.open(FILE, "filtermap f() {}");
    let symbols = client.about("textDocument/documentSymbol", FILE);
    let location = json!({ "uri": FILE, "range": on_line(0, 0, 16) });
    assert_eq!(symbols, json!([{ "name": "f", "kind": 12, "location": location }]));
}

#[test]
fn selections() {
    let mut client = opened("fn f() { a + 12 }");
    let positions = json!([{ "line": 0, "character": 14 }, { "line": 0, "character": 15 }]);
    let params = json!({ "textDocument": { "uri": FILE }, "positions": positions });
    let selections = client.result("textDocument/selectionRange", params);
    let mut spans = Vec::new();
    let mut selection = &selections[0];
    while !selection.is_null() {
        spans.push(selection["range"].clone());
        selection = &selection["parent"];
    }
    assert_eq!(spans, [on_line(0, 13, 15), on_line(0, 9, 15), on_line(0, 7, 17), on_line(0, 0, 17)]);
    // Right behind the number it is the number's too.
    assert_eq!(selections[1], selections[0]);
}

#[test]
fn selections_of_a_deep_tree() {
    let mut client = opened(&format!("fn f() {{ {}1 }}", "1+".repeat(30_000)));
    let params = json!({ "textDocument": { "uri": FILE }, "positions": [{ "line": 0, "character": 9 }] });
    let selections = client.result("textDocument/selectionRange", params);
    let parents = std::iter::successors(Some(&selections[0]), |selection| selection.get("parent"));
    let spans: Vec<_> = parents.map(|selection| &selection["range"]).collect();
    assert_eq!((spans.len(), spans[0], spans[99]), (100, &on_line(0, 9, 10), &on_line(0, 0, 60_012)));
}

/// Line, first character, length and class of each coloured piece.
fn colours(client: &mut Client) -> Vec<(u64, u64, u64, u64)> {
    let answer = client.about("textDocument/semanticTokens/full", FILE);
    let numbers: Vec<_> = answer["data"].as_array().unwrap().iter().map(|number| number.as_u64().unwrap()).collect();
    let (mut line, mut character) = (0, 0);
    let mut absolute = |five: &[u64]| {
        (line, character) = if five[0] == 0 { (line, character + five[1]) } else { (line + five[0], five[1]) };
        (line, character, five[2], five[3])
    };
    numbers.chunks(5).map(&mut absolute).collect()
}

const KEYWORD: u64 = 0;
const NAME: u64 = 1;
const NUMBER: u64 = 2;
const STRING: u64 = 3;
const SIGN: u64 = 4;
const COMMENT: u64 = 5;

#[test]
fn coloured() {
    let mut client = opened("const A: f = f\"x{{{1+ \"y\" }z{B}\"; // c \nimport a;\n");
    #[rustfmt::skip]
    let first = [
        (0, 0, 5, KEYWORD), (0, 6, 1, NAME), (0, 7, 1, SIGN), (0, 9, 1, NAME), (0, 11, 1, SIGN),
        (0, 13, 2, STRING), (0, 15, 3, STRING), (0, 18, 1, SIGN), (0, 19, 1, NUMBER), (0, 20, 1, SIGN), (0, 22, 3, STRING),
        (0, 26, 1, SIGN), (0, 27, 1, STRING), (0, 28, 1, SIGN), (0, 29, 1, NAME), (0, 30, 1, SIGN), (0, 31, 1, STRING),
        (0, 32, 1, SIGN), (0, 34, 4, COMMENT),
        (1, 0, 6, KEYWORD), (1, 7, 1, NAME), (1, 8, 1, SIGN),
    ];
    assert_eq!(colours(&mut client), first);
}

/// In what is dropped f-strings have their colours too, but for one that has no end.
#[test]
fn coloured_where_refused() {
    let mut client = opened("fn f() { a b f\"{c}\" + 1; f\"{1\n}\nfn g() {}\n");
    #[rustfmt::skip]
    let all = [
        (0, 0, 2, KEYWORD), (0, 3, 1, NAME), (0, 4, 1, SIGN), (0, 5, 1, SIGN), (0, 7, 1, SIGN), (0, 9, 1, NAME), (0, 11, 1, NAME),
        (0, 13, 2, STRING), (0, 15, 1, SIGN), (0, 16, 1, NAME), (0, 17, 1, SIGN), (0, 18, 1, STRING), (0, 20, 1, SIGN), (0, 22, 1, NUMBER),
        (0, 23, 1, SIGN),
        (2, 0, 2, KEYWORD), (2, 3, 1, NAME), (2, 4, 1, SIGN), (2, 5, 1, SIGN), (2, 7, 1, SIGN), (2, 8, 1, SIGN),
    ];
    assert_eq!(colours(&mut client), all);
}

#[test]
fn coloured_over_lines() {
    let mut client = opened("const A: S = \"a\n\nb\";\n");
    let strings = colours(&mut client).into_iter().filter(|piece| piece.3 == STRING);
    assert_eq!(strings.collect::<Vec<_>>(), [(0, 13, 2, STRING), (2, 0, 2, STRING)]);
}

#[test]
fn values() {
    let text = "const A: u8 = 3 * 8;\nconst B: f64 = 0.1;\nconst C: i8 = 1 / 0;\nfn f() {\n    g(AS65000, 10.0.0.1, 2001:db8::1, 0x1f, 'A', 0.1f32, \"a\\n\", true);\n    12345678901234567890.5\n}\n";
    let mut client = opened(text);
    let mut at = |line, character| client.hover(FILE, line, character)["contents"]["value"].clone();
    assert_eq!(at(0, 6), "constant 24");
    assert_eq!(at(0, 2), "constant 24");
    assert_eq!(at(0, 14), "3 = 0x3");
    assert_eq!(at(1, 6), "constant 0.1 = 0x3fb999999999999a");
    assert_eq!(at(2, 6), "no value: integer divisor zero");
    assert_eq!(at(4, 7), "AS number 65000");
    assert_eq!(at(4, 16), "IPv4 address 10.0.0.1 = 0x0a000001");
    assert_eq!(at(4, 25), "IPv6 address 2001:0db8:0000:0000:0000:0000:0000:0001");
    assert_eq!(at(4, 39), "31 = 0x1f");
    assert_eq!(at(4, 44), "char U+0041");
    assert_eq!(at(4, 49), "f32 0.1 = 0x3dcccccd");
    assert_eq!(at(4, 58), "string of 2 bytes");
    assert_eq!(at(4, 64), "bool true");
    assert_eq!(at(5, 6), "no value: float with too many digits");
    assert_eq!(at(3, 3), Value::Null);
}

#[test]
fn where_a_value_is() {
    let mut client = opened("fn f() { AS1 }");
    assert_eq!(client.hover(FILE, 0, 10)["range"], on_line(0, 9, 12));
}

/// Three declarations are broken, in f, in B and by the end; g and A are whole.
const BROKEN: &str = "\
fn f() {
    log(a b)
}
const A: u8 = 2;
// note
const B: u8 = 300u8;
fn g() {
    accept
}
filter h() {
    if {
";

#[test]
fn all_refusals() {
    let mut client = Client::with(json!([]));
    let diagnostics = client.open(FILE, BROKEN);
    let said: Vec<_> = diagnostics.iter().map(|one| (&one["code"], &one["range"], &one["message"])).collect();
    let call = json!("'b' can't stand here\nexpected one of an operator an assignment sign '(' '{' ')' ',' '.' '?'");
    let number = json!("300 doesn't fit u8 (at most 255)");
    let end = "the file ends too early\nexpected one of a statement a name '}'";
    let places = [on_line(1, 10, 11), on_line(5, 14, 19), on_line(11, 0, 0)];
    assert_eq!(said[0], (&json!(6), &places[0], &call));
    assert_eq!(said[1], (&json!(7), &places[1], &number));
    assert_eq!((said[2].0, said[2].1), (&json!(11), &places[2]));
    assert!(said[2].2.as_str().unwrap().starts_with(end.split_once('\n').unwrap().0));
    assert_eq!(said.len(), 3);
}

#[test]
fn kept_beside_refusals() {
    let mut client = opened(BROKEN);
    let symbols = client.about("textDocument/documentSymbol", FILE);
    let names: Vec<_> = symbols.as_array().unwrap().iter().map(|symbol| &symbol["name"]).collect();
    assert_eq!(names, ["A", "g"]);
    assert_eq!(client.about("textDocument/foldingRange", FILE), json!([{ "startLine": 6, "endLine": 7 }]));
    assert_eq!(client.hover(FILE, 3, 6)["contents"]["value"], "constant 2");
    assert_eq!(client.hover(FILE, 5, 15), Value::Null);
    // What is dropped is one selection, and its tokens have their colours.
    let positions = json!([{ "line": 1, "character": 5 }]);
    let params = json!({ "textDocument": { "uri": FILE }, "positions": positions });
    let selection = &client.result("textDocument/selectionRange", params)[0];
    assert_eq!(selection["range"], range((0, 0), (3, 0)));
    assert_eq!(colours(&mut client).iter().filter(|piece| piece.0 == 1).count(), 5);
}

/// The messages are those that `./check` gives where what was dropped before is spaces.
pub fn as_check_says(text: &str, diagnostics: &[Value]) {
    let mut source = text.as_bytes().to_vec();
    let Ok(salvage) = lekhyundo::salvage(&source) else { return };
    assert_eq!(salvage.dropped.len(), diagnostics.len());
    for (dropped, said) in salvage.dropped.iter().zip(diagnostics) {
        assert_eq!(lekhyundo::Reader::default().tree(&source).unwrap_err(), dropped.refusal);
        assert_eq!(said["message"], dropped.refusal.message(&source));
        source[dropped.range.clone()].fill(b' ');
    }
}

#[test]
fn words_as_check_says() {
    as_check_says(BROKEN, &Client::with(json!([])).open(FILE, BROKEN));
}

#[test]
fn formatting() {
    let edits = |text: &str| opened(text).about("textDocument/formatting", FILE);
    let print = "fn f ( ) {\na + b * c }\n";
    assert_eq!(edits("fn f(){ (a) +\n  (b*c)}"), json!([{ "range": range((0, 0), (1, 8)), "newText": print }]));
    assert_eq!(edits(print), json!([]));
    assert_eq!(edits("fn f( {}"), json!([]));
    assert_eq!(edits("// für\n"), json!([]));
}
