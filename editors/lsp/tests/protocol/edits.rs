//! Ten thousand random edits leave what a fresh open gives, and an edit of a large file is answered at once.

use std::time::Instant;

use crate::{
    answers::as_check_says,
    client::{Client, on_line},
};
use serde_json::{Value, json};

const EDITED: &str = "file:///edited.roto";
const FRESH: &str = "file:///fresh.roto";

/// Xorshift, so that a run can be repeated.
struct Random(u64);

impl Random {
    fn below(&mut self, limit: usize) -> usize {
        self.0 ^= self.0 << 13;
        self.0 ^= self.0 >> 7;
        self.0 ^= self.0 << 17;
        (self.0 % limit as u64) as usize
    }
}

/// What comes in; the last two aren't ASCII.
#[rustfmt::skip]
const BITS: [&str; 24] = [
    "\nfn f() {\n    accept\n}\n", "\nfilter g(r: Route) { reject }\n", "\nconst A: u8 = 1;\n", "\nimport a.b;\n", "{", "}", "(", ")",
    "\"", "f\"{x}\"", "// note\n", "\n", "\r", "\r\n", "\t", " ", "AS65000", "2001:db8::1",
    "match x {\n    A => 1,\n    _ => 2,\n}", ";", "300u8", "", "é", "😀",
];
const ASCII: usize = 22;

/// The line and the UTF-16 unit of a place in a text, counted anew from its start.
fn position(text: &[char], at: usize) -> Value {
    let (mut line, mut character) = (0, 0);
    for (i, &c) in text[..at].iter().enumerate() {
        let ends = c == '\n' || (c == '\r' && text.get(i + 1) != Some(&'\n'));
        (line, character) = if ends { (line + 1, 0) } else { (line, character + c.len_utf16()) };
    }
    json!({ "line": line, "character": character })
}

/// A place that the protocol can name: none inside CRLF.
fn place(text: &[char], random: &mut Random, from: usize, most: usize) -> usize {
    let at = (from + random.below(most + 1)).min(text.len());
    let inside = at > from && text[at - 1] == '\r' && text.get(at) == Some(&'\n');
    at - usize::from(inside)
}

fn edit(text: &mut Vec<char>, random: &mut Random, bits: &[&str]) -> Value {
    let length = text.len();
    let mut from = place(text, random, 0, length);
    if from > 0 && text[from - 1] == '\r' && text.get(from) == Some(&'\n') {
        from -= 1;
    }
    // Longer ones go out than come in once the text is long.
    let most = if length > 3_000 { 200 } else { 12 };
    let to = place(text, random, from, most);
    let by = bits[random.below(bits.len())];
    let range = json!({ "start": position(text, from), "end": position(text, to) });
    text.splice(from..to, by.chars());
    json!({ "range": range, "text": by })
}

/// All that is answered about a file but its name.
fn answers(client: &mut Client, uri: &str) -> Vec<Value> {
    let methods = ["foldingRange", "documentSymbol", "semanticTokens/full"];
    methods.map(|method| client.about(&format!("textDocument/{method}"), uri)).into()
}

/// How many refusals there were in the texts that were compared.
fn ten_thousand(bits: &[&str]) -> usize {
    let mut client = Client::with(json!([]));
    let mut random = Random(0x2545_f491_4f6c_dd1d);
    let mut text: Vec<char> = Vec::new();
    client.open(EDITED, "");
    let (mut edits, mut refusals) = (0, 0);
    for version in 2.. {
        let changes: Vec<_> = (0..1 + random.below(3)).map(|_| edit(&mut text, &mut random, bits)).collect();
        edits += changes.len();
        let diagnostics = client.change(EDITED, version, changes.into());
        if version % 50 == 0 {
            let content: String = text.iter().collect();
            assert_eq!(client.open(FRESH, &content), diagnostics);
            assert_eq!(answers(&mut client, EDITED), answers(&mut client, FRESH));
            as_check_says(&content, &diagnostics);
            refusals += diagnostics.len();
        }
        if edits > 10_000 {
            break;
        }
    }
    refusals
}

#[test]
fn ten_thousand_of_ascii() {
    assert!(ten_thousand(&BITS[..ASCII]) > 1_000);
}

#[test]
fn ten_thousand_of_any_text() {
    ten_thousand(&BITS);
}

/// 60 KiB of filters.
fn large() -> String {
    let one = include_str!("../../../../bindings/rust/examples/files/customers.roto");
    let mut text = String::new();
    while text.len() < 60 << 10 {
        text.push_str(one);
    }
    text
}

/// The shortest of some times in milliseconds in which an edit is answered: what others run meanwhile isn't measured. A refusal whose words
/// take longer comes with its number first.
fn shortest(client: &mut Client, line: usize, by: [&str; 2], in_two: bool) -> f64 {
    let mut times = Vec::new();
    for version in 0..20 {
        let end = by[(version + 1) % 2].len();
        let changes = json!([{ "range": on_line(line, 0, end), "text": by[version % 2] }]);
        let began = Instant::now();
        let first = client.change(EDITED, version as u64 + 2, changes);
        times.push(began.elapsed().as_secs_f64() * 1_000.0);
        if in_two {
            assert_eq!(first[0]["message"], "token not usable here");
            let then = client.diagnostics(EDITED);
            assert!(then[0]["message"].as_str().unwrap().contains("\nexpected one of"));
            assert_eq!(first[0]["range"], then[0]["range"]);
        }
    }
    times.sort_by(f64::total_cmp);
    println!("{:.2} to {:.2} ms", times[0], times[times.len() - 1]);
    times[0]
}

const MOST: f64 = 20.0;

#[test]
fn at_once() {
    let mut client = Client::with(json!(["utf-8"]));
    let text = large();
    assert_eq!(client.open(EDITED, &text), [] as [Value; 0]);
    let last = text.lines().count();
    // A comment comes and goes; then a word that can't stand there, behind all and before all.
    assert!(shortest(&mut client, last, ["//", "  "], false) < MOST);
    assert!(shortest(&mut client, last, [")", "}}"], false) < MOST);
    assert!(shortest(&mut client, 0, [") //", "} //"], false) < MOST);
}

#[test]
fn at_once_in_one_function() {
    let mut client = Client::with(json!(["utf-8"]));
    let text = format!("fn f() {{\n{}\n}}\n", "    if a.b(1) { c(\"d\", 10.0.0.1); }\n".repeat(60 * 1_024 / 39));
    assert_eq!(client.open(EDITED, &text), [] as [Value; 0]);
    assert!(shortest(&mut client, text.lines().count() - 2, [")", "=>"], true) < MOST);
}
