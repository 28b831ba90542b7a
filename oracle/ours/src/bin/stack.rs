//! How much stack the compiled library takes, measured on stacks of our own that were painted before: for each way to go
//! one level deeper that documents 01 and 02 limit, and for the deepest source that the limits leave. Frames add up, so that
//! source takes the dearest way at each level.

#[path = "../painted.rs"]
mod painted;

use lekhyundo::{
    MOST_ROWS,
    sys::{self, Entry},
};
use painted::Painted;
use protocol::WIDTH;

const LIMIT: usize = 32;

/// What is read, and where the answer goes.
struct Call<'a> {
    entry: Entry,
    source: &'a [u8],
    table: &'a mut [u64],
    answer: [u64; 4],
}

unsafe extern "C" fn read(call: *mut Call<'_>) {
    // SAFETY: `taken` lends one that nobody else holds, and each pointer is to that many elements.
    unsafe {
        let Call { entry, source, table, answer } = &mut *call;
        entry(source.as_ptr(), source.len(), table.as_mut_ptr(), table.len(), answer.as_mut_ptr(), 4);
    }
}

struct Measure {
    stack: Painted,
    table: Vec<u64>,
}

impl Measure {
    /// The bytes of stack that reading a source overwrites. The source stops where it is deepest: 11.
    fn taken(&mut self, entry: Entry, source: &str) -> usize {
        let mut call = Call { entry, source: source.as_bytes(), table: &mut self.table, answer: [0; 4] };
        let taken = self.stack.taken(read, &mut call);
        assert_eq!(call.answer[0], 11, "{source}");
        taken
    }

    /// What one level more takes, of those that a text opens.
    fn level(&mut self, open: &str) -> usize {
        let [less, more] = [8, 24].map(|times| self.taken(sys::lekhyundo_expression, &open.repeat(times)));
        (more - less) / 16
    }

    /// The text that takes most for a level, of the form `before text after`.
    fn dearest(&mut self, what: &str, frame: [&str; 2], texts: &[String]) -> String {
        let costs = texts.iter().map(|text| (self.level(&[frame[0], text, frame[1]].concat()), text));
        let mut costs: Vec<_> = costs.collect();
        costs.sort();
        for (bytes, text) in &costs {
            println!("{bytes:8} bytes a level: {what} `{}`", short(text));
        }
        costs.pop().expect("a text").1.clone()
    }
}

/// With what stands there 31 or 32 times said so.
fn short(text: &str) -> String {
    ["return ", "!", "else if 1{}"].iter().fold(text.to_string(), |text, part| {
        let some = |text: String, n| text.replace(&part.repeat(n), &format!("[{n} times {part}]"));
        some(some(text, LIMIT), LIMIT - 1)
    })
}

fn chain(links: usize) -> String {
    "if 1{}".to_string() + &"else if 1{}".repeat(links)
}

fn main() {
    let mut measure = Measure { stack: Painted::new(), table: vec![0; MOST_ROWS * WIDTH] };
    let owned = |texts: &[&str]| texts.iter().map(|text| text.to_string()).collect::<Vec<_>>();
    println!("{:8} bytes: the empty source", measure.taken(sys::lekhyundo_expression, ""));

    // A factor ends the row of return forms, so that as many signs may follow; what stands behind a sign of each level is read
    // inside what the sign joins.
    let (words, signs) = ("return ".repeat(LIMIT), "!".repeat(LIMIT));
    let mut prefixes = vec![String::new(), signs.clone(), words.clone(), format!("{words}1*{signs}")];
    prefixes.push(format!("{words}1||1&&1==1+1*{signs}"));
    let before = measure.dearest("a parenthesis behind", ["", "("], &prefixes);

    let mut brackets = owned(&[
        "(",
        "a(",
        "{",
        "{let a=",
        "{a:",
        "a{a:",
        "match 1{a=>",
        "match 1{a if ",
        "if 1{",
        "for a in 1{let a=",
        "f\"{",
    ]);
    brackets.extend(["", "let a="].iter().flat_map(|first| {
        [format!("{}else if 1{{{first}", chain(LIMIT - 1)), format!("{}else{{{first}", chain(LIMIT))]
    }));
    let bracket = measure.dearest("bracket", ["", ""], &brackets);

    let plain = measure.dearest("head", ["", ""], &owned(&["if ", "while ", "for a in ", "match "]));
    let head = measure.dearest("head", ["", ""], &[plain.clone(), chain(LIMIT - 1) + "else if "]);

    // A chain needs a head and a bracket to spare at each link, so the last head is a plain one.
    let outside = format!("{before}{head}").repeat(LIMIT - 1) + &format!("{before}{bracket}").repeat(LIMIT);
    let leaves = [
        "1",
        "a",
        "1.5f64",
        "0x1",
        "AS1",
        "1.2.3.4",
        "1:2:3:4:5:6:7:8",
        "\"\\u{1f600}\" ",
        "'\\u{1f600}' ",
        "f\"\\u{1f600}\"",
        "a.b?",
    ];
    let sources = leaves.map(|leaf| format!("const A:a={outside}{before}{plain}{before}{leaf}"));
    let sizes = sources.map(|source| (measure.taken(sys::lekhyundo_tree, &source), source));
    let (bytes, source) = sizes.into_iter().max().expect("some leaf");
    println!("{bytes:8} bytes: the deepest source, {} bytes long", source.len());
    if let Some(file) = std::env::args().nth(1) {
        std::fs::write(file, source).expect("the file is written");
    }
}
