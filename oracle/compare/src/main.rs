//! Cases made up in many ways, answered by two programs, compared.

mod broken;
mod causes;
mod constants;
mod culprits;
mod grammar;
mod lexing;
mod random;
mod run;
mod sample;
mod texts;
mod values;

use run::{Options, Sink};

const USAGE: &str = "\
compare LEFT RIGHT [OPTION ..] MODE ..   compares two programs that speak the protocol of oracle/README.md
compare cases [OPTION ..] MODE ..        prints the cases that a mode makes
compare culprits COUNT SEED JUDGE NAMES [before|behind]
                                         whether NAMES' refusals of damaged texts name the first token that can't go there,
                                         judged by JUDGE; `before`, `behind`: another token is taken for it, to test this
compare sample COUNT SEED PROGRAM ..     prints cases of entry (c) with PROGRAM's answers (see vectors/README.md)

LEFT and RIGHT: oracle, full, ours (by tools/batch), or the path of a program.
Where both give the same rows, their sizes are counted anew.
Modes:
  exhaustive ALPHABET LONGEST    every text of up to LONGEST bytes; \\n \\t \\r \\\\ \\xHH stand for bytes
  tokens LONGEST                 every text of up to LONGEST tokens of a fixed list
  random COUNT SEED              tokens, near misses, blanks and comments, damage (made for entry c)
  valid COUNT SEED               texts of the grammar, f-strings among them, some at its limits (entries a and b)
  damaged COUNT SEED             such texts, damaged
  values COUNT SEED              single literals, good and bad (entry b; strings by e too)
  constants COUNT SEED           constants, typed and mistyped (entry k, as the two below)
  pairs                          pairs of edge values of each type under each operator: of 8 bits all, 25 to 106 of each wider type
  shapes                         chains, brackets and runs of signs of about 1,024 rows
  broken COUNT SEED              declarations cut, joined, interleaved, with quotes and brackets that nothing closes (entry s)
Options:
  -e ENTRY        a, b, c, e, f, k, p, s or w (else c for exhaustive and random, b for tokens, a and b by turns for the others)
  --list TOKENS   tokens for `tokens` instead of its own, a space between; \\x20 and the like stand for bytes
  --between TEXT  put between the tokens of a text instead of a space
  --before TEXT   put before each text of `tokens`
  --after TEXT    put after it
  --classes       differences gathered by kind, each with its first input
  --causes        for oracle and full: by the cause that docs/DIFFERENCES.md lists, or none
  --spoil N       every Nth answer of RIGHT is changed first: that many differences must be found
";

fn usage() -> ! {
    eprint!("{USAGE}");
    std::process::exit(2);
}

fn number<T: std::str::FromStr>(text: &str) -> T {
    text.parse().unwrap_or_else(|_| usage())
}

/// A text with `\n` and the like as bytes.
fn bytes(text: &str) -> Vec<u8> {
    let mut out = Vec::new();
    let mut rest = text.bytes();
    while let Some(byte) = rest.next() {
        if byte != b'\\' {
            out.push(byte);
            continue;
        }
        out.push(match rest.next() {
            Some(b'n') => b'\n',
            Some(b't') => b'\t',
            Some(b'r') => b'\r',
            Some(b'\\') => b'\\',
            Some(b'x') => {
                let digits: Vec<u8> = rest.by_ref().take(2).collect();
                let digits = String::from_utf8(digits).unwrap_or_default();
                u8::from_str_radix(&digits, 16).unwrap_or_else(|_| usage())
            }
            _ => usage(),
        });
    }
    out
}

/// The command for a program: by its short name through tools/batch beside this repository's oracle folder.
fn program(name: &str) -> Vec<String> {
    match name {
        "oracle" | "full" | "ours" => {
            let batch = concat!(env!("CARGO_MANIFEST_DIR"), "/../../tools/batch");
            vec![batch.to_string(), name.to_string()]
        }
        path => vec![path.to_string()],
    }
}

struct Arguments {
    options: Options,
    entry: Option<u8>,
    list: Vec<Vec<u8>>,
    between: Vec<u8>,
    before: Vec<u8>,
    after: Vec<u8>,
    mode: Vec<String>,
}

fn arguments(programs: [Vec<String>; 2], words: &[String]) -> Arguments {
    let mut rest = words.iter();
    let mut word = || rest.next().cloned();
    let options = Options { programs, spoil: None, gather: None };
    let mut all = Arguments {
        options,
        entry: None,
        list: vec![],
        between: b" ".to_vec(),
        before: vec![],
        after: vec![],
        mode: vec![],
    };
    while let Some(next) = word() {
        let mut value = || word().unwrap_or_else(|| usage());
        match next.as_str() {
            "-e" => all.entry = value().bytes().next(),
            "--list" => all.list = value().split(' ').filter(|word| !word.is_empty()).map(bytes).collect(),
            "--between" => all.between = bytes(&value()),
            "--before" => all.before = bytes(&value()),
            "--after" => all.after = bytes(&value()),
            "--spoil" => all.options.spoil = Some(number(&value())),
            "--classes" => all.options.gather = Some(run::class),
            "--causes" => all.options.gather = Some(causes::cause),
            _ => all.mode.push(next),
        }
    }
    all
}

fn generate(all: &Arguments, sink: &mut Sink) {
    let mode: Vec<&str> = all.mode.iter().map(String::as_str).collect();
    let entry = all.entry;
    match mode[..] {
        ["exhaustive", alphabet, longest] => {
            lexing::exhaustive(sink, entry.unwrap_or(b'c'), &bytes(alphabet), number(longest))
        }
        ["tokens", longest] => {
            let frame = (&all.before[..], &all.after[..]);
            grammar::tokens(sink, entry.unwrap_or(b'b'), number(longest), &all.list, &all.between, frame)
        }
        ["random", count, seed] => lexing::random(sink, entry.unwrap_or(b'c'), number(count), number(seed)),
        ["valid", count, seed] => grammar::random(sink, entry, number(count), number(seed), false),
        ["damaged", count, seed] => grammar::random(sink, entry, number(count), number(seed), true),
        ["constants", count, seed] => constants::random(sink, number(count), number(seed)),
        ["broken", count, seed] => broken::random(sink, number(count), number(seed)),
        ["pairs"] => constants::pairs(sink),
        ["shapes"] => constants::shapes(sink),
        ["values", count, seed] => values::random(sink, entry, number(count), number(seed)),
        _ => usage(),
    }
}

/// Whether every refusal named its true culprit.
fn culprits(words: &[String]) -> bool {
    let shift = match words.get(4).map(String::as_str) {
        None => culprits::Shift::None,
        Some("before") => culprits::Shift::Before,
        Some("behind") => culprits::Shift::Behind,
        Some(_) => usage(),
    };
    culprits::run(&program(&words[2]), &program(&words[3]), number(&words[0]), number(&words[1]), shift)
}

fn main() {
    let words: Vec<String> = std::env::args().skip(1).collect();
    if words.first().is_some_and(|word| word == "sample") && words.len() > 3 {
        sample::print(number(&words[1]), number(&words[2]), &words[3..]);
        return;
    }
    if words.first().is_some_and(|word| word == "culprits") && words.len() > 4 {
        std::process::exit(i32::from(!culprits(&words[1..])));
    }
    if words.first().is_some_and(|word| word == "cases") {
        let all = arguments([vec![], vec![]], &words[1..]);
        run::print(|sink| generate(&all, sink));
        return;
    }
    if words.len() < 3 {
        usage();
    }
    let all = arguments([program(&words[0]), program(&words[1])], &words[2..]);
    let begun = std::time::Instant::now();
    let report = run::run(&all.options, |sink| generate(&all, sink));
    report.print();
    println!("{:.1} seconds", begun.elapsed().as_secs_f64());
    std::process::exit(i32::from(report.differences > 0));
}
