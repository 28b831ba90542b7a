//! A sample of cases for entry (c) with a program's answers, in the form that vectors/README.md describes.

use std::{
    io::{self, BufReader, Write},
    process::{Command, Stdio},
    thread,
};

use crate::{random::Random, run::read_answer, texts};

const LONGEST: usize = 65_535;

/// Shebangs, f-strings, comments.
const EDGES: [&str; 20] = [
    "#!",
    "#! a",
    "#!\u{80}",
    " #!",
    "#!/bin/roto\nfn",
    "#!\n",
    "a f\"b\" ",
    "f\"{a}\" ",
    "(f\"\")",
    "1 f\"",
    "1f\"\" ",
    "af\"\" ",
    "f\n\"\" ",
    "\"f\" f\"",
    "a//b",
    "a//b\nc",
    "a//\"\n\"b\" ",
    "//\r\n//",
    "/ /",
    "1/2//3\n4",
];

struct Case {
    source: Vec<u8>,
    room: u64,
}

/// Runs the cases twice: once with room enough, to learn the counts, then with the rooms drawn for them.
pub fn print(count: usize, seed: u64, program: &[String]) {
    let mut r = Random::new(seed);
    let mut cases: Vec<Case> =
        sources(&mut r, count).into_iter().map(|source| Case { source, room: LONGEST as u64 + 1 }).collect();
    let counted = answers(program, &cases_text(&cases), count);
    for (case, answer) in cases.iter_mut().zip(&counted) {
        case.room = room(&mut r, answer, case.source.len());
    }
    let told = answers(program, &cases_text(&cases), count);
    let mut out = io::stdout().lock();
    for (case, answer) in cases.iter().zip(&told) {
        let whole = [header(case).as_bytes(), &case.source, b"\n", answer, b"\n"].concat();
        out.write_all(&whole).expect("standard output takes the sample");
    }
}

fn header(case: &Case) -> String {
    format!("c {} {}\n", case.source.len(), case.room)
}

fn cases_text(cases: &[Case]) -> Vec<u8> {
    cases.iter().flat_map(|case| [header(case).as_bytes(), &case.source].concat()).collect()
}

fn answers(program: &[String], text: &[u8], count: usize) -> Vec<Vec<u8>> {
    let started =
        Command::new(&program[0]).args(&program[1..]).stdin(Stdio::piped()).stdout(Stdio::piped()).spawn();
    let mut child = started.expect("the program starts");
    let mut stdin = child.stdin.take().expect("piped");
    let mut stdout = BufReader::new(child.stdout.take().expect("piped"));
    let list = thread::scope(|scope| {
        scope.spawn(move || stdin.write_all(text).expect("the program reads its cases"));
        (0..count).map(|_| read_answer(&mut stdout).expect("an answer for each case")).collect()
    });
    child.wait().expect("the program ends");
    list
}

/// Mostly just enough; one too few, none, or one more now and then.
fn room(r: &mut Random, answer: &[u8], length: usize) -> u64 {
    let count = std::str::from_utf8(answer)
        .ok()
        .and_then(|text| text.strip_prefix("accepted "))
        .and_then(|text| text.lines().next()?.parse::<u64>().ok());
    let Some(count) = count else {
        return r.below(length.min(9) + 1) as u64;
    };
    match r.below(10) {
        0 => 0,
        1 => count.saturating_sub(1),
        2 => count + 1,
        _ => count,
    }
}

fn sources(r: &mut Random, count: usize) -> Vec<Vec<u8>> {
    let mut list = fixed();
    while list.len() < count {
        let most = if r.once_in(12) { 120 } else { 30 };
        let size = r.below(most);
        let mut source = match r.below(8) {
            0 => texts::long_run(r, size),
            _ => texts::source(r, size, 12),
        };
        if r.once_in(4) {
            texts::damage(r, &mut source);
        }
        list.push(source);
    }
    list.truncate(count);
    list
}

/// The edges of each rule, and the few long sources.
fn fixed() -> Vec<Vec<u8>> {
    let mut list: Vec<Vec<u8>> = Vec::new();
    list.push(vec![]);
    list.extend((0..=255u8).map(|byte| vec![byte]));
    list.extend((0..=255u8).map(|byte| vec![b'a', byte, b' ']));
    list.extend(texts::SIGNS.iter().map(|sign| sign.as_bytes().to_vec()));
    for word in texts::WORDS {
        list.push(word.as_bytes().to_vec());
        list.push(format!("{word}s").into_bytes());
        list.push(word.as_bytes()[..word.len() - 1].to_vec());
    }
    list.extend(texts::NEAR.iter().flat_map(|text| {
        [text.as_bytes().to_vec(), format!("{text} ").into_bytes(), format!("{text}1 ").into_bytes()]
    }));
    list.extend(EDGES.iter().map(|text| text.as_bytes().to_vec()));
    let mut long = vec![b' '; LONGEST];
    long[..2].copy_from_slice(b"//");
    list.push(long.clone());
    long.push(b' ');
    list.push(long);
    for (first, fill, last) in
        [("\"", b'x', "\" "), ("", b'a', ""), ("", b'1', ""), ("::", b'f', ""), ("'", b'\\', "'")]
    {
        list.push([first.as_bytes(), &[fill; 3000], last.as_bytes()].concat());
    }
    list
}
