//! Whether a refusal names the true culprit (C-24): one program's refusals of damaged texts, judged by another that is asked
//! nothing but whether texts are accepted, and where they are refused.

use std::{
    collections::BTreeMap,
    io::{BufReader, Write},
    process::{Child, ChildStdout},
    thread,
};

use crate::{grammar, random::Random, run};

/// Each word of the language once, and each kind of literal; no `f"`, since C-24 leaves f-strings out.
const WORDS: &str = "a _ 1 1.5 0x1 AS1 1.2.3.4 ::1 \"s\" 'c' true false \
    == => != <= >= && || -> += -= *= /= %= { } ( ) [ ] : ; , . = ? ! - + * / % < > \
    accept const dep else enum filter filtermap fn for if import in let match pkg record reject return std super test while";

/// What a completion is made of, in the order in which it is tried: what closes comes first, so that none goes on for ever.
const CLOSING: [&str; 11] = ["}", ")", "]", ";", "{", "=>", "=", ":", "in", "a", "("];

const LONGEST_COMPLETION: usize = 400;
const CHUNK: usize = 1000;
const SHOWN: u64 = 20;

/// Which token is taken for the named one: another than the answer's, as a test of this check.
#[derive(Clone, Copy, PartialEq)]
pub enum Shift {
    None,
    Before,
    Behind,
}

type Case = (u8, Vec<u8>);

enum Verdict {
    /// The lines behind the first.
    Accepted(Vec<Vec<usize>>),
    Refused(usize, usize, usize),
}

/// A program that answers by the protocol.
struct Program {
    child: Child,
    answers: BufReader<ChildStdout>,
}

impl Program {
    fn new(command: &[String]) -> Self {
        let mut child = run::start(command);
        let answers = BufReader::with_capacity(1 << 18, child.stdout.take().expect("piped"));
        Program { child, answers }
    }

    fn ask(&mut self, cases: &[Case]) -> Vec<Verdict> {
        let mut input = Vec::new();
        for (entry, source) in cases {
            writeln!(input, "{} {}", *entry as char, source.len()).expect("writing to memory");
            input.extend_from_slice(source);
        }
        let (child, answers) = (&mut self.child, &mut self.answers);
        let stdin = child.stdin.as_mut().expect("piped");
        thread::scope(|scope| {
            scope.spawn(move || stdin.write_all(&input).and_then(|()| stdin.flush()));
            let mut next =
                || run::read_answer(answers).unwrap_or_else(|| run::fail("a program gave too few answers"));
            cases.iter().map(|_| verdict(&next())).collect()
        })
    }
}

fn verdict(answer: &[u8]) -> Verdict {
    let mut lines = answer.split(|byte| *byte == b'\n').filter(|line| !line.is_empty());
    let first = lines.next().unwrap_or(b"");
    let row = |line| run::numbers(line).map(|n| n as usize).collect::<Vec<_>>();
    match row(first)[..] {
        [number, start, end, ..] if first.starts_with(b"refused") => Verdict::Refused(number, start, end),
        _ => Verdict::Accepted(lines.map(row).collect()),
    }
}

/// A source up to a place, a newline, which ends a comment too, and a word.
fn followed(source: &[u8], end: usize, word: &str) -> Vec<u8> {
    [&source[..end], b"\n", word.as_bytes()].concat()
}

/// A word could go at the end of a text: it is not what is refused, or only for a limit.
fn goes(verdict: &Verdict) -> bool {
    matches!(verdict, Verdict::Accepted(_) | Verdict::Refused(9 | 11, _, _))
}

struct Named {
    entry: u8,
    source: Vec<u8>,
    number: usize,
    start: usize,
    end: usize,
}

#[derive(Default)]
struct Tally {
    counts: BTreeMap<String, u64>,
    problems: u64,
    shown: u64,
    longest: usize,
}

impl Tally {
    fn add(&mut self, what: &str, many: u64) {
        *self.counts.entry(what.to_string()).or_default() += many;
    }

    fn problem(&mut self, what: &str, named: &Named) {
        self.problems += 1;
        self.note(what, named);
    }

    /// Counted, and the first of them shown.
    fn note(&mut self, what: &str, named: &Named) {
        self.add(what, 1);
        self.shown += 1;
        if self.shown <= SHOWN {
            let Named { entry, source, number, start, end } = named;
            println!("{what}: {number} at {start}, {end} of {} `{}`", *entry as char, source.escape_ascii());
        }
    }
}

/// So many refusals 6, and what else is met on the way.
pub fn run(judge: &[String], names: &[String], count: u64, seed: u64, shift: Shift) -> bool {
    let (mut judge, mut names) = (Program::new(judge), Program::new(names));
    let mut tally = Tally::default();
    let mut r = Random::new(seed);
    while tally.counts.get("6: refusals").copied().unwrap_or(0) < count {
        let cases: Vec<Case> = (0..CHUNK)
            .map(|i| if i % 2 == 0 { b'a' } else { b'b' })
            .map(|entry| (entry, grammar::source(&mut r, entry, true)))
            .collect();
        let refused = refusals(&mut judge, &mut names, cases, &mut tally, shift);
        for named in &refused {
            tally.add(&format!("{}: refusals", named.number), 1);
        }
        let (sixes, others): (Vec<_>, Vec<_>) = refused.into_iter().partition(|named| named.number == 6);
        barred(&mut judge, &sixes, &mut tally);
        replaced(&mut judge, &sixes, &mut tally);
        completed(&mut judge, sixes.iter().chain(&others), &mut tally);
    }
    for (what, many) in &tally.counts {
        println!("{many:>10}  {what}");
    }
    println!("longest completion: {} tokens; {} problems", tally.longest, tally.problems);
    tally.problems == 0
}

/// What is refused with 4, 6, 7 or 11, in sources of which (c) doesn't say 5.
fn refusals(
    judge: &mut Program,
    names: &mut Program,
    cases: Vec<Case>,
    tally: &mut Tally,
    shift: Shift,
) -> Vec<Named> {
    let answers = names.ask(&cases);
    let lists: Vec<Case> = cases.iter().map(|(_, source)| (b'c', source.clone())).collect();
    let lists = judge.ask(&lists);
    let mut found = Vec::new();
    for (((entry, source), answer), list) in cases.into_iter().zip(answers).zip(lists) {
        tally.add("sources", 1);
        match (answer, list) {
            (Verdict::Refused(4 | 6 | 7 | 11, _, _), Verdict::Refused(5, _, _)) => {
                tally.add("left out for an f-string", 1)
            }
            (Verdict::Refused(number @ (4 | 6 | 7 | 11), start, end), _) => {
                found.push(Named { entry, source, number, start, end })
            }
            _ => {}
        }
    }
    cut(judge, found, tally, shift)
}

/// The named token is one by the judge's lexer, with the source cut behind it, and those before it stay the same without it.
fn cut(judge: &mut Program, found: Vec<Named>, tally: &mut Tally, shift: Shift) -> Vec<Named> {
    let ends = |n: &Named| if matches!(n.number, 6 | 7) { n.end } else { n.start };
    let with: Vec<Case> = found.iter().map(|n| (b'c', followed(&n.source, ends(n), ""))).collect();
    let without: Vec<Case> = found.iter().map(|n| (b'c', followed(&n.source, n.start, ""))).collect();
    let (with, without) = (judge.ask(&with), judge.ask(&without));
    let mut kept = Vec::new();
    for ((mut named, with), without) in found.into_iter().zip(with).zip(without) {
        let (Verdict::Accepted(with), Verdict::Accepted(without)) = (with, without) else {
            tally.problem("no tokens up to the place", &named);
            continue;
        };
        let token = matches!(named.number, 6 | 7).then(|| with.last().cloned().unwrap_or_default());
        if token.as_ref().is_some_and(|token| token[1..] != [named.start, named.end]) {
            tally.problem("no token at the place", &named);
            continue;
        }
        if with.len() != without.len() + usize::from(token.is_some()) {
            tally.add("left out, since a cut there makes other tokens", 1);
            continue;
        }
        if named.number == 6 && shift != Shift::None && !shifted(judge, &mut named, &without, shift) {
            continue;
        }
        kept.push(named);
    }
    kept
}

/// Another token in place of the named one; false where there is none.
fn shifted(judge: &mut Program, named: &mut Named, before: &[Vec<usize>], shift: Shift) -> bool {
    let token = match shift {
        Shift::Before => before.last().cloned(),
        _ => match judge.ask(&[(b'c', named.source.clone())]).remove(0) {
            Verdict::Accepted(all) => all.get(before.len() + 1).cloned(),
            Verdict::Refused(..) => None,
        },
    };
    if let Some([_, start, end]) = token.as_deref() {
        (named.start, named.end) = (*start, *end);
    }
    token.is_some()
}

/// The verdicts on the sources up to a place with nothing and then each word behind it.
fn with_each(judge: &mut Program, sixes: &[Named], end: fn(&Named) -> usize) -> Vec<Vec<Verdict>> {
    let words: Vec<&str> = std::iter::once("").chain(WORDS.split(' ')).collect();
    let texts =
        |n: &Named| words.iter().map(|word| (n.entry, followed(&n.source, end(n), word))).collect::<Vec<_>>();
    let cases: Vec<Case> = sixes.iter().flat_map(texts).collect();
    let mut verdicts = judge.ask(&cases).into_iter();
    sixes.iter().map(|_| verdicts.by_ref().take(words.len()).collect()).collect()
}

/// With the named token, no text goes on: it is refused there, whatever stands behind it.
fn barred(judge: &mut Program, sixes: &[Named], tally: &mut Tally) {
    for (named, verdicts) in sixes.iter().zip(with_each(judge, sixes, |named| named.end)) {
        tally.add("6: texts that go on behind the named token", verdicts.len() as u64);
        let there = |verdict: &Verdict| matches!(verdict, Verdict::Refused(6, a, b) if (*a, *b) == (named.start, named.end));
        if !verdicts.iter().all(there) {
            tally.problem("6: the named token is passed", named);
        }
    }
}

/// Another word in place of the named token, or the end: one of them can go there.
fn replaced(judge: &mut Program, sixes: &[Named], tally: &mut Tally) {
    for (named, verdicts) in sixes.iter().zip(with_each(judge, sixes, |named| named.start)) {
        let good = verdicts[1..].iter().filter(|verdict| goes(verdict)).count() as u64;
        tally.add("6: words tried in its place", verdicts.len() as u64 - 1);
        tally.add("6: words that can stand in its place", good);
        match (good, &verdicts[0]) {
            (0, Verdict::Accepted(_)) => tally.add("6: only the end can stand in its place", 1),
            (0, Verdict::Refused(..)) => tally.problem("6: nothing can stand in its place", named),
            _ => {}
        }
    }
}

/// The tokens before the place can be completed to a text that the judge accepts; for 7 a good literal stands for the named one.
fn completed<'a>(judge: &mut Program, all: impl Iterator<Item = &'a Named>, tally: &mut Tally) {
    let begun = |n: &Named| followed(&n.source, n.start, if n.number == 7 { "1" } else { "" });
    let mut open: Vec<(&Named, Vec<u8>)> = all.map(|named| (named, begun(named))).collect();
    let first: Vec<Case> = open.iter().map(|(named, text)| (named.entry, text.clone())).collect();
    let mut verdicts = judge.ask(&first).into_iter();
    open.retain(|(named, _)| match verdicts.next() {
        Some(Verdict::Accepted(_)) => {
            tally.add(&format!("{}: completed", named.number), 1);
            false
        }
        Some(Verdict::Refused(11, _, _)) => true,
        _ => {
            tally.problem("what stands before the place is refused", named);
            false
        }
    });
    for length in 1..=LONGEST_COMPLETION {
        if open.is_empty() {
            break;
        }
        open = longer(judge, open, length, tally);
    }
    for (named, _) in open {
        tally.note(&format!("{}: no completion found", named.number), named);
    }
}

/// Each text with one more token of a completion; those that are accepted so are done.
fn longer<'a>(
    judge: &mut Program,
    open: Vec<(&'a Named, Vec<u8>)>,
    length: usize,
    tally: &mut Tally,
) -> Vec<(&'a Named, Vec<u8>)> {
    let tried = |(named, text): &(&Named, Vec<u8>)| {
        CLOSING.map(|word| (named.entry, followed(text, text.len(), word)))
    };
    let cases: Vec<Case> = open.iter().flat_map(tried).collect();
    let verdicts = judge.ask(&cases);
    let mut still = Vec::new();
    for ((i, (named, _)), verdicts) in open.iter().enumerate().zip(verdicts.chunks(CLOSING.len())) {
        let at = |wanted: fn(&Verdict) -> bool| verdicts.iter().position(wanted);
        if at(|verdict| matches!(verdict, Verdict::Accepted(_))).is_some() {
            tally.add(&format!("{}: completed", named.number), 1);
            tally.longest = tally.longest.max(length);
        } else if let Some(next) = at(|verdict| matches!(verdict, Verdict::Refused(11, _, _))) {
            still.push((*named, cases[i * CLOSING.len() + next].1.clone()));
        } else if at(|verdict| matches!(verdict, Verdict::Refused(9, _, _))).is_some() {
            tally.add(&format!("{}: no completion within the limits", named.number), 1);
        } else {
            tally.note(&format!("{}: no completion found", named.number), named);
        }
    }
    still
}
