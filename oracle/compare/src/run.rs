//! Two programs side by side: each case goes to both, and their answers are compared byte by byte.

use std::{
    collections::BTreeMap,
    io::{BufRead, BufReader, Write},
    process::{Child, Command, Stdio},
    sync::{
        Arc,
        mpsc::{Receiver, SyncSender, sync_channel},
    },
    thread,
};

const BATCH_BYTES: usize = 1 << 18;
const BATCHES_AHEAD: usize = 4;
const SHOWN: usize = 20;

/// Cases in the form that a program reads, with the place of each source.
#[derive(Default)]
struct Batch {
    input: Vec<u8>,
    cases: Vec<Sent>,
}

struct Sent {
    entry: u8,
    /// The room or the position; for k the constant's number, perhaps the rooms of list and rows.
    numbers: Vec<u64>,
    source: std::ops::Range<usize>,
}

/// The answers to one batch, each without the empty line after it.
type Answers = Vec<Vec<u8>>;

pub struct Options {
    pub programs: [Vec<String>; 2],
    /// Every so many answers of the right program are changed before they are compared: a test of the comparison.
    pub spoil: Option<u64>,
    /// Differences are gathered by what this says of them, with the first and so smallest input of each.
    pub gather: Option<Gather>,
}

/// A word for a difference, from the source and the two answers.
pub type Gather = fn(&[u8], &[u8], &[u8]) -> String;

/// Takes cases from a generator and hands full batches on.
pub struct Sink {
    batch: Batch,
    ends: Vec<SyncSender<Arc<Batch>>>,
    wanted: bool,
}

impl Sent {
    /// Of what is answered; for k that of the list.
    fn room(&self) -> Option<u64> {
        self.numbers.get(usize::from(self.entry == b'k')).copied()
    }
}

impl Sink {
    /// Of a source made for another entry, k takes the first constant.
    pub fn case(&mut self, entry: u8, source: &[u8], room: Option<u64>) {
        match room {
            None if entry == b'k' => self.numbered(entry, source, &[0]),
            _ => self.numbered(entry, source, room.as_slice()),
        }
    }

    pub fn numbered(&mut self, entry: u8, source: &[u8], numbers: &[u64]) {
        let input = &mut self.batch.input;
        write!(input, "{} {}", entry as char, source.len()).expect("writing to memory");
        for number in numbers {
            write!(input, " {number}").expect("writing to memory");
        }
        input.push(b'\n');
        let start = input.len();
        input.extend_from_slice(source);
        let source = start..input.len();
        self.batch.cases.push(Sent { entry, numbers: numbers.to_vec(), source });
        if self.batch.input.len() >= BATCH_BYTES {
            self.send();
        }
    }

    /// False once nobody waits for more cases.
    pub fn wanted(&self) -> bool {
        self.wanted
    }

    fn send(&mut self) {
        let batch = Arc::new(std::mem::take(&mut self.batch));
        for end in &self.ends {
            self.wanted &= end.send(batch.clone()).is_ok();
        }
    }
}

/// What a run came to.
#[derive(Default)]
pub struct Report {
    pub cases: u64,
    pub differences: u64,
    accepted: u64,
    refused: BTreeMap<u64, u64>,
    first_numbers: BTreeMap<u64, u64>,
    exact_room: u64,
    one_short: u64,
    recounted: u64,
    /// Sources of which something was dropped, and the ranges.
    salvaged: u64,
    ranges: u64,
    /// The kinds of value that constants have.
    values: BTreeMap<String, u64>,
    classes: BTreeMap<String, (u64, String)>,
}

pub fn run(options: &Options, generate: impl FnOnce(&mut Sink) + Send) -> Report {
    let mut children: Vec<Child> = options.programs.iter().map(|program| start(program)).collect();
    let mut report = Report::default();
    thread::scope(|scope| {
        let mut ends = Vec::new();
        let mut sides = Vec::new();
        for child in &mut children {
            let mut stdin = child.stdin.take().expect("piped");
            let (end, batches) = sync_channel::<Arc<Batch>>(BATCHES_AHEAD);
            ends.push(end);
            scope.spawn(move || batches.iter().all(|batch| stdin.write_all(&batch.input).is_ok()));

            let stdout = BufReader::with_capacity(1 << 18, child.stdout.take().expect("piped"));
            let (end, batches) = sync_channel::<Arc<Batch>>(BATCHES_AHEAD);
            ends.push(end);
            let (answered, answers) = sync_channel(BATCHES_AHEAD);
            scope.spawn(move || read_answers(stdout, &batches, &answered));
            sides.push(answers);
        }
        let (end, batches) = sync_channel::<Arc<Batch>>(BATCHES_AHEAD);
        ends.push(end);
        scope.spawn(move || {
            let mut sink = Sink { batch: Batch::default(), ends, wanted: true };
            generate(&mut sink);
            sink.send();
        });
        for batch in batches {
            let (Ok(left), Ok(right)) = (sides[0].recv(), sides[1].recv()) else {
                fail("a program gave too few answers");
            };
            report.batch(options, &batch, &left, right);
        }
    });
    for mut child in children {
        let status = child.wait().expect("the program was started");
        if !status.success() {
            fail(&format!("a program ended in {status}"));
        }
    }
    report
}

/// Writes the cases that a generator makes to standard output, in the form that a program reads.
pub fn print(generate: impl FnOnce(&mut Sink) + Send) {
    let (end, batches) = sync_channel::<Arc<Batch>>(BATCHES_AHEAD);
    thread::scope(|scope| {
        scope.spawn(move || {
            let mut sink = Sink { batch: Batch::default(), ends: vec![end], wanted: true };
            generate(&mut sink);
            sink.send();
        });
        let mut out = std::io::stdout().lock();
        batches.iter().all(|batch| out.write_all(&batch.input).is_ok());
    });
}

pub fn start(program: &[String]) -> Child {
    Command::new(&program[0])
        .args(&program[1..])
        .stdin(Stdio::piped())
        .stdout(Stdio::piped())
        .spawn()
        .unwrap_or_else(|e| fail(&format!("{}: {e}", program[0])))
}

pub fn fail(message: &str) -> ! {
    eprintln!("compare: {message}");
    std::process::exit(2);
}

fn read_answers(mut stdout: impl BufRead, batches: &Receiver<Arc<Batch>>, answered: &SyncSender<Answers>) {
    for batch in batches {
        let mut answers = Vec::with_capacity(batch.cases.len());
        for _ in &batch.cases {
            match read_answer(&mut stdout) {
                Some(answer) => answers.push(answer),
                None => return,
            }
        }
        if answered.send(answers).is_err() {
            return;
        }
    }
}

/// The lines up to an empty one.
pub fn read_answer(stdout: &mut impl BufRead) -> Option<Vec<u8>> {
    let mut answer = Vec::new();
    loop {
        let before = answer.len();
        let read = stdout.read_until(b'\n', &mut answer).ok()?;
        if read == 0 {
            return None;
        }
        if answer[before..] == *b"\n" {
            answer.truncate(before);
            return Some(answer);
        }
    }
}

/// The numbers of a line of an answer, words left out.
pub fn numbers(line: &[u8]) -> impl Iterator<Item = u64> {
    let text = std::str::from_utf8(line).unwrap_or("");
    text.split(' ').filter_map(|word| word.trim_end().parse().ok())
}

/// Whether each row's last number is 1 and those of its children, counted anew: rows wait on a stack for their parent, and
/// one is left.
fn sizes_hold(answer: &[u8]) -> bool {
    let mut waiting: Vec<u64> = Vec::new();
    for line in answer.split(|byte| *byte == b'\n').skip(1).filter(|line| !line.is_empty()) {
        let row: Vec<u64> = numbers(line).collect();
        let [_, _, _, children, _, _, size] = row[..] else { return false };
        let Some(first) = waiting.len().checked_sub(children as usize) else { return false };
        if waiting.drain(first..).sum::<u64>() + 1 != size {
            return false;
        }
        waiting.push(size);
    }
    waiting.len() == 1
}

impl Report {
    fn batch(&mut self, options: &Options, batch: &Batch, left: &Answers, mut right: Answers) {
        for (i, case) in batch.cases.iter().enumerate() {
            self.cases += 1;
            self.count(case, &left[i]);
            if options.spoil.is_some_and(|every| self.cases % every == 0) {
                spoil(&mut right[i]);
            }
            if left[i] != right[i] {
                let source = &batch.input[case.source.clone()];
                let class = options.gather.map(|gather| gather(source, &left[i], &right[i]));
                self.difference(class, show(case, source), &left[i], &right[i]);
            } else if matches!(case.entry, b'a' | b'b') && left[i].starts_with(b"accepted") {
                self.recounted += 1;
                if !sizes_hold(&left[i]) {
                    let source = &batch.input[case.source.clone()];
                    self.difference(None, show(case, source), &left[i], b"a size that the recount doesn't give");
                }
            }
        }
    }

    fn count(&mut self, case: &Sent, answer: &[u8]) {
        let mut lines = answer.split(|byte| *byte == b'\n');
        let first = lines.next().unwrap_or(b"");
        let said: Vec<u64> = numbers(first).collect();
        if first.starts_with(b"accepted") {
            self.accepted += 1;
            if case.entry == b'k' {
                let word = first.split(|byte| *byte == b' ').nth(1).unwrap_or(b"");
                *self.values.entry(String::from_utf8_lossy(word).into_owned()).or_default() += 1;
                return;
            }
            self.exact_room += u64::from(case.room() == said.first().copied());
            if case.entry == b's' {
                let dropped = said.get(1).copied().unwrap_or(0);
                self.salvaged += u64::from(dropped > 0);
                self.ranges += dropped;
            }
            if case.entry != b'e' {
                for line in lines.filter(|line| !line.starts_with(b"range")) {
                    if let Some(number) = numbers(line).next() {
                        *self.first_numbers.entry(number).or_default() += 1;
                    }
                }
            }
        } else if let Some(number) = said.first() {
            *self.refused.entry(*number).or_default() += 1;
            if *number == 10 {
                self.one_short += u64::from(case.room().map(|room| room + 1) == said.last().copied());
            }
        }
    }

    fn difference(&mut self, class: Option<String>, shown: String, left: &[u8], right: &[u8]) {
        self.differences += 1;
        if let Some(class) = class {
            let text = format!("{shown}\n  left  {}\n  right {}", one_line(left), one_line(right));
            self.classes.entry(class).or_insert((0, text)).0 += 1;
        } else if self.differences <= SHOWN as u64 {
            println!("difference: {shown}\n  left  {}\n  right {}", one_line(left), one_line(right));
        }
    }

    pub fn print(&self) {
        for (class, (count, text)) in &self.classes {
            println!("{count} times: {class}\n  first {text}");
        }
        println!("{} cases: {} accepted", self.cases, self.accepted);
        for (number, count) in &self.refused {
            println!("  refused {number}: {count}");
        }
        for (word, count) in &self.values {
            println!("  accepted {word}: {count}");
        }
        let seen: Vec<_> = self.first_numbers.iter().map(|(n, count)| format!("{n}: {count}")).collect();
        println!("  codes or kinds in accepted answers: {}", seen.join(", "));
        println!("  room exact: {}, one too small: {}", self.exact_room, self.one_short);
        println!("  tables with all sizes recounted: {}", self.recounted);
        println!("  salvaged with something dropped: {}, ranges: {}", self.salvaged, self.ranges);
        println!("{} differences", self.differences);
    }
}

/// Both verdicts, and where both accept the first numbers of the first lines that differ.
pub fn class(_source: &[u8], left: &[u8], right: &[u8]) -> String {
    let verdict = |answer: &[u8]| {
        let line = answer.split(|byte| *byte == b'\n').next().unwrap_or(b"");
        match line.starts_with(b"accepted") {
            true => "accepted".to_string(),
            false => format!("refused {}", numbers(line).next().unwrap_or(0)),
        }
    };
    let (a, b) = (verdict(left), verdict(right));
    let mut class = format!("{a} against {b}");
    if a == "accepted" && b == "accepted" {
        let lines = |answer: &[u8]| -> Vec<Vec<u64>> {
            answer.split(|byte| *byte == b'\n').skip(1).map(|line| numbers(line).collect()).collect()
        };
        let (left, right) = (lines(left), lines(right));
        let at = left.iter().zip(&right).position(|(a, b)| a != b);
        let kinds = at.map(|at| (left[at].first().copied(), right[at].first().copied()));
        class += &format!(", first different lines {kinds:?}");
    }
    class
}

/// Changes the answer's last digit.
fn spoil(answer: &mut [u8]) {
    if let Some(digit) = answer.iter_mut().rev().find(|byte| byte.is_ascii_digit()) {
        *digit = if *digit == b'9' { b'0' } else { *digit + 1 };
    }
}

fn show(case: &Sent, source: &[u8]) -> String {
    let room = if case.numbers.is_empty() { String::new() } else { format!(" with {:?}", case.numbers) };
    let (cut, more) = if source.len() > 300 { (300, "..") } else { (source.len(), "") };
    let text = source[..cut].escape_ascii();
    format!("{} of {} bytes{room} `{text}{more}`", case.entry as char, source.len())
}

fn one_line(answer: &[u8]) -> String {
    let text = String::from_utf8_lossy(answer).trim_end().replace('\n', " / ");
    match text.char_indices().nth(300) {
        Some((at, _)) => format!("{}..", &text[..at]),
        None => text,
    }
}
