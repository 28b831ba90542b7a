//! The number of a float literal (C-17): our code against Rust's own `parse::<f64>` and `parse::<f32>`, and against our lexer's word
//! on what a float is.

mod made;
mod narrowed;
mod random;
mod speed;

use lekhyundo::sys;

/// Of document 01's rows.
const FLOAT: u64 = 11;

/// Number, start, end, width, bits.
type Answer = [u64; 5];

pub fn ours(text: &[u8]) -> Answer {
    let mut out = [u64::MAX; 5];
    // SAFETY: each pointer is to that many elements, and the library keeps none.
    unsafe { sys::lekhyundo_float(text.as_ptr(), text.len(), out.as_mut_ptr(), out.len()) };
    out
}

const LONGEST: usize = 65_535;

/// Whether our lexer takes the whole text as one token, and our values give it a row of kind 11; and no source is longer.
fn one_float(text: &[u8]) -> bool {
    let (mut step, mut row) = ([u64::MAX; 5], [u64::MAX; 4]);
    // SAFETY: as above.
    unsafe { sys::lekhyundo_step(text.as_ptr(), text.len(), 0, step.as_mut_ptr(), step.len()) };
    let [number, start, end, code, _] = step;
    if number != 0 || start != 0 || end != text.len() as u64 || text.len() > LONGEST {
        return false;
    }
    // SAFETY: as above.
    unsafe { sys::lekhyundo_literal(text.as_ptr(), text.len(), code, 0, text.len(), row.as_mut_ptr(), row.len()) };
    row[0] == 0 && row[1] == FLOAT
}

fn figures(text: &str) -> usize {
    text.find(|c: char| !c.is_ascii_digit() && c != '_').unwrap_or(text.len())
}

/// The digits before the point and after it, underscores dropped, and the suffix of a text that is one float with a value.
fn literal(text: &[u8]) -> Option<(String, String, &str)> {
    let digit = |text: &str| text.starts_with(|c: char| c.is_ascii_digit());
    let text = std::str::from_utf8(text).ok().filter(|text| text.len() <= LONGEST && digit(text))?;
    let (whole, rest) = text.split_at(figures(text));
    let (part, suffix) = match rest.strip_prefix('.').filter(|part| digit(part)) {
        Some(part) => part.split_at(figures(part)),
        None => ("", rest),
    };
    let float = matches!(suffix, "f32" | "f64") || suffix.is_empty() && !part.is_empty();
    float.then(|| (whole.replace('_', ""), part.replace('_', ""), suffix))
}

/// By document 02's words and Rust's parsers.
fn expected(text: &[u8]) -> Answer {
    const MOST: usize = 19;
    let refused = |number| [number, 0, text.len() as u64, 0, 0];
    let Some((whole, part, suffix)) = literal(text) else {
        return refused(7);
    };
    let digits = format!("{whole}{part}");
    if digits.trim_start_matches('0').len() > MOST || part.len() > MOST {
        return refused(14);
    }
    let decimal = format!("{whole}.{part}");
    let (width, bits) = match suffix {
        "f32" => (32, decimal.parse::<f32>().expect("a decimal").to_bits().into()),
        _ => (64, decimal.parse::<f64>().expect("a decimal").to_bits()),
    };
    [0, 0, text.len() as u64, width, bits]
}

#[derive(Default)]
pub struct Tally {
    texts: u64,
    floats: u64,
    long: u64,
    differences: u64,
}

impl Tally {
    pub fn text(&mut self, text: &[u8]) {
        let (got, want) = (ours(text), expected(text));
        self.texts += 1;
        self.floats += u64::from(want[0] == 0);
        self.long += u64::from(want[0] == 14);
        if got != want || one_float(text) != (want[0] != 7) {
            self.differences += 1;
            if self.differences < 10 {
                let shown = String::from_utf8_lossy(&text[..text.len().min(99)]);
                println!("DIFFERENT {shown:?}, {} bytes: {got:?} not {want:?}", text.len());
            }
        }
    }

    fn print(&self, what: &str) {
        let Tally { texts, floats, long, differences } = self;
        println!("{what:<12} {texts:>9} texts, {floats:>9} floats, {long:>8} with too many digits, {differences} differences");
    }
}

fn main() {
    let words: Vec<String> = std::env::args().skip(1).collect();
    match words.first().map(String::as_str) {
        Some("speed") => return speed::print(),
        Some("narrowed") => return narrowed::print(),
        _ => {}
    }
    let count = words.first().map_or(1_000_000, |text| text.parse().expect("a count"));
    let mut differences = 0;
    let mut run = |what: &str, make: &dyn Fn(&mut Tally)| {
        let mut tally = Tally::default();
        make(&mut tally);
        tally.print(what);
        differences += tally.differences;
    };
    run("short texts", &made::short);
    run("powers", &made::powers);
    run("ties", &made::ties);
    run("lengths", &made::lengths);
    run("random", &|tally| random::texts(count, tally));
    std::process::exit(i32::from(differences > 0));
}
