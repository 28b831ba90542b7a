//! Constants for entry k (C-18): typed expressions and mistyped ones, pairs of edge values, and the longest shapes.

use crate::{random::Random, run::Sink, texts};

/// A signed or unsigned integer type, `f64` or `bool`; `Bare` is what stands under a comparison.
#[derive(Clone, Copy, PartialEq)]
enum Type {
    Integer(&'static str, u32, bool),
    F64,
    Bool,
    Bare,
}

const INTEGERS: [(&str, u32, bool); 8] = [
    ("i8", 8, true),
    ("i16", 16, true),
    ("i32", 32, true),
    ("i64", 64, true),
    ("u8", 8, false),
    ("u16", 16, false),
    ("u32", 32, false),
    ("u64", 64, false),
];

const I64: Type = Type::Integer("i64", 64, true);

/// The ceiling of a literal without a suffix.
const PLAIN: u128 = i64::MAX as u128;

impl Type {
    fn any(r: &mut Random) -> Self {
        match r.below(12) {
            0 | 1 => Type::F64,
            2 | 3 => Type::Bool,
            _ => Type::an_integer(r),
        }
    }

    fn an_integer(r: &mut Random) -> Self {
        let (name, bits, signed) = INTEGERS[r.below(INTEGERS.len())];
        Type::Integer(name, bits, signed)
    }

    fn name(self) -> &'static str {
        match self {
            Type::Integer(name, ..) => name,
            Type::F64 => "f64",
            Type::Bool => "bool",
            Type::Bare => "i64",
        }
    }

    fn greatest(self) -> u128 {
        match self {
            Type::Integer(_, bits, signed) => (1 << (bits - u32::from(signed))) - 1,
            _ => PLAIN,
        }
    }

    /// Whether `-` is for it.
    fn signed(self) -> bool {
        matches!(self, Type::Integer(_, _, true) | Type::F64 | Type::Bare)
    }
}

/// How tightly a text holds together: an operand, then document 01's levels, loosest last.
type Level = usize;
const OPERAND: Level = 0;
const COMPARISON: Level = 3;
const LEVELS: [&[&str]; 6] =
    [&[], &["*", "/", "%"], &["+", "-"], &["==", "!=", "<", "<=", ">", ">="], &["&&"], &["||"]];

struct Maker<'a> {
    r: &'a mut Random,
    /// A row once in so many is of a type or a form that isn't wanted.
    wrong: usize,
}

impl Maker<'_> {
    fn expr(&mut self, wanted: Type, budget: usize) -> (String, Level) {
        if self.r.once_in(self.wrong) {
            return match self.r.below(3) {
                0 => self.other_form(wanted, budget),
                _ => {
                    let other = if self.r.once_in(4) { Type::Bare } else { Type::any(self.r) };
                    self.expr(other, budget)
                }
            };
        }
        if budget == 0 {
            return (self.literal(wanted), OPERAND);
        }
        let mut made = match (wanted, self.r.below(8)) {
            (_, 0) => (self.literal(wanted), OPERAND),
            (Type::Bool, 1 | 2) => self.prefixed("!", wanted, budget),
            (Type::Bool, 3..=5) => self.binary(COMPARISON, Type::Bare, budget),
            (Type::Bool, level) => self.binary(4 + level % 2, wanted, budget),
            (_, 1 | 2) if wanted.signed() => self.prefixed("-", wanted, budget),
            (_, 3..=5) => self.binary(1, wanted, budget),
            _ => self.binary(2, wanted, budget),
        };
        if self.r.once_in(10) {
            made = (format!("({})", made.0), OPERAND);
        }
        made
    }

    fn gap(&mut self) -> &'static str {
        match self.r.below(20) {
            0 => " //c\n",
            1 => "\n",
            2..=8 => "",
            _ => " ",
        }
    }

    fn prefixed(&mut self, sign: &str, wanted: Type, budget: usize) -> (String, Level) {
        let inner = self.expr(wanted, budget - 1);
        let many = if self.r.once_in(20) { 1 + self.r.below(33) } else { 1 };
        (format!("{}{}", sign.repeat(many), self.within(inner, OPERAND)), OPERAND)
    }

    fn binary(&mut self, level: Level, under: Type, budget: usize) -> (String, Level) {
        let left = self.r.below(budget);
        let (left, right) = (self.expr(under, left), self.expr(under, budget - 1 - left));
        // Comparisons aren't chained, the others group to the left.
        let left = self.within(left, if level == COMPARISON { level - 1 } else { level });
        let right = self.within(right, level - 1);
        let sign = self.r.pick(LEVELS[level]);
        let (before, after) = (self.gap(), self.gap());
        // `a/` and `/b` would be a comment together.
        let after = if sign == "/" && after.starts_with("//") { " " } else { after };
        (format!("{left}{before}{sign}{after}{right}"), level)
    }

    /// In parentheses where it holds together less tightly than that, but once in a while not.
    fn within(&mut self, (text, level): (String, Level), most: Level) -> String {
        if level <= most || self.r.once_in(200) { text } else { format!("({text})") }
    }

    fn literal(&mut self, wanted: Type) -> String {
        match wanted {
            Type::Bool => self.r.pick(&["true", "false"]).to_string(),
            Type::F64 => self.float(),
            _ => self.integer(wanted),
        }
    }

    fn integer(&mut self, wanted: Type) -> String {
        let greatest = wanted.greatest();
        let value = match self.r.below(10) {
            0 if self.r.once_in(4) => 0,
            0..=3 => 1 + self.r.below(12) as u128,
            4 | 5 => greatest - self.r.below(3) as u128,
            6 => (1u128 << self.r.below(64)).min(greatest),
            7 if self.r.once_in(self.wrong) => greatest + 1 + self.r.below(2) as u128,
            _ => self.r.next() as u128 >> self.r.below(64) & greatest,
        };
        if value <= PLAIN && self.r.once_in(12) {
            return format!("0x{value:x}");
        }
        let digits = self.figures(&value.to_string());
        let suffix = match wanted {
            Type::Integer(name, ..) if value > PLAIN || self.r.once_in(3) => name,
            _ if self.r.once_in(self.wrong) => self.r.pick(&["i8", "i64", "u8", "u64", "f64", "f32"]),
            _ => "",
        };
        format!("{digits}{suffix}")
    }

    /// Zeros before them or underscores among them, now and then.
    fn figures(&mut self, digits: &str) -> String {
        match self.r.below(30) {
            0 => format!("00{digits}"),
            1 => digits.split_at(1).0.to_string() + "_" + digits.split_at(1).1,
            _ => digits.to_string(),
        }
    }

    fn float(&mut self) -> String {
        const EDGES: [&str; 12] = [
            "0.0",
            "1.0",
            "2.0",
            "0.1",
            "0.5",
            "0.3",
            "1f64",
            "0f64",
            "9007199254740993.0",
            "9999999999999999999f64",
            "0.0000000000000000001",
            "4611686018427387904.0",
        ];
        if self.r.once_in(3) {
            return self.r.pick(&EDGES).to_string();
        }
        // 19 digits are let through, on either side of the point and together.
        let most = if self.r.once_in(self.wrong) { 21 } else { 17 };
        let length = 2 + self.r.below(most);
        let before = 1 + self.r.below(length - 1);
        let mut digits: Vec<u8> = Vec::new();
        self.r.run(b"0123456789", length, length, &mut digits);
        let digits = String::from_utf8(digits).expect("digits");
        let (whole, part) = digits.split_at(before);
        let suffix = match self.r.below(4) {
            0 => "f64",
            1 if self.r.once_in(self.wrong) => "f32",
            _ => "",
        };
        format!("{whole}.{part}{suffix}")
    }

    /// "no names", and no other form either; what stands in it is often of the type wanted.
    fn other_form(&mut self, wanted: Type, budget: usize) -> (String, Level) {
        let budget = budget / 2;
        let inner = self.expr(wanted, budget).0;
        let text = match self.r.below(20) {
            0 => "a".to_string(),
            1 => "a.b".to_string(),
            2 => format!("f({inner})"),
            3 => format!("({inner})(1)"),
            4 => format!("({inner})?"),
            5 => format!("({inner}).b"),
            6 => format!("{{{inner}}}"),
            7 => format!("if true {{{inner}}} else {{1}}"),
            8 => format!("if 1 == 1 {{{inner}}}"),
            9 => format!("match {inner} {{a => 1}}"),
            10 => format!("while {inner} {{}}"),
            11 => format!("f\"{{{inner}}}\""),
            12 => format!("f\"a{{{inner}}}\""),
            13 => "\"s\"".to_string(),
            14 => "'c'".to_string(),
            15 => "AS1".to_string(),
            16 => "1.2.3.4".to_string(),
            17 => "::1".to_string(),
            18 => format!("a {{b: {inner}}}"),
            _ => format!("(a = {inner})"),
        };
        (text, OPERAND)
    }

    fn declared(&mut self, wanted: Type) -> &'static str {
        const OTHERS: [&str; 20] = [
            "f32", "u128", "i128", "u8?", "bool?", "a.u8", "u8.a", "u8[]", "u8[u8]", "()", "!", "{}",
            "{a: u8}", "pkg", "String", "U8", "f6", "boolean", "i", "_",
        ];
        if self.r.once_in(40) { self.r.pick(&OTHERS) } else { wanted.name() }
    }

    fn constant(&mut self) -> String {
        let wanted = Type::any(self.r);
        let budget = [0, 1, 2, 4, 8, 20][self.r.below(6)];
        let (expr, _) = self.expr(wanted, budget);
        let declared = self.declared(wanted);
        format!("const A: {declared} = {expr};")
    }

    fn source(&mut self) -> String {
        const OTHERS: [&str; 7] = [
            "import a;",
            "import a.{b, c};",
            "fn f() {}",
            "fn f(a: u8) -> u8 { let b = 1; a + b }",
            "filter g() { accept }",
            "filtermap g(a: u8) { if a == 1 { accept } reject }",
            "fn k() { if 1 / 0 == 1 {} }",
        ];
        let mut source = String::new();
        let many = if self.r.once_in(4) { 1 + self.r.below(4) } else { 1 };
        for _ in 0..many {
            if self.r.once_in(6) {
                source += self.r.pick(&OTHERS);
                source += self.gap();
            }
            source += &self.constant();
            source += self.gap();
        }
        source
    }
}

/// So many sources, most of them with one constant; rooms and numbers that are too small or too large now and then.
pub fn random(sink: &mut Sink, count: u64, seed: u64) {
    let mut r = Random::new(seed);
    for _ in 0..count {
        if !sink.wanted() {
            return;
        }
        let wrong = [100_000, 100_000, 60, 12][r.below(4)];
        let mut source = Maker { r: &mut r, wrong }.source().into_bytes();
        if r.once_in(50) {
            texts::damage(&mut r, &mut source);
        }
        let number = match r.below(20) {
            0 => r.below(6) as u64,
            1 if r.once_in(20) => u64::MAX - r.below(3) as u64,
            _ => 0,
        };
        let mut numbers = vec![number];
        if r.once_in(8) {
            numbers.push(r.below(24) as u64);
            if r.once_in(3) {
                numbers.push(r.below(50) as u64);
            }
        }
        sink.numbered(b'k', &source, &numbers);
    }
}

/// A text for a number of a type, which is an operand: the least has no literal of its own.
fn written(wanted: Type, value: i128) -> String {
    let literal = |value: u128| {
        let suffix = if value > PLAIN { wanted.name() } else { "" };
        format!("{value}{suffix}")
    };
    let greatest = wanted.greatest() as i128;
    match value {
        0.. => literal(value as u128),
        _ if -value > greatest => format!("(-{greatest}-1)"),
        _ => format!("(-{})", literal(-value as u128)),
    }
}

/// All values of 8 bits; else those near 0, near each end and near some powers of two.
fn edges(wanted: Type) -> Vec<i128> {
    let Type::Integer(_, bits, signed) = wanted else { unreachable!("an integer type") };
    let greatest = wanted.greatest() as i128;
    let least = if signed { -greatest - 1 } else { 0 };
    if bits == 8 {
        return (least..=greatest).collect();
    }
    let powers = [1, 2, 3, 4, 7, 8, 15, 16, 24, 31, 32, 33, 47, 48, 53, 62, 63, 64];
    let near = |power: u32| [(1i128 << power) - 1, 1 << power, (1 << power) + 1];
    let mut all: Vec<i128> =
        powers.into_iter().flat_map(near).chain([0, 5, 10, 100, 1_000_003, greatest - 1, greatest]).collect();
    all.extend(all.clone().iter().map(|value| -value));
    all.extend([least, least + 1]);
    all.retain(|value| (least..=greatest).contains(value));
    all.sort_unstable();
    all.dedup();
    all
}

/// Zeros, ones, ties, the largest and the least literals, infinities, a NaN, products near the ends of the range.
fn float_edges() -> Vec<String> {
    const PLAIN: [&str; 17] = [
        "0.0",
        "1.0",
        "2.0",
        "3.0",
        "0.1",
        "0.2",
        "0.5",
        "1.5",
        "2.5",
        "5.5",
        "9007199254740991.0",
        "9007199254740992.0",
        "9007199254740993.0",
        "9999999999999999999f64",
        "0.0000000000000000001",
        "0.3333333333333333333",
        "18.44674407370955161",
    ];
    let product = |text: &str, many: usize| format!("({})", vec![text; many].join("*"));
    let least = "0.0000000000000000001";
    let most = "9999999999999999999f64";
    let mut all: Vec<String> = PLAIN.iter().map(|text| text.to_string()).collect();
    all.extend([
        product(least, 16),
        product(least, 17),
        format!("({least}/{})", product(most, 15)),
        product(most, 16),
    ]);
    all.extend([format!("({}*10000.0)", product(most, 16)), "(1.0/0.0)".to_string()]);
    let negative: Vec<String> = all.iter().map(|text| format!("(-{text})")).collect();
    all.extend(negative);
    all.push("(0.0/0.0)".to_string());
    all
}

fn pair(sink: &mut Sink, declared: &str, left: &str, sign: &str, right: &str) {
    sink.numbered(b'k', format!("const A:{declared}={left}{sign}{right};").as_bytes(), &[0]);
}

/// Every pair of edge values under each operator that the type has, and each value under a sign; comparisons of i64, `&&` and `||`.
pub fn pairs(sink: &mut Sink) {
    const SUMS: [&str; 5] = ["+", "-", "*", "/", "%"];
    for (name, bits, signed) in INTEGERS {
        let wanted = Type::Integer(name, bits, signed);
        let texts: Vec<String> = edges(wanted).into_iter().map(|value| written(wanted, value)).collect();
        each(sink, name, &texts, &SUMS);
        if signed {
            texts.iter().for_each(|text| pair(sink, name, "", "-", text));
        }
    }
    let texts: Vec<String> = edges(I64).into_iter().map(|value| written(I64, value)).collect();
    each(sink, "bool", &texts, LEVELS[COMPARISON]);
    let floats = float_edges();
    each(sink, "f64", &floats, &SUMS);
    floats.iter().for_each(|text| pair(sink, "f64", "", "-", text));
    let bools = ["true", "false"].map(str::to_string);
    each(sink, "bool", &bools, &["&&", "||", "==", "!=", "<", "+", "%"]);
    bools.iter().for_each(|text| pair(sink, "bool", "", "!", text));
}

fn each(sink: &mut Sink, declared: &str, texts: &[String], signs: &[&str]) {
    for left in texts {
        for right in texts {
            signs.iter().for_each(|sign| pair(sink, declared, left, sign, right));
        }
        if !sink.wanted() {
            return;
        }
    }
}

/// About 1,024 rows of each shape, for lists with room and without.
pub fn shapes(sink: &mut Sink) {
    for rows in 1_015..1_030usize {
        for parts in PARTS {
            for shape in SHAPES {
                let source = format!("const A: {} = {};", parts.declared, shape(&parts, rows));
                let rooms = [0, rows as u64 - 1, rows as u64, 1_023, 1_024];
                sink.numbered(b'k', source.as_bytes(), &[0]);
                rooms.iter().for_each(|room| sink.numbered(b'k', source.as_bytes(), &[0, *room]));
            }
        }
    }
}

/// A type's literal, and an operator and a sign that it has.
struct Parts {
    declared: &'static str,
    one: &'static str,
    operator: &'static str,
    sign: &'static str,
}

const PARTS: [Parts; 5] = [
    Parts { declared: "i8", one: "1", operator: "+", sign: "-" },
    Parts { declared: "u64", one: "1", operator: "+", sign: "-" },
    Parts { declared: "f64", one: "1.5", operator: "+", sign: "-" },
    Parts { declared: "bool", one: "true", operator: "&&", sign: "!" },
    Parts { declared: "f32", one: "1", operator: "+", sign: "-" },
];

impl Parts {
    /// A text of so many rows, filled up to `rows`: two for an operator and a literal behind it, one for a sign before it.
    fn filled(&self, text: &str, many: usize, rows: usize) -> String {
        let left = rows - many;
        let sign = if left % 2 == 1 { self.sign } else { "" };
        format!("{sign}{text}{}", format!("{}{}", self.operator, self.one).repeat(left / 2))
    }

    /// As many of a text of so many rows as fit, with operators between, filled up.
    fn groups(&self, text: &str, many: usize, rows: usize) -> String {
        let times = (rows + 1) / (many + 1);
        self.filled(&vec![text; times].join(self.operator), times * (many + 1) - 1, rows)
    }
}

const SHAPES: [fn(&Parts, usize) -> String; 6] = [
    // To the left: each operator's left side is all before it.
    |parts, rows| parts.filled(parts.one, 1, rows),
    // To the right, in 31 brackets.
    |parts, rows| {
        let open = format!("{}{}(", parts.one, parts.operator).repeat(31);
        parts.groups(&format!("{open}{}{}", parts.one, ")".repeat(31)), 63, rows)
    },
    // Runs of 31 signs.
    |parts, rows| parts.groups(&format!("{}{}", parts.sign.repeat(31), parts.one), 32, rows),
    // Such a run before each of 31 brackets.
    |parts, rows| {
        let open = format!("{}(", parts.sign.repeat(31)).repeat(31);
        parts.filled(&format!("{open}{}{}", parts.one, ")".repeat(31)), 962, rows)
    },
    // Halves in brackets, and halves in those.
    |parts, rows| halves(parts, rows.div_ceil(2)),
    // A divisor that comes to zero at the end of a chain.
    |parts, rows| format!("{}/({}-{})", parts.filled(parts.one, 1, rows - 4), parts.one, parts.one),
];

/// So many literals.
fn halves(parts: &Parts, many: usize) -> String {
    match many {
        0 | 1 => parts.one.to_string(),
        _ => format!("({}{}{})", halves(parts, many / 2), parts.operator, halves(parts, many - many / 2)),
    }
}
