//! Texts of the grammar of documents 01 and 02 for entries (a) and (b), some nested as deep as its limits, and damaged ones.

use crate::{lexing, random::Random, run::Sink, texts};

/// A token of each kind that the parser tells apart, a literal without a value, and what is no token.
const TOKENS: [&str; 56] = [
    "a", "_", "1", "1.5", "0x1", "AS1", "1.2.3.4", "::1", "\"s\"", "'c'", "true", "pkg", "std", "{", "}",
    "(", ")", "[", "]", ":", ";", ",", ".", "=", "+=", "%=", "==", "<", "=>", "->", "?", "!", "-", "+", "*",
    "&&", "||", "if", "else", "while", "for", "in", "match", "let", "import", "return", "accept", "const",
    "fn", "filter", "test", "record", "0x", "f\"", "$", "'' ",
];

/// What goes a level deeper, and what closes it again.
const FORMS: [(&str, &str); 23] = [
    ("(", ")"),
    ("{", "}"),
    ("f(", ")"),
    ("{a: ", "}"),
    ("a{b: ", "}"),
    ("!", ""),
    ("-", ""),
    ("a-", ""),
    ("return ", ""),
    ("accept !", ""),
    ("if ", "{}"),
    ("while ", "{}"),
    ("for a in ", "{}"),
    ("match ", "{}"),
    ("if a {", "}"),
    ("if (", ") {}"),
    ("match a {b => ", "}"),
    ("match a {b if ", " => 1}"),
    ("if a {} else ", ""),
    ("{let a: b[c] = ", ";}"),
    ("f\"{", "}\""),
    ("f\"a{", "}{{\""),
    ("{f\"{1}{ ", "}\"}"),
];

/// Every text of up to so many of these tokens; a list of the caller's own instead if there is one.
pub fn tokens(
    sink: &mut Sink,
    entry: u8,
    longest: usize,
    own: &[Vec<u8>],
    between: &[u8],
    frame: (&[u8], &[u8]),
) {
    let own: Vec<&[u8]> = own.iter().map(Vec::as_slice).collect();
    let all: Vec<&[u8]> = TOKENS.iter().map(|text| text.as_bytes()).collect();
    let parts = if own.is_empty() { all } else { own };
    lexing::joined(sink, entry, &parts, longest, between, frame);
}

pub fn random(sink: &mut Sink, entry: Option<u8>, count: u64, seed: u64, damaged: bool) {
    let mut r = Random::new(seed);
    for i in 0..count {
        if !sink.wanted() {
            return;
        }
        let entry = entry.unwrap_or(if i % 2 == 0 { b'a' } else { b'b' });
        let source = source(&mut r, entry, damaged);
        let room = if r.once_in(8) { Some(r.below(40) as u64) } else { None };
        sink.case(entry, &source, room);
    }
}

pub fn source(r: &mut Random, entry: u8, damaged: bool) -> Vec<u8> {
    let mut source = one(r, entry);
    if damaged {
        for _ in 0..1 + r.below(2) {
            match r.once_in(4) {
                true => stray(r, &mut source),
                false => texts::damage(r, &mut source),
            }
        }
    }
    source
}

/// Puts in a part of an f-string, or a text that is against the string rule.
fn stray(r: &mut Random, source: &mut Vec<u8>) {
    const PARTS: [&str; 18] = [
        "f\"",
        "\"",
        "{",
        "}",
        "{{",
        "}}",
        "\\",
        "\\u",
        "\\u{",
        "\\U{41}",
        "\\u{d800}",
        "\\x7b",
        "\\x80",
        "\\q",
        "\\\n",
        "\r",
        "\"}",
        "f\"{",
    ];
    let at = r.below(source.len() + 1);
    source.splice(at..at, r.pick(&PARTS).bytes());
}

fn one(r: &mut Random, entry: u8) -> Vec<u8> {
    let budget = [3, 6, 12, 40, 200][r.below(5)];
    let mut text = Text { r, out: Vec::new(), budget, ban: false };
    if entry == b'b' {
        match text.r.once_in(6) {
            true => text.nested(),
            false => text.expr(),
        }
    } else if text.r.once_in(8) {
        text.put("fn f() { 0;");
        text.nested();
        text.put("}");
    } else {
        text.times(4, Text::declaration);
    }
    text.out
}

/// A short declaration, its word first.
pub fn short(r: &mut Random) -> Vec<u8> {
    let mut text = Text { r, out: Vec::new(), budget: 6, ban: false };
    text.declaration();
    text.out.trim_ascii_start().to_vec()
}

struct Text<'a> {
    r: &'a mut Random,
    out: Vec<u8>,
    /// Falls with each expr, type and statement; at 0 only the smallest are made.
    budget: usize,
    /// Whether records are banned where we stand.
    ban: bool,
}

impl Text<'_> {
    /// A token and what may stand before it: a blank or a comment, or nothing beside a bracket, comma or `;`.
    fn put(&mut self, token: &str) {
        const ALONE: &[u8] = b"(){}[],;";
        let beside = |byte: Option<&u8>| byte.is_none_or(|byte| ALONE.contains(byte));
        let glued = beside(self.out.last()) || beside(token.as_bytes().first());
        match self.r.below(16) {
            0 => self.out.extend_from_slice(b"\n"),
            1 => self.out.extend_from_slice(b" //c\n"),
            2..=7 if glued => {}
            _ => self.out.push(b' '),
        }
        self.out.extend_from_slice(token.as_bytes());
    }

    fn words(&mut self, list: &[&str]) {
        let word = self.r.pick(list);
        self.put(word);
    }

    fn spend(&mut self) -> bool {
        self.budget = self.budget.saturating_sub(1);
        self.budget > 0
    }

    fn times(&mut self, most: usize, mut what: impl FnMut(&mut Self)) {
        for _ in 0..self.r.below(most + 1) {
            what(self);
        }
    }

    /// A list between brackets, perhaps with a comma at its end.
    fn list(&mut self, open: &str, close: &str, least: usize, mut item: impl FnMut(&mut Self)) {
        let ban = std::mem::replace(&mut self.ban, false);
        self.put(open);
        let many = least + if self.budget > 0 { self.r.below(3) } else { 0 };
        for i in 0..many {
            if i > 0 {
                self.put(",");
            }
            item(self);
        }
        if many > 0 && self.r.once_in(4) {
            self.put(",");
        }
        self.put(close);
        self.ban = ban;
    }

    fn declaration(&mut self) {
        match self.r.below(6) {
            0 => {
                self.put("const");
                self.name();
                self.put(":");
                self.type_expr();
                self.put("=");
                self.expr();
                self.put(";");
            }
            1 | 2 => {
                self.put("fn");
                self.name();
                self.list("(", ")", 0, Self::name_with_type);
                if self.r.once_in(2) {
                    self.put("->");
                    self.type_expr();
                }
                self.block();
            }
            3 => {
                self.words(&["filter", "filtermap"]);
                self.name();
                self.list("(", ")", 0, Self::name_with_type);
                self.block();
            }
            4 => {
                self.put("test");
                self.name();
                self.block();
            }
            _ => self.import(),
        }
    }

    fn import(&mut self) {
        self.put("import");
        self.import_path();
        self.put(";");
    }

    fn import_path(&mut self) {
        self.path();
        if self.spend() && self.r.once_in(3) {
            self.put(".");
            self.put("{");
            self.import_path();
            self.times(2, |text| {
                text.put(",");
                text.import_path();
            });
            self.put("}");
        }
    }

    fn name(&mut self) {
        self.words(&["a", "b", "x1", "_", "_y", "route", "A", "filt"]);
    }

    fn path(&mut self) {
        let items = ["a", "b", "route", "pkg", "dep", "super", "std", "_"];
        self.words(&items);
        self.times(2, |text| {
            text.put(".");
            text.words(&items);
        });
    }

    fn name_with_type(&mut self) {
        self.name();
        self.put(":");
        self.type_expr();
    }

    fn type_expr(&mut self) {
        let deep = self.spend();
        match self.r.below(if deep { 7 } else { 5 }) {
            0 => self.put("!"),
            1 => {
                self.put("(");
                self.put(")");
            }
            5 => self.list("{", "}", 0, Self::name_with_type),
            6 => {
                self.path();
                self.list("[", "]", 0, Self::type_expr);
            }
            _ => self.path(),
        }
        if self.r.once_in(4) {
            self.put("?");
        }
    }

    fn block(&mut self) {
        let ban = std::mem::replace(&mut self.ban, false);
        self.put("{");
        if self.budget > 0 {
            self.times(3, Self::statement);
        }
        if self.r.once_in(2) {
            self.expr();
        }
        self.put("}");
        self.ban = ban;
    }

    fn statement(&mut self) {
        match self.r.below(8) {
            0 => self.import(),
            1 | 2 => {
                self.put("let");
                self.name();
                if self.r.once_in(2) {
                    self.put(":");
                    self.type_expr();
                }
                self.put("=");
                self.expr();
                self.put(";");
            }
            3 | 4 => {
                self.head();
                if self.r.once_in(3) {
                    self.put(";");
                }
            }
            _ => {
                self.expr();
                self.put(";");
            }
        }
    }

    fn expr(&mut self) {
        match self.r.below(10) {
            0 => {
                self.words(&["return", "accept", "reject"]);
                if self.ban || !self.r.once_in(3) {
                    self.expr();
                }
            }
            1 => {
                self.target();
                self.words(&["=", "+=", "-=", "*=", "/=", "%="]);
                self.binary();
            }
            _ => self.binary(),
        }
    }

    fn target(&mut self) {
        if self.r.once_in(4) {
            self.put("(");
            self.target();
            self.put(")");
        } else {
            self.path();
        }
    }

    fn binary(&mut self) {
        self.level(0);
    }

    /// Operators of one level, loosest first; the third is not chained.
    fn level(&mut self, level: usize) {
        const LEVELS: [&[&str]; 5] =
            [&["||"], &["&&"], &["==", "!=", "<", "<=", ">", ">="], &["+", "-"], &["*", "/", "%"]];
        if level == LEVELS.len() {
            return self.operand();
        }
        self.level(level + 1);
        while self.r.once_in(6) && self.spend() {
            self.words(LEVELS[level]);
            self.level(level + 1);
            if level == 2 {
                break;
            }
        }
    }

    fn operand(&mut self) {
        while self.r.once_in(6) {
            self.words(&["!", "-"]);
        }
        self.atom();
        while self.r.once_in(4) {
            match self.r.below(3) {
                0 => self.put("?"),
                1 => self.list("(", ")", 0, Self::expr),
                _ => {
                    self.put(".");
                    self.name();
                }
            }
        }
    }

    fn atom(&mut self) {
        let deep = self.spend();
        match self.r.below(if deep { 12 } else { 4 }) {
            0 | 1 => self.literal(),
            4 | 5 => {
                let ban = std::mem::replace(&mut self.ban, false);
                self.put("(");
                self.expr();
                self.put(")");
                self.ban = ban;
            }
            6 => self.block(),
            7 => self.head(),
            8 if !self.ban => {
                self.path();
                self.list("{", "}", 0, Self::field);
            }
            9 if !self.ban => self.list("{", "}", 1, Self::field),
            10 | 11 => self.f_string(),
            _ => self.path(),
        }
    }

    fn f_string(&mut self) {
        self.put("f\"");
        self.piece();
        self.times(3, |text| {
            text.hole();
            text.piece();
        });
        self.out.push(b'"');
    }

    /// `{{` would be text, so a blank stands before a brace that is the hole's first byte.
    fn hole(&mut self) {
        let ban = std::mem::replace(&mut self.ban, false);
        self.out.push(b'{');
        let inside = self.out.len();
        self.expr();
        if self.out[inside] == b'{' {
            self.out.insert(inside, b' ');
        }
        self.put("}");
        self.ban = ban;
    }

    /// Text of an f-string: bytes, escapes, and braces written as pairs or escaped; a `}` may be alone.
    fn piece(&mut self) {
        const TEXTS: [&str; 24] = [
            "a",
            "peer ",
            " ",
            ":",
            "'",
            "//",
            "\n",
            "\t",
            "}",
            "}}",
            "}}}",
            "{{",
            "{{}}",
            "\\n",
            "\\0",
            "\\\\",
            "\\\"",
            "\\'",
            "\\x7b",
            "\\x7d",
            "\\u{7b}",
            "\\u{e9}",
            "\\u{1_F600}",
            "\\u{10ffff}",
        ];
        for _ in 0..self.r.below(4) {
            let text = self.r.pick(&TEXTS);
            self.out.extend_from_slice(text.as_bytes());
        }
    }

    fn field(&mut self) {
        self.name();
        self.put(":");
        self.expr();
    }

    fn literal(&mut self) {
        self.words(&[
            "1",
            "0",
            "12_3u8",
            "1f32",
            "1.5",
            "2.5f64",
            "0xff",
            "AS65000",
            "10.0.0.1",
            "::1",
            "2001:db8::",
            "\"s\" ",
            "'c'",
            "true",
            "false",
            "\"\\n\\u{41}\" ",
            "f\"\"",
            "f\"s\"",
            "f\"{{{1}\"",
        ]);
    }

    fn headed(&mut self, what: fn(&mut Self)) {
        let ban = std::mem::replace(&mut self.ban, true);
        what(self);
        self.ban = ban;
    }

    fn head(&mut self) {
        match self.r.below(5) {
            0 | 1 => self.if_else(),
            2 => {
                self.put("while");
                self.headed(Self::expr);
                self.block();
            }
            3 => {
                self.put("for");
                self.name();
                self.put("in");
                self.headed(Self::expr);
                self.block();
            }
            _ => {
                self.put("match");
                self.headed(Self::expr);
                let ban = std::mem::replace(&mut self.ban, false);
                self.put("{");
                self.times(3, Self::arm);
                self.put("}");
                self.ban = ban;
            }
        }
    }

    fn if_else(&mut self) {
        self.put("if");
        self.headed(Self::expr);
        self.block();
        if self.r.once_in(3) {
            self.put("else");
            match self.spend() && self.r.once_in(2) {
                true => self.if_else(),
                false => self.block(),
            }
        }
    }

    fn arm(&mut self) {
        self.words(&["a", "Some", "_", "__"]);
        if !self.out.ends_with(b" _") && self.r.once_in(3) {
            self.list("(", ")", 0, Self::name);
        }
        if self.r.once_in(4) {
            self.put("if");
            self.expr();
        }
        self.put("=>");
        if self.r.once_in(2) {
            self.block();
            if self.r.once_in(2) {
                self.put(",");
            }
        } else {
            self.expr();
            self.put(",");
        }
    }

    /// Up to three layers of one form, each about as many deep as a limit allows.
    fn nested(&mut self) {
        let mut ends = Vec::new();
        for _ in 0..1 + self.r.below(3) {
            let (open, close) = FORMS[self.r.below(FORMS.len())];
            let many = [1, 15, 16, 17, 30, 31, 32, 33, 34][self.r.below(9)];
            for _ in 0..many {
                self.out.extend_from_slice(open.as_bytes());
                ends.push(close);
            }
        }
        self.words(&[
            "a", "1", "(a)", "b.c", "f(a)", "if a {}", "return", "a{}", "{}", ")", "()", "f\"a\"", "f\"{a}\"",
        ]);
        for close in ends.iter().rev() {
            self.out.extend_from_slice(close.as_bytes());
        }
    }
}
