//! Why the oracle and the full commit differ: the causes that docs/DIFFERENCES.md lists, each told by the source and the
//! two answers alone. A source may have more than one; the first that fits is named.

/// A source, as it is and tight: without its blanks, and again without what may be comments; and the two answers.
struct Seen {
    source: String,
    tight: String,
    oracle: String,
    full: String,
}

type Test = fn(&Seen) -> bool;

const CAUSES: [(&str, Test); 16] = [
    ("left out: length, bytes of 128, a shebang", |s| s.oracle_says(&[1, 2, 3])),
    ("limits", |s| s.oracle_says(&[9])),
    ("the token list has no f-strings", |s| s.oracle_says(&[5])),
    ("`test` is no declaration", Seen::at_test),
    ("an address with a dotted end", Seen::dotted_address),
    ("place of 7", |s| s.both_say(7)),
    ("place of 8", |s| s.both_say(8)),
    ("a backslash before a newline", |s| s.source.contains("\\\n")),
    ("a block that begins with an f-string", |s| s.tight.contains("{f\"")),
    ("a return form", |s| s.has(&["return", "accept", "reject"])),
    ("`{}` is a block, `()` no expression, no lists", |s| s.has(&["{}", "()", "["])),
    ("a path in parentheses; when 8 is met", |s| s.has(&[")=", "+=", "-=", "*=", "/=", "%="])),
    ("`&&` with `||`", |s| s.tight.contains("&&") && s.tight.contains("||")),
    ("signs and numbers of the commit", |s| s.has(&["**", "--", "/*", "|", "#"]) || s.number()),
    ("`record`, `enum`, a bare import group", |s| s.has(&["record", "enum", "import{", "{{", ",{"])),
    ("a record after a head word", |s| s.has(&["if{", "while{", "in{", "match{"])),
];

impl Seen {
    fn oracle_says(&self, numbers: &[u64]) -> bool {
        numbers.iter().any(|number| self.oracle.starts_with(&format!("refused {number} ")))
    }

    fn both_say(&self, number: u64) -> bool {
        self.oracle_says(&[number]) && self.full.starts_with(&format!("refused {number} "))
    }

    fn has(&self, texts: &[&str]) -> bool {
        texts.iter().any(|text| self.tight.contains(text))
    }

    /// The oracle refuses the word itself.
    fn at_test(&self) -> bool {
        let place = self.oracle.strip_prefix("refused 6 ").and_then(|place| place.split_whitespace().next()?.parse().ok());
        place.and_then(|start: usize| self.source.get(start..)).is_some_and(|text| text.starts_with("test"))
    }

    /// Behind two colons with hex digits between them alone, or such colons: digits, and three times a period with digits.
    fn dotted_address(&self) -> bool {
        let hex_colon = |c: char| c.is_ascii_hexdigit() || c == ':';
        let digits = |text: &str| !text.is_empty() && text.bytes().all(|byte| byte.is_ascii_digit());
        self.source.split(|c: char| !hex_colon(c) && c != '.').any(|text| {
            let parts: Vec<&str> = text.split('.').collect();
            parts.windows(4).any(|quad| {
                let (before, group) = quad[0].rsplit_once(':').unwrap_or(("", ""));
                let last = quad[3].split(|c: char| !c.is_ascii_digit()).next().unwrap_or("");
                before.contains(':') && [group, quad[1], quad[2], last].into_iter().all(digits)
            })
        })
    }

    /// A digit or `_` before a point, or before `e`.
    fn number(&self) -> bool {
        let digit = |byte: u8| byte.is_ascii_digit() || byte == b'_';
        self.source.as_bytes().windows(2).any(|pair| digit(pair[0]) && b".eE".contains(&pair[1]))
    }
}

pub fn cause(source: &[u8], oracle: &[u8], full: &[u8]) -> String {
    let text = |bytes: &[u8]| String::from_utf8_lossy(bytes).into_owned();
    let source = text(source);
    let bare = source.lines().map(|line| line.rsplit_once("//").map_or(line, |(before, _)| before));
    let both = [&source[..], "\0"].into_iter().chain(bare).flat_map(str::chars);
    let tight = both.filter(|c| !matches!(c, '\t'..='\r' | ' ')).collect();
    let seen = Seen { source, tight, oracle: text(oracle), full: text(full) };
    CAUSES.iter().find(|(_, test)| test(&seen)).map_or("NO LISTED CAUSE", |(name, _)| name).to_string()
}
