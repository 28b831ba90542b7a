//! The word number of a token, from its code and its text: which sign, which keyword, whether a name is `_`.

const TWO_SIGNS: [&str; 13] = ["==", "=>", "!=", "<=", ">=", "&&", "||", "->", "+=", "-=", "*=", "/=", "%="];

const ONE_SIGN: &str = "{}()[]:;,.=?!-+*/%<>";

const KEYWORDS: [&str; 22] = [
    "accept",
    "const",
    "dep",
    "else",
    "enum",
    "filter",
    "filtermap",
    "for",
    "fn",
    "if",
    "import",
    "in",
    "let",
    "match",
    "pkg",
    "record",
    "reject",
    "return",
    "std",
    "super",
    "test",
    "while",
];

pub fn number(code: u64, text: &[u8]) -> Option<u64> {
    let text = std::str::from_utf8(text).ok()?;
    let among = |list: &[&str], first: u64| {
        list.iter().position(|word| *word == text).map(|place| first + place as u64)
    };
    match code {
        3 => among(&TWO_SIGNS, 20),
        4 => (text.len() == 1).then(|| ONE_SIGN.find(text)).flatten().map(|place| 40 + place as u64),
        11 => among(&KEYWORDS, 60),
        13 if text == "_" => Some(14),
        1 | 2 | 5..=10 | 12 | 13 => Some(code),
        _ => None,
    }
}
