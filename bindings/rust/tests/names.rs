//! The names here and those of the C header, which tests/header compares with the proved code.

use std::collections::BTreeMap;

use lekhyundo::{Kind, MOST_BYTES, MOST_RANGES, MOST_ROWS, MOST_STACK, Operator, Reason, TokenCode, WIDTH};

const HEADER: &str = include_str!("../../../include/lekhyundo.h");

/// The header's names with a prefix, as they are spelled here, and their numbers.
fn named(prefix: &str) -> BTreeMap<String, u64> {
    let lines = HEADER.lines().filter_map(|line| line.trim().strip_prefix(prefix)?.split_once(" = "));
    let number = |text: &str| text.split(|c: char| !c.is_ascii_digit()).next().and_then(|digits| digits.parse().ok());
    lines.map(|(name, rest)| (camel(name), number(rest).expect("a number"))).collect()
}

fn camel(name: &str) -> String {
    let word = |word: &str| word[..1].to_string() + &word[1..].to_lowercase();
    name.split('_').map(word).collect()
}

/// Names and numbers of an enum here, and `None` as 0 where the header has that.
fn here<T: std::fmt::Debug + Copy>(all: &[T], number: impl Fn(T) -> u64, zero: bool) -> BTreeMap<String, u64> {
    let none = zero.then(|| ("None".to_string(), 0));
    all.iter().map(|&one| (format!("{one:?}"), number(one))).chain(none).collect()
}

#[test]
fn names_are_those_of_the_header() {
    assert_eq!(here(Kind::ALL, Kind::number, true), named("LEKHYUNDO_KIND_"));
    assert_eq!(here(Reason::ALL, Reason::number, true), named("LEKHYUNDO_REFUSAL_"));
    assert_eq!(here(Operator::ALL, Operator::number, false), named("LEKHYUNDO_OPERATOR_"));
    assert_eq!(here(TokenCode::ALL, TokenCode::number, false), named("LEKHYUNDO_TOKEN_"));
}

#[test]
fn sizes_are_those_of_the_header() {
    let [bytes, rows, ranges, stack] = [MOST_BYTES, MOST_ROWS, MOST_RANGES, MOST_STACK].map(|n| n as u64);
    let most = named("LEKHYUNDO_MOST_");
    assert_eq!((most["Bytes"], most["Rows"], most["Ranges"], most["Stack"]), (bytes, rows, ranges, stack));
    assert_eq!(named("LEKHYUNDO_")["Width"], WIDTH as u64);
}

#[test]
fn a_number_gives_its_name_back() {
    for number in 0..100 {
        assert_eq!(
            Kind::of(number).map(Kind::number),
            Kind::ALL.iter().map(|kind| kind.number()).find(|&n| n == number)
        );
    }
    assert!(Kind::ALL.iter().all(|kind| Kind::of(kind.number()) == Some(*kind)));
    assert!(Reason::ALL.iter().all(|reason| Reason::of(reason.number()) == Some(*reason)));
    assert!(TokenCode::ALL.iter().all(|code| TokenCode::of(code.number()) == Some(*code)));
}
