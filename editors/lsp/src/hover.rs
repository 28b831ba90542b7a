//! What a literal or a constant comes to.

use std::net::{Ipv4Addr, Ipv6Addr};

use lekhyundo::{Constant, Float, Kind, Node, Refusal, constant, decode};
use serde_json::{Value, json};

use crate::{places::path_at_cursor, reading::Reading, text::Text};

/// The value under the cursor in Markdown, and its span; null where nothing has one.
pub fn hover(text: &Text, at: usize) -> Value {
    let reading = Reading::of(text.bytes());
    let Some(tree) = reading.tree() else { return Value::Null };
    let path = path_at_cursor(tree, at);
    let of_literal = path.last().and_then(|leaf| Some((*leaf, literal(*leaf)?)));
    let of_constant = || path.get(1).and_then(|declaration| Some((*declaration, declared(*declaration)?)));
    match of_literal.or_else(of_constant) {
        Some((node, value)) => json!({
            "contents": { "kind": "plaintext", "value": value },
            "range": text.range(node.span()),
        }),
        None => Value::Null,
    }
}

/// The value of a literal in words.
fn literal(leaf: Node<'_>) -> Option<String> {
    let value = leaf.value();
    Some(match leaf.kind() {
        Kind::Integer => format!("{value} = {value:#x}"),
        Kind::Float => float(leaf),
        Kind::Bool => format!("bool {}", value == 1),
        Kind::Asn => format!("AS number {value}"),
        Kind::Ipv4 => format!("IPv4 address {} = {value:#010x}", Ipv4Addr::from(value as u32)),
        Kind::Ipv6 => format!("IPv6 address {}", in_full(value, leaf.detail())),
        Kind::String => string(leaf),
        Kind::Char => format!("char U+{value:04X}"),
        _ => return None,
    })
}

/// All eight groups with all their digits.
fn in_full(upper: u64, lower: u64) -> String {
    let address = Ipv6Addr::from(u128::from(upper) << 64 | u128::from(lower));
    address.segments().map(|group| format!("{group:04x}")).join(":")
}

fn float(leaf: Node<'_>) -> String {
    match leaf.float() {
        Ok(Float::F32(value)) => format!("f32 {value:?} = {:#010x}", value.to_bits()),
        Ok(Float::F64(value)) => format!("f64 {value:?} = {:#018x}", value.to_bits()),
        Err(refusal) => refused(refusal),
    }
}

fn string(leaf: Node<'_>) -> String {
    match decode(leaf.text().as_bytes()) {
        Ok(bytes) => format!("string of {} bytes", bytes.len()),
        Err(refusal) => refused(refusal),
    }
}

/// The value of a constant (C-18): its number is how many constants are declared before it.
fn declared(declaration: Node<'_>) -> Option<String> {
    let is_constant = |node: &Node<'_>| node.kind() == Kind::Const;
    is_constant(&declaration).then_some(())?;
    let before = declaration.tree().root().children().take_while(|node| *node != declaration).filter(is_constant);
    Some(match constant(declaration.tree().source().as_bytes(), before.count() as u64) {
        Ok(Constant::Integer(value)) => format!("constant {value}"),
        Ok(Constant::Float(value)) => format!("constant {value:?} = {:#018x}", value.to_bits()),
        Ok(Constant::Bool(value)) => format!("constant {value}"),
        Err(refusal) => refused(refusal),
    })
}

fn refused(refusal: Refusal) -> String {
    format!("no value: {}", refusal.meaning())
}
