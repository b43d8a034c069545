//! The notation of bytes in the blocks. Parts are joined by `+`. A part is hexadecimal digits, a
//! named message or body, or parts in parentheses, and changes of it follow from left to right:
//! `[p:hex]` puts bytes at position p, counted from 1, `<k` cuts to k bytes, `*k` repeats.
//!
//! | name | bytes |
//! | --- | --- |
//! | `$E(n)`, `$E(n,kind,presenting,receiving)` | envelope of a message of A to B with serial n |
//! | `$HDR(n)`, then `hhmmsscc`, `date`, `presenting`, `receiving` | header body of lot n |
//! | `$EX`, `$D` | the paper's detail body, its one document |
//! | `$LT(n,d,a,c)`, `$ST(l,d,a,c)` | bodies of a lot total and a session total |
//! | `$R(n,operation,code)` | whole reply of B to serial n of A |
//!
//! A packed number looks in hexadecimal like the decimal number, so the names expand to text.

use crate::bodies;

/// Panics where the text is not of the notation, as it stands in a test's data.
pub fn bytes(text: &str) -> Vec<u8> {
    let mut depth = 0;
    let outside = |sign: char| {
        depth += i32::from(sign == '(') - i32::from(sign == ')');
        depth == 0 && sign == '+'
    };
    text.split(outside).flat_map(part).collect()
}

pub fn hex(bytes: &[u8]) -> String {
    bytes.iter().map(|byte| format!("{byte:02x}")).collect()
}

fn part(text: &str) -> Vec<u8> {
    let from = text.rfind(')').map_or(0, |at| at + 1);
    let end = text[from..]
        .find(['[', '<', '*'])
        .map_or(text.len(), |at| from + at);
    let (name, mut changes) = text.split_at(end);
    let mut bytes = named(name);
    while !changes.is_empty() {
        let next = changes[1..]
            .find(['[', '<', '*'])
            .map_or(changes.len(), |at| 1 + at);
        change(&mut bytes, &changes[..next]);
        changes = &changes[next..];
    }
    bytes
}

fn named(name: &str) -> Vec<u8> {
    let (word, arguments) = name.split_once('(').unwrap_or((name, ""));
    let inside = arguments.strip_suffix(')').unwrap_or(arguments);
    match word {
        "-" => Vec::new(),
        "" => bytes(inside),
        "$EX" => bodies::of_examples(bodies::PRESENTED, 1),
        "$D" => bodies::EXAMPLE.to_vec(),
        "$E" => from_hex(&envelope(&numbers(inside))),
        "$HDR" => from_hex(&header(&numbers(inside))),
        "$LT" => from_hex(&lot_total(&numbers(inside))),
        "$ST" => from_hex(&session_total(&numbers(inside))),
        "$R" => from_hex(&reply(&numbers(inside))),
        digits => from_hex(digits),
    }
}

fn change(bytes: &mut Vec<u8>, change: &str) {
    let (kind, value) = change.split_at(1);
    match kind {
        "<" => bytes.truncate(number(value) as usize),
        "*" => *bytes = bytes.repeat(number(value) as usize),
        _ => {
            let inside = value.strip_suffix(']').expect(change);
            let (position, digits) = inside.split_once(':').expect(change);
            let new = from_hex(digits);
            let first = number(position) as usize - 1;
            bytes[first..first + new.len()].copy_from_slice(&new);
        }
    }
}

fn envelope(given: &[u64]) -> String {
    let (serial, kind) = (given[0], *given.get(1).unwrap_or(&1));
    let presenting = given.get(2).unwrap_or(&81);
    let receiving = given.get(3).unwrap_or(&72);
    format!("{kind:02}140328{presenting:04}{receiving:04}{serial:08}")
}

fn header(given: &[u64]) -> String {
    let number = given[0];
    let time = given.get(1).unwrap_or(&21_000_000);
    let date = given.get(2).unwrap_or(&140_328);
    let presenting = given.get(3).unwrap_or(&81);
    let receiving = given.get(4).unwrap_or(&72);
    format!("005101{time:08}{date:06}{presenting:04}{receiving:04}0001{number:04}00")
}

fn lot_total(given: &[u64]) -> String {
    let [number, documents, nominal, commission] = given[..] else {
        panic!("a lot total has four numbers");
    };
    format!("005180{number:04}{documents:06}{nominal:016}{commission:012}")
}

fn session_total(given: &[u64]) -> String {
    let [lots, documents, nominal, commission] = given[..] else {
        panic!("a session total has four numbers");
    };
    format!("005190{lots:04}{documents:08}{nominal:018}{commission:014}")
}

fn reply(given: &[u64]) -> String {
    let [serial, operation, code] = given[..] else {
        panic!("a reply has three numbers");
    };
    format!("0214032800810072{serial:08}0051{operation:02}{code:02}")
}

fn numbers(text: &str) -> Vec<u64> {
    text.split(',').map(number).collect()
}

fn number(text: &str) -> u64 {
    text.parse()
        .unwrap_or_else(|_| panic!("{text} is no number"))
}

fn from_hex(digits: &str) -> Vec<u8> {
    assert!(digits.len().is_multiple_of(2), "{digits} has a half byte");
    (0..digits.len())
        .step_by(2)
        .map(|at| u8::from_str_radix(&digits[at..at + 2], 16).expect(digits))
        .collect()
}
