//! The vectors of the C test, each asked of all four checks. The head of their file says how a line is written.

use reference::{bodies, columns, line, plain, tuned, Checked};

const VECTORS: &str = include_str!("../../tests/check_vectors.txt");

#[test]
fn vectors() {
    for text in VECTORS
        .lines()
        .filter_map(|line| line.strip_prefix("check "))
    {
        let text = text.split('#').next().unwrap_or(text).trim_end();
        let (asked, expected) = text.split_once(" => ").expect(text);
        let mut words = asked.split(' ');
        let body = body(words.next().expect(text));
        let entities: Vec<u16> = words.map(number).collect();
        let (own, represented) = entities.split_first().unwrap_or((&72, &[]));
        for check in [plain::check, tuned::check, columns::check, line::check] {
            assert_eq!(check(&body, *own, represented), answer(expected), "{text}");
        }
    }
}

fn answer(text: &str) -> Checked {
    let numbers: Vec<u64> = text.split(' ').map(number).collect();
    Checked {
        code: numbers[0] as u8,
        documents: numbers[1],
        nominal: numbers[2],
        commission: numbers[3],
    }
}

fn number<T: std::str::FromStr>(text: &str) -> T {
    text.parse()
        .unwrap_or_else(|_| panic!("{text} is no number"))
}

/// The parts, joined by `+`.
fn body(text: &str) -> Vec<u8> {
    let mut depth = 0;
    let outside = |sign: char| {
        depth += i32::from(sign == '(') - i32::from(sign == ')');
        depth == 0 && sign == '+'
    };
    text.split(outside).flat_map(part).collect()
}

/// A part as the vectors' file has it, changes of it from left to right.
fn part(text: &str) -> Vec<u8> {
    let closed = text.rfind(')').filter(|_| text.starts_with('('));
    let from = closed.unwrap_or(0);
    let ends = text[from..]
        .find(['[', '<', '*'])
        .map_or(text.len(), |at| from + at);
    let (name, changes) = text.split_at(ends);
    let mut bytes = match name {
        "$EX" => bodies::of_examples(bodies::PRESENTED, 1),
        "$D" => bodies::EXAMPLE.to_vec(),
        "-" => Vec::new(),
        grouped if closed.is_some() => body(&grouped[1..grouped.len() - 1]),
        digits => from_hex(digits),
    };
    let starts: Vec<usize> = changes
        .match_indices(['[', '<', '*'])
        .map(|(at, _)| at)
        .collect();
    let ends = starts.iter().skip(1).copied().chain([changes.len()]);
    for (start, end) in starts.iter().zip(ends) {
        change_part(&mut bytes, &changes[*start..end]);
    }
    bytes
}

fn change_part(bytes: &mut Vec<u8>, change: &str) {
    let (kind, value) = change.split_at(1);
    match kind {
        "<" => bytes.truncate(number(value)),
        "*" => *bytes = bytes.repeat(number(value)),
        _ => {
            let (position, digits) = value.trim_end_matches(']').split_once(':').expect(change);
            let new = from_hex(digits);
            let first = number::<usize>(position) - 1;
            bytes[first..first + new.len()].copy_from_slice(&new);
        }
    }
}

fn from_hex(digits: &str) -> Vec<u8> {
    let pairs = digits.as_bytes().chunks(2);
    pairs
        .map(|pair| u8::from_str_radix(std::str::from_utf8(pair).unwrap(), 16).expect(digits))
        .collect()
}
