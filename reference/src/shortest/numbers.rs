//! Lines can be taken out of a script together with those that hand on what they wrote, if the
//! numbers of the other written bytes move up.

use crate::script::stage::Stage;
use crate::session::rules::Rules;
use std::ops::Range;

/// The script without these lines and all that depends on them. What the reference no longer
/// lets write is taken out as well.
pub fn without(lines: &[Vec<u8>], gone: Range<usize>) -> Vec<Vec<u8>> {
    let [mut old, mut new] = [Rules::TODAY; 2].map(Stage::new);
    let mut numbers = Numbers::default();
    let mut kept = Vec::new();
    for (at, line) in lines.iter().enumerate() {
        let line = line.strip_suffix(b"\n").unwrap_or(line);
        let moved = numbers.moved(line).filter(|_| !gone.contains(&at));
        let before = wrote(&mut old, line);
        let now = moved.as_ref().is_some_and(|line| wrote(&mut new, line));
        numbers.note(before, now);
        let stays = moved.filter(|_| now || !before);
        kept.extend(stays.map(|line| [line.as_slice(), b"\n"].concat()));
    }
    kept
}

fn wrote(ends: &mut Stage, line: &[u8]) -> bool {
    let answer = ends.answer(line).unwrap_or_default();
    !line.starts_with(b"#") && answer.contains(" 00 @")
}

/// By its old number, the new number of what was written, none for what is gone.
#[derive(Default)]
struct Numbers {
    new: Vec<Option<usize>>,
    last: usize,
}

impl Numbers {
    /// Whether a line wrote in the old script, and in the new one.
    fn note(&mut self, before: bool, now: bool) {
        self.last += usize::from(now);
        if before {
            self.new.push(now.then_some(self.last));
        }
    }

    /// None for a line that hands on what is gone.
    fn moved(&self, line: &[u8]) -> Option<Vec<u8>> {
        let Some((head, number, tail)) = cut(line) else {
            return Some(line.to_vec());
        };
        match number.checked_sub(1).and_then(|at| self.new.get(at)) {
            None => Some(line.to_vec()),
            Some(None) => None,
            Some(Some(new)) => Some(format!("{head}@{new}{tail}").into_bytes()),
        }
    }
}

/// What stands before and after a number of written bytes.
fn cut(line: &[u8]) -> Option<(&str, usize, &str)> {
    let text = std::str::from_utf8(line).ok()?;
    let (head, rest) = text.split_once('@')?;
    let (digits, tail) = rest.split_at(rest.find(' ').unwrap_or(rest.len()));
    Some((head, digits.parse().ok()?, tail))
}
