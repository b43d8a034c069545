//! A block of test lines, read from its text. A line is `call => expected`; `#` in the first
//! column begins a comment. `for n A B` and `end` enclose lines that stand once for every n from
//! A to B, with `{2n-1}` or `{n:04}` in them replaced by the number, padded to the stated width.

use super::notation;
use crate::Checked;

pub struct Block {
    /// The number of the open point, and what is special about the block.
    pub name: String,
    pub lines: Vec<Line>,
}

pub struct Line {
    pub text: String,
    pub asked: Asked,
    pub expected: String,
}

pub enum Asked {
    /// A call as a script has it.
    Call(String),
    /// The bytes that a call wrote, by their number.
    Written(usize),
    Check {
        body: Vec<u8>,
        own: u16,
        represented: Vec<u16>,
    },
    /// The lengths of presentations and returns, then their cursors.
    Tray([usize; 4]),
    /// What only the reference's own session can do: `limits`, `rules` and `set` put something into
    /// it, `running` shows running totals.
    Engine(Vec<String>),
}

impl Line {
    /// Whether the lines after it would be answered otherwise without it.
    pub fn puts(&self) -> bool {
        matches!(&self.asked, Asked::Engine(words) if words[0] != "running")
    }
}

pub fn read(text: &str) -> Vec<Block> {
    let mut blocks: Vec<Block> = Vec::new();
    for line in unrolled(text) {
        if let Some(name) = line.strip_prefix("== ") {
            let (name, lines) = (name.into(), Vec::new());
            blocks.push(Block { name, lines });
        } else {
            let block = blocks.last_mut().expect("a block has a name");
            block.lines.push(read_line(&line));
        }
    }
    blocks
}

/// The lines that count, with those of a `for` as often as they stand.
fn unrolled(text: &str) -> Vec<String> {
    let mut result = Vec::new();
    let mut lines = text
        .lines()
        .filter(|line| !line.is_empty() && !line.starts_with('#'));
    while let Some(line) = lines.next() {
        match line.strip_prefix("for n ") {
            None => result.push(line.into()),
            Some(range) => {
                let inner: Vec<&str> = lines.by_ref().take_while(|line| *line != "end").collect();
                let (first, last) = range.split_once(' ').expect(range);
                for n in number(first)..=number(last) {
                    result.extend(inner.iter().map(|line| with_number(line, n)));
                }
            }
        }
    }
    result
}

fn with_number(line: &str, n: usize) -> String {
    let mut parts = line.split('{');
    let mut result = String::from(parts.next().unwrap_or(""));
    for part in parts {
        let (formula, rest) = part.split_once('}').expect(line);
        result += &computed(formula, n);
        result += rest;
    }
    result
}

/// A multiple of n with something added or taken away, as `3n`, `n+7` or `n:02`.
fn computed(formula: &str, n: usize) -> String {
    let (formula, width) = formula.split_once(':').unwrap_or((formula, "0"));
    let (factor, added) = formula.split_once('n').expect(formula);
    let factor = if factor.is_empty() { 1 } else { number(factor) };
    let value = match added.split_at_checked(1) {
        Some(("+", more)) => factor * n + number(more),
        Some(("-", less)) => factor * n - number(less),
        _ => factor * n,
    };
    format!("{value:0width$}", width = number(width))
}

fn read_line(text: &str) -> Line {
    let (call, expected) = text.split_once(" => ").unwrap_or((text, ""));
    let words: Vec<&str> = call.split(' ').collect();
    let asked = match words[0] {
        "check" => check(&words[1..]),
        "tray" => Asked::Tray([1, 2, 3, 4].map(|at| number(words[at]))),
        "written" => Asked::Written(number(words[1].trim_start_matches('@'))),
        "limits" | "rules" | "set" | "running" => {
            Asked::Engine(words.iter().map(|&w| w.into()).collect())
        }
        _ => Asked::Call(script_line(&words)),
    };
    Line {
        text: text.into(),
        asked,
        expected: expected.into(),
    }
}

fn check(words: &[&str]) -> Asked {
    let entities: Vec<u16> = words[1..].iter().map(|word| number(word) as u16).collect();
    let (own, represented) = entities.split_first().unwrap_or((&72, &[]));
    Asked::Check {
        body: notation::bytes(words[0]),
        own: *own,
        represented: represented.to_vec(),
    }
}

/// The call with its bytes in hexadecimal; a copy of written bytes stays as it is.
fn script_line(words: &[&str]) -> String {
    let at = match words[0] {
        "receive" | "reply" => 3,
        "detail" => 4,
        _ => words.len(),
    };
    let mut words: Vec<String> = words.iter().map(|&word| word.into()).collect();
    if let Some(word) = words.get_mut(at).filter(|word| !word.starts_with('@')) {
        let bytes = notation::bytes(word);
        *word = if bytes.is_empty() {
            "-".into()
        } else {
            notation::hex(&bytes)
        };
    }
    words.join(" ")
}

/// The answer of a detail check as the blocks write it.
pub fn checked(answer: &Checked) -> String {
    format!(
        "{:02} {} {} {}",
        answer.code, answer.documents, answer.nominal, answer.commission
    )
}

fn number(text: &str) -> usize {
    text.parse()
        .unwrap_or_else(|_| panic!("{text} is no number"))
}
