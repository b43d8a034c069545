//! The paper's books of both ends, kept from a script and the answers to it alone, and its claim
//! about them: in each direction the receiver has counted exactly the confirmed lots, or these
//! and then the one lot that the presenter's report names. It never looks into an engine.

mod book;
mod call;
mod direction;
mod report;

use crate::asked::asked;
use crate::hex;
use call::{Call, Line};
use direction::Direction;
use report::Report;

/// What a check has looked at; all zero would mean that it looked at nothing.
#[derive(Clone, Copy, Debug, Default, PartialEq, Eq)]
pub struct Checked {
    pub calls: u64,
    pub reports: u64,
    /// Reports that named a lot.
    pub named: u64,
    /// Lines after which the receiver had counted a lot that was not confirmed yet.
    pub ahead: u64,
    /// Replies taken to lot totals, each of which must leave equal lists and nothing named.
    pub settled: u64,
}

/// Whether the claim speaks of this script: two good starts of one date with own and partner
/// exchanged, no other start, and a line that carries only what was written.
pub fn applies(script: &[u8]) -> bool {
    let lines: Option<Vec<Line>> = asked(script).map(call::read).collect();
    let mut calls = lines.unwrap_or_default();
    calls.retain(|line| !matches!(line.call, Call::Report));
    let [one, other, rest @ ..] = calls.as_slice() else {
        return false;
    };
    one.end != other.end
        && call::starts_fit(&one.call, &other.call)
        && rest.iter().all(|line| line.call.is_within_the_claim())
}

/// The script with a report of each end after every line that is asked.
pub fn with_reports(script: &[u8]) -> Vec<u8> {
    let mut full = Vec::new();
    for line in asked(script) {
        full.extend(line);
        full.extend(b"\nreport A\nreport B\n");
    }
    full
}

/// Follows the answers line by line. The error names the first line where the books are broken.
pub fn check(script: &[u8], output: &[u8]) -> Result<Checked, String> {
    let output = std::str::from_utf8(output).map_err(|_| "the answers are no text")?;
    let mut answers = output.lines();
    let mut books = Books::default();
    for (at, line) in asked(script).enumerate() {
        let shown = || short(&String::from_utf8_lossy(line));
        let answer = answers.next();
        let answer = answer.ok_or_else(|| format!("{}: no answer to: {}", at + 1, shown()))?;
        books.follow(line, answer).map_err(|what| {
            let (asked, answered) = (shown(), short(answer));
            format!(
                "{}: {what}\n  asked: {asked}\n  answered: {answered}",
                at + 1
            )
        })?;
    }
    match answers.next() {
        Some(more) => Err(format!("an answer too many: {}", short(more))),
        None => Ok(books.checked),
    }
}

fn short(text: &str) -> String {
    text.chars().take(160).collect()
}

#[derive(Default)]
struct Books {
    started: [bool; 2],
    /// What unrefused calls wrote.
    written: Vec<Vec<u8>>,
    /// By the presenting end.
    directions: [Direction; 2],
    checked: Checked,
}

impl Books {
    /// Enters a call, then asks whether the claim still holds.
    fn follow(&mut self, line: &[u8], answer: &str) -> Result<(), String> {
        let Line { end, name, call } = call::read(line).ok_or("the books do not apply")?;
        if answer == "bad line" {
            return call.may_be_forgotten();
        }
        let head = format!("{name} {} ", call::END_NAMES[end]);
        let answer = answer.strip_prefix(&head).ok_or("another call answered")?;
        self.checked.calls += 1;
        match call {
            Call::Start(_) => self.start(end, answer)?,
            _ if !self.started[end] => return expect("none", answer),
            Call::Report => self.report(end, answer)?,
            Call::Clock => {}
            _ => self.enter(end, call, answer)?,
        }
        self.claim()
    }

    fn start(&mut self, end: usize, answer: &str) -> Result<(), String> {
        self.started[end] = true;
        expect("00", answer)
    }

    /// A call that is refused is not entered.
    fn enter(&mut self, end: usize, call: Call, answer: &str) -> Result<(), String> {
        let mut words = answer.split(' ');
        if words.next() != Some("00") {
            return Ok(());
        }
        if let Call::Reply(number) = call {
            let reply = self.copy(number)?;
            let settled = self.directions[end].take_reply(&reply)?;
            self.checked.settled += u64::from(settled);
            return Ok(());
        }
        let bytes = self.remember(words.next(), words.next())?;
        match call {
            Call::Receive(number) => {
                let message = self.copy(number)?;
                self.directions[1 - end].receive(&message, &bytes)
            }
            send => self.directions[end].send(send, &bytes),
        }
    }

    /// The number and the bytes after an unrefused call that wrote.
    fn remember(&mut self, number: Option<&str>, digits: Option<&str>) -> Result<Vec<u8>, String> {
        let expected = format!("@{}", self.written.len() + 1);
        if number != Some(&expected) {
            return Err(format!("the next written bytes are {expected}"));
        }
        let bytes = digits.and_then(hex::read).ok_or("no bytes written")?;
        self.written.push(bytes.clone());
        Ok(bytes)
    }

    fn copy(&self, number: Option<u64>) -> Result<Vec<u8>, String> {
        let at = number.and_then(|number| usize::try_from(number).ok()?.checked_sub(1));
        let bytes = at.and_then(|at| self.written.get(at)).cloned();
        bytes.ok_or("bytes that nobody wrote were taken".into())
    }

    fn report(&mut self, end: usize, answer: &str) -> Result<(), String> {
        let report = Report::read(answer).ok_or("no report")?;
        self.checked.reports += 1;
        self.checked.named += u64::from(report.names_a_lot());
        report.agrees(&self.directions[end], &self.directions[1 - end])
    }

    /// With a report after every call this is the whole claim: reports agree with the books,
    /// and right after the reply to a lot total nothing is awaited, so the lists are equal.
    fn claim(&mut self) -> Result<(), String> {
        for (end, direction) in self.directions.iter().enumerate() {
            let presenter = call::END_NAMES[end];
            let ahead = direction
                .claim()
                .map_err(|what| format!("{what}, in the direction from {presenter}"))?;
            self.checked.ahead += u64::from(ahead);
        }
        Ok(())
    }
}

fn expect(expected: &str, answer: &str) -> Result<(), String> {
    if answer == expected {
        Ok(())
    } else {
        Err(format!("expected {expected}"))
    }
}
