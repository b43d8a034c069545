//! The test lines of the open points, as data, and the ways to run them: the calls of a block as
//! a script through any player, its detail checks through any check, its tray calls, and with the
//! reference's own session the blocks that lower a limit, change the rules, put a serial or show
//! running totals.

pub mod block;
pub mod notation;
pub mod received;

mod engine;

use crate::{tray_script, Checked};
use block::{Asked, Block, Line};
use received::Received;
use std::collections::HashMap;

/// The fresh pair at the head of every block: A is entity 0081 and B is 0072.
pub const FRESH_PAIR: &str = "start A 140328 81 72\nstart B 140328 72 81\n";

/// The blocks of the open points.
pub fn blocks() -> Vec<Block> {
    block::read(include_str!("../../tests/open_points.txt"))
}

/// Blocks in the same notation that belong to no open point.
pub fn more_blocks() -> Vec<Block> {
    block::read(include_str!("../../tests/more_points.txt"))
}

impl Block {
    /// Whether its calls can be played as a script, without its lines of other kinds.
    pub fn is_script(&self) -> bool {
        !self.lines.iter().any(Line::puts) && self.calls().count() > 0
    }

    fn calls(&self) -> impl Iterator<Item = (&Line, &str)> {
        self.lines.iter().filter_map(|line| match &line.asked {
            Asked::Call(call) => Some((line, call.as_str())),
            _ => None,
        })
    }

    /// The fresh pair and the block's calls; its other lines are no part of it.
    pub fn script(&self) -> String {
        let calls = self.calls().map(|(_, call)| format!("{call}\n"));
        FRESH_PAIR.to_string() + &calls.collect::<String>()
    }
}

/// Plays the block's calls; the failure names the line.
pub fn check(block: &Block, play: impl Fn(&[u8]) -> Vec<u8>) -> Result<(), String> {
    let output = play(block.script().as_bytes());
    let output = String::from_utf8_lossy(&output).into_owned();
    let mut answers = output.lines();
    for fresh in ["start A 00", "start B 00"] {
        compare(block, fresh, fresh, answers.next().unwrap_or(""))?;
    }
    let mut written = HashMap::new();
    for line in &block.lines {
        let answer = match line.asked {
            Asked::Call(_) => {
                let answer = answers.next().unwrap_or("");
                remember(&mut written, answer);
                in_short(answer)
            }
            Asked::Written(number) => written.get(&number).cloned().unwrap_or_default(),
            _ => continue,
        };
        compare(block, &line.text, &line.expected, &answer)?;
    }
    let beyond = answers.next().unwrap_or("");
    compare(block, "the end", "", beyond)
}

/// Asks the block's `check` lines.
pub fn check_details(
    block: &Block,
    check: impl Fn(&[u8], u16, &[u16]) -> Checked,
) -> Result<(), String> {
    for line in &block.lines {
        if let Asked::Check {
            body,
            own,
            represented,
        } = &line.asked
        {
            let answer = block::checked(&check(body, *own, represented));
            compare(block, &line.text, &line.expected, &answer)?;
        }
    }
    Ok(())
}

/// Plays the block's `check` lines as messages received in an open lot, where that can be; the
/// reply must have the expected code.
pub fn check_received(block: &Block, play: impl Fn(&[u8]) -> Vec<u8>) -> Result<(), String> {
    for Received { line, script } in received::scripts(block) {
        let output = play(script.as_bytes());
        let output = String::from_utf8_lossy(&output);
        let answer = output.lines().nth(Received::BODY).unwrap_or("");
        let code = line.expected.split(' ').next().unwrap_or("");
        let expected = format!("00 86.{code}");
        compare(block, &line.text, &expected, &in_short(answer))?;
    }
    Ok(())
}

/// Asks the block's `tray` lines of the reference's trays.
pub fn check_trays(block: &Block) -> Result<(), String> {
    for line in &block.lines {
        if let Asked::Tray(numbers) = line.asked {
            compare(
                block,
                &line.text,
                &line.expected,
                &tray_script::answer(numbers),
            )?;
        }
    }
    Ok(())
}

/// Runs the block's calls and engine lines on the reference's own sessions.
pub fn check_on_reference(block: &Block) -> Result<(), String> {
    let mut engine = engine::Engine::fresh_pair();
    for line in &block.lines {
        let answer = match &line.asked {
            Asked::Call(call) => in_short(&engine.call(call)),
            Asked::Engine(words) => engine.special(words),
            _ => continue,
        };
        compare(block, &line.text, &line.expected, &answer)?;
    }
    Ok(())
}

fn compare(block: &Block, asked: &str, expected: &str, answer: &str) -> Result<(), String> {
    if expected == answer {
        return Ok(());
    }
    let (name, asked) = (&block.name, asked.get(..200).unwrap_or(asked));
    Err(format!(
        "{name}: {asked}\nexpected {expected}\nanswered {answer}"
    ))
}

/// Of an answer what the blocks show: no name and end, and of written bytes only a reply's
/// operation and code.
fn in_short(answer: &str) -> String {
    let words: Vec<&str> = answer.split(' ').collect();
    match words[..] {
        ["receive", _, code, _, reply] if reply.len() == 32 => {
            format!("{code} {}.{}", &reply[28..30], &reply[30..])
        }
        ["header" | "detail" | "lot" | "session", _, code, _, _] => code.into(),
        [_, _, ..] => words[2..].join(" "),
        _ => answer.into(),
    }
}

fn remember(written: &mut HashMap<usize, String>, answer: &str) {
    let words: Vec<&str> = answer.split(' ').collect();
    if let [_, _, _, number, bytes] = words[..] {
        if let Some(number) = number.strip_prefix('@') {
            written.insert(number.parse().unwrap_or(0), bytes.into());
        }
    }
}
