//! Session scripts: a text that names calls at two ends, played on two sessions, with one line
//! of answer for each call.

mod answer;
mod call;
pub(crate) mod stage;
pub(crate) mod words;
mod written;

use crate::asked::{asked, LONGEST_LINE};
use crate::session::rules::Rules;
use stage::Stage;

/// From two ends with no session, by today's rules.
pub fn play(script: &[u8]) -> Vec<u8> {
    play_by(Rules::TODAY, script)
}

pub fn play_by(rules: Rules, script: &[u8]) -> Vec<u8> {
    let mut stage = Stage::new(rules);
    let mut output = Vec::new();
    for line in asked(script) {
        output.extend_from_slice(answer(&mut stage, line).as_bytes());
        output.push(b'\n');
    }
    output
}

fn answer(stage: &mut Stage, line: &[u8]) -> String {
    let is_short = line.len() <= LONGEST_LINE;
    let answer = is_short.then(|| stage.answer(line)).flatten();
    answer.unwrap_or_else(answer::bad_line)
}
