//! A script in the making. The reference plays each line as it is added, so that a generator
//! can go by the answers.

use crate::asked::LONGEST_LINE;
use crate::hex;
use crate::random::Random;
use crate::script::stage::Stage;
use crate::session::rules::Rules;

pub struct Draft {
    pub random: Random,
    /// What unrefused calls wrote, the first being `@1`.
    pub written: Vec<Vec<u8>>,
    script: Vec<u8>,
    ends: Stage,
}

/// What an unrefused send or receive wrote.
#[derive(Clone)]
pub struct Written {
    pub number: usize,
    pub bytes: Vec<u8>,
}

impl Draft {
    pub fn new(random: Random) -> Draft {
        Draft {
            random,
            written: Vec::new(),
            script: Vec::new(),
            ends: Stage::new(Rules::TODAY),
        }
    }

    /// Adds a line and gives the answer, empty for a line that is no call.
    pub fn say(&mut self, line: &[u8]) -> String {
        self.script.extend(line);
        self.script.push(b'\n');
        let answer = self.answer(line).unwrap_or_default();
        if let Some(written) = written(&answer) {
            self.written.push(written.bytes);
        }
        answer
    }

    /// None for a line that is passed over or bad.
    fn answer(&mut self, line: &[u8]) -> Option<String> {
        if line.len() > LONGEST_LINE || line.starts_with(b"#") {
            return None;
        }
        self.ends.answer(line)
    }

    /// Adds a call that may write, and gives what it wrote.
    pub fn write(&mut self, line: &str) -> Option<Written> {
        written(&self.say(line.as_bytes()))
    }

    /// Adds a call that writes nothing, and tells whether it was unrefused.
    pub fn done(&mut self, line: &str) -> bool {
        self.say(line.as_bytes()).split(' ').nth(2) == Some("00")
    }

    /// Takes the last line feed away.
    pub fn unend(&mut self) {
        if self.script.last() == Some(&b'\n') {
            self.script.pop();
        }
    }

    pub fn script(self) -> Vec<u8> {
        self.script
    }
}

fn written(answer: &str) -> Option<Written> {
    let mut words = answer.split(' ').skip(3);
    let number = words.next()?.strip_prefix('@')?.parse().ok()?;
    let bytes = hex::read(words.next()?)?;
    Some(Written { number, bytes })
}
