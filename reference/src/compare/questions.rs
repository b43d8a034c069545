//! Questions put to the reference and to the engine, each of which gets a line of answer: where the
//! answers differ, and how many there are of each kind.

use super::{between, Play};
use crate::corpus::Script;
use crate::seeds::seeds;
use std::collections::BTreeMap;

/// The two that are asked.
#[derive(Clone, Copy)]
pub struct Both {
    pub reference: Play,
    pub engine: Play,
}

/// What kind of answer a question got.
pub type Kind = fn(question: &str, answer: &str) -> &'static str;

impl Both {
    /// The answers of the reference, all of which the engine must give too. Only the last question
    /// of a text may have more than one.
    pub fn answers(&self, made: &Script) -> String {
        let text = String::from_utf8_lossy(&made.text);
        let questions: Vec<&str> = text.lines().collect();
        let answers = (self.reference)(&made.text);
        if let Some(difference) = between(&answers, &(self.engine)(&made.text)) {
            let at = questions.len().min(difference.line) - 1;
            panic!(
                "{}: answer {} differs\nreference: {}engine:    {}question: {}",
                made.name,
                difference.line,
                String::from_utf8_lossy(&difference.reference),
                String::from_utf8_lossy(&difference.engine),
                with_its_file(&questions[..=at]),
            );
        }
        String::from_utf8(answers).unwrap()
    }

    pub fn ask_fixed(&self, scripts: Vec<Script>) {
        for made in scripts {
            let answers = self.answers(&made);
            println!("{}: {} answers", made.name, answers.lines().count());
        }
    }

    /// Asks the questions of a run's seeds. `least` has all kinds, and how many answers of each the
    /// usual number of seeds gives at the least.
    pub fn ask_seeds(
        &self,
        usual: u64,
        of_seed: fn(u64) -> Script,
        kind: Kind,
        least: &[(&str, u64)],
    ) {
        let seeds = seeds(usual);
        let times = (seeds.end - seeds.start) / usual;
        let mut counts: BTreeMap<&str, u64> = least.iter().map(|&(kind, _)| (kind, 0)).collect();
        for made in seeds.map(of_seed) {
            let answers = self.answers(&made);
            let questions = String::from_utf8_lossy(&made.text);
            for (question, answer) in questions.lines().zip(answers.lines()) {
                let kind = kind(question, answer);
                *counts.get_mut(kind).expect(kind) += 1;
            }
        }
        for (kind, least) in least {
            let count = counts[kind];
            println!("{kind}: {count}");
            assert!(count >= times * least, "{kind}: {count} are few");
        }
    }
}

/// The last question, and before it those that have made the file which it is about.
fn with_its_file(questions: &[&str]) -> String {
    let made = |question: &&str| question.starts_with("file ");
    let first = questions.iter().rposition(made);
    questions[first.unwrap_or(questions.len() - 1)..].join("\n")
}
