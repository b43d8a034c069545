//! The lines that a script cannot have, on the sessions of a played pair.

use super::FRESH_PAIR;
use crate::script::stage::Stage;
use crate::session::limits::Limits;
use crate::session::rules::Rules;
use crate::session::Session;

pub struct Engine {
    stage: Stage,
}

impl Engine {
    pub fn fresh_pair() -> Engine {
        let mut stage = Stage::new(Rules::TODAY);
        for line in FRESH_PAIR.lines() {
            stage.answer(line.as_bytes());
        }
        Engine { stage }
    }

    /// A call as a script has it.
    pub fn call(&mut self, line: &str) -> String {
        let answer = self.stage.answer(line.as_bytes());
        answer.expect("the blocks have no bad lines")
    }

    /// Lowered limits, other rules, a put serial, or running totals. Only the last has an answer.
    pub fn special(&mut self, words: &[String]) -> String {
        let words: Vec<&str> = words.iter().map(String::as_str).collect();
        match words[..] {
            ["limits", documents, lots] => {
                let documents = documents.parse().expect("a number");
                let lots = lots.parse().expect("a number");
                for session in self.stage.sessions() {
                    session.set_limits(Limits { documents, lots });
                }
                String::new()
            }
            ["rules", name] => {
                let rules = rules(name);
                for session in self.stage.sessions() {
                    session.set_rules(rules);
                }
                String::new()
            }
            ["set", end, field, serial] => {
                let serial = serial.parse().expect("a number");
                self.set(end, field, serial);
                String::new()
            }
            ["running", end, direction] => self.running(end, direction),
            _ => panic!("{words:?} is no line of a block"),
        }
    }

    fn set(&mut self, end: &str, field: &str, serial: u32) {
        let session = self.session(end);
        match field {
            "sent" => session.set_last_sent(serial),
            "rlast" => session.set_last_received(serial),
            _ => panic!("{field} is no field that a block sets"),
        }
    }

    fn running(&mut self, end: &str, direction: &str) -> String {
        let session = self.session(end);
        let totals = match direction {
            "presenting" => session.running_presenting(),
            "receiving" => session.running_receiving(),
            _ => panic!("{direction} is no direction"),
        };
        format!(
            "{} {} {}",
            totals.documents, totals.nominal, totals.commission
        )
    }

    fn session(&mut self, end: &str) -> &mut Session {
        let [a, b] = self.stage.sessions();
        match end {
            "A" => a,
            "B" => b,
            _ => panic!("{end} is no end"),
        }
    }
}

fn rules(name: &str) -> Rules {
    match name {
        "circular" => Rules::CIRCULAR,
        "today" => Rules::TODAY,
        _ => panic!("{name} names no rules"),
    }
}
