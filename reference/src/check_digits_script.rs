//! Check digit questions as text, a line each. The answer is the code alone.
//!
//! | question | whose digit was keyed |
//! | --- | --- |
//! | `number NUMBER DIGIT` | a document's |
//! | `branch NUMBER DIGIT` | that of an entity with its branch |
//! | `account NUMBER DIGIT` | an account's |

use crate::check_digits::schemes::{check_account, check_branch, check_number, Scheme};
use crate::questions::{answered, line, number};

/// The question about this number and what was keyed beside it.
pub fn question(scheme: &Scheme, number: u64, digit: u8) -> String {
    line(scheme.name, &[number, digit.into()])
}

/// Takes the number and the keyed digit, and gives a code.
pub type Check = fn(u64, u8) -> u8;

/// The three functions that are asked.
#[derive(Clone, Copy)]
pub struct Checks {
    pub check_number: Check,
    pub check_branch: Check,
    pub check_account: Check,
}

/// The answers of the reference.
pub fn play(text: &[u8]) -> Vec<u8> {
    Checks::REFERENCE.play(text)
}

impl Checks {
    pub const REFERENCE: Checks = Checks {
        check_number,
        check_branch,
        check_account,
    };

    pub fn play(&self, text: &[u8]) -> Vec<u8> {
        answered(text, |question, words| {
            let check = match question {
                "number" => self.check_number,
                "branch" => self.check_branch,
                "account" => self.check_account,
                _ => panic!("{question} is no question"),
            };
            format!("{:02}\n", check(number(words[0]), number(words[1])))
        })
    }
}
