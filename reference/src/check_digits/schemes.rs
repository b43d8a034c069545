//! The three numbers that are keyed with a check digit beside them, and what is answered to it.

use super::document::document_digit;
use super::weighted::weighted_digit;

/// How a number of one sort is checked.
#[derive(Clone, Copy)]
pub struct Scheme {
    /// As questions say it.
    pub name: &'static str,
    /// Zeros in front do not count.
    pub most_digits: usize,
    pub check_digit: fn(u64) -> u8,
}

pub const NUMBER: Scheme = Scheme {
    name: "number",
    most_digits: 7,
    check_digit: document_digit,
};

/// The four digits of the entity and behind them the four of the branch, as one number.
pub const BRANCH: Scheme = Scheme {
    name: "branch",
    most_digits: 8,
    check_digit: weighted_digit,
};

pub const ACCOUNT: Scheme = Scheme {
    name: "account",
    most_digits: 10,
    check_digit: weighted_digit,
};

pub const SCHEMES: [Scheme; 3] = [NUMBER, BRANCH, ACCOUNT];

impl Scheme {
    /// 43 for a number that is too long as for a digit that is not its own.
    fn check(&self, number: u64, keyed: u8) -> u8 {
        let length = number.to_string().len();
        let matches = length <= self.most_digits && (self.check_digit)(number) == keyed;
        if matches {
            0
        } else {
            43
        }
    }
}

pub fn check_number(number: u64, digit: u8) -> u8 {
    NUMBER.check(number, digit)
}

pub fn check_branch(number: u64, digit: u8) -> u8 {
    BRANCH.check(number, digit)
}

pub fn check_account(number: u64, digit: u8) -> u8 {
    ACCOUNT.check(number, digit)
}
