//! Calendar questions as text, a line each.
//!
//! | question | answer |
//! | --- | --- |
//! | `list PLACES DAY DAY ...` | the code, and what stands in the places and behind them then |
//! | `date NUMBER` | which of the three answers it is, and the date or 0 |
//! | `dates FIRST LAST` | a line for each number up to LAST that has an answer other than `2 0` |

use crate::calendar::compensation::{compensation_date, Compensation};
use crate::calendar::next_days::next_days;
use crate::questions::{answered, line, numbers};
use std::fmt::Write;

/// Places behind the lent ones, which must stay as they are.
const BEYOND: usize = 8;
/// What the first place has before the call; the next has one more, and so on. No day is so large.
const BEFORE: u16 = 40_000;

/// The question about this list.
pub fn list(places: usize, unworked: &[u16]) -> String {
    line(&format!("list {places}"), unworked)
}

/// The two functions that are asked.
#[derive(Clone, Copy)]
pub struct Calendar {
    pub next_days: fn(&[u16], &mut [u16]) -> u8,
    pub compensation_date: fn(u32) -> Compensation,
}

/// The answers of the reference.
pub fn play(text: &[u8]) -> Vec<u8> {
    Calendar::REFERENCE.play(text)
}

impl Calendar {
    pub const REFERENCE: Calendar = Calendar {
        next_days,
        compensation_date,
    };

    pub fn play(&self, text: &[u8]) -> Vec<u8> {
        answered(text, |question, words| {
            let numbers: Vec<u32> = numbers(words);
            match question {
                "list" => self.list(&numbers),
                "date" => self.date(numbers[0]),
                "dates" => self.dates(numbers[0], numbers[1]),
                _ => panic!("{question} is no question"),
            }
        })
    }

    fn list(&self, numbers: &[u32]) -> String {
        let (places, list) = numbers.split_first().expect("the places are stated");
        let unworked: Vec<u16> = list.iter().map(|&day| day as u16).collect();
        let places = *places as usize;
        let mut days: Vec<u16> = (BEFORE..).take(places + BEYOND).collect();
        let code = (self.next_days)(&unworked, &mut days[..places]);
        let mut answer = format!("{code:02}");
        for day in days {
            let _ = write!(answer, " {day}");
        }
        answer + "\n"
    }

    fn date(&self, number: u32) -> String {
        let Compensation { found, date } = (self.compensation_date)(number);
        format!("{found} {date}\n")
    }

    fn dates(&self, first: u32, last: u32) -> String {
        let mut answers = String::new();
        for number in first..=last {
            let Compensation { found, date } = (self.compensation_date)(number);
            if (found, date) != (2, 0) {
                let _ = writeln!(answers, "{number} {found} {date}");
            }
        }
        answers
    }
}
