//! Calendar questions of a seed, and those that every run asks.

use super::Script;
use crate::calendar::next_days::{DAYS, LAST_DAY};
use crate::calendar::year_2028;
use crate::calendar_script::list;
use crate::generate::calendar::{questions, with_all_places, SEEDS};
use std::fmt::Write;

pub fn of_seed(seed: u64) -> Script {
    Script::new(&format!("calendar, seed {seed}"), questions(seed))
}

/// Those of as many seeds as a usual run takes.
pub fn generated() -> Vec<Script> {
    (0..SEEDS).map(of_seed).collect()
}

pub fn fixed() -> Vec<Script> {
    vec![
        Script::new("calendar, named", named()),
        Script::new("calendar, single days", single_days()),
        Script::new("calendar, all days but one", all_days_but_one()),
        Script::new("calendar, numbers", "dates 0 1100000\n"),
        Script::new("calendar, larger numbers", larger_numbers()),
    ]
}

/// The empty list, the full one and that of 2028, then what the papers name.
fn named() -> String {
    let all: Vec<u16> = (1..=LAST_DAY).collect();
    let lists = [vec![], all, year_2028::unworked()];
    let lists = lists.iter().map(|unworked| with_all_places(unworked));
    lists.collect::<String>() + NAMED
}

const NAMED: &str = "\
list 366 1 1
list 366 2 1
list 366 0
list 366 0 1
list 366 366
list 366 367
list 366 366 367
list 366 65535
list 365 1 1
list 365 367
list 0 0
date 10128
date 50128
date 281228
date 291228
date 301228
date 311228
date 280228
date 290228
date 300228
date 310428
date 10127
date 10129
date 28
";

fn single_days() -> String {
    (1..=LAST_DAY).map(|day| list(DAYS, &[day])).collect()
}

fn all_days_but_one() -> String {
    let days = 1..=LAST_DAY;
    let without = |left_out: u16| {
        let others: Vec<u16> = days.clone().filter(|&day| day != left_out).collect();
        list(DAYS, &others)
    };
    days.clone().map(without).collect()
}

/// What a number that is cut to fewer bits or digits loses, as a whole or in its day alone.
const LOST: [u32; 11] = [
    1_000_000,
    10_000_000,
    4_294_000_000,
    256 * 10_000,
    65_536 * 100,
    655 * 65_536 * 100,
    65_536 * 10_000,
    17 * 65_536,
    65_530 * 65_536,
    1 << 24,
    1 << 31,
];

/// Each becomes a day of 2028 if it is cut; and the greatest numbers.
fn larger_numbers() -> String {
    let mut text = String::new();
    for date in year_2028::dates() {
        for lost in LOST {
            let _ = writeln!(text, "date {}", lost + date.number());
        }
    }
    text + "dates 4294900000 4294967295\n"
}
