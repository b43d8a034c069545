//! The year 2028: its dates, which of them are worked, and its table.

use super::date::{Date, Weekday};
use super::next_days::{next_days, DAYS};
use std::iter;

const YEAR: u32 = 2028;
/// Day and month.
const HOLIDAYS: [(u32, u32); 5] = [(1, 1), (6, 1), (1, 5), (12, 10), (25, 12)];

/// All dates from 1 January to 31 December.
pub fn dates() -> impl Iterator<Item = Date> {
    let first = Date::new(1, 1, YEAR);
    iter::successors(Some(first), |date| Some(date.next())).take_while(|date| date.year == YEAR)
}

pub fn is_worked(date: Date) -> bool {
    let weekend = matches!(date.weekday(), Weekday::Saturday | Weekday::Sunday);
    !weekend && !HOLIDAYS.contains(&(date.day, date.month))
}

/// The numbers of the unworked days.
pub fn unworked() -> Vec<u16> {
    let numbered = (1..).zip(dates());
    let unworked = numbered.filter(|&(_, date)| !is_worked(date));
    unworked.map(|(number, _)| number).collect()
}

pub fn table() -> [u16; DAYS] {
    let mut table = [0; DAYS];
    assert_eq!(next_days(&unworked(), &mut table), 0);
    table
}

/// The table with a line for each number.
pub fn text() -> String {
    table().iter().map(|day| format!("{day}\n")).collect()
}
