//! Calendar questions made from a seed: a good list with every number of places, the same list
//! spoiled in every way, and as dates large numbers, days of 2028 and what lies near their limits.

use crate::calendar::date::Date;
use crate::calendar::next_days::{DAYS, LAST_DAY};
use crate::calendar::year_2028;
use crate::calendar_script::list;
use crate::random::Random;
use std::fmt::Write;

/// How many seeds a usual run takes.
pub const SEEDS: u64 = 150;
const TOO_FEW: [usize; 3] = [0, 1, 365];
const ENOUGH: [usize; 3] = [366, 367, 400];

pub fn questions(seed: u64) -> Vec<u8> {
    let mut random = Random::new(seed);
    let good = good(&mut random);
    let mut text = with_all_places(&good);
    for spoil in SPOILS {
        let spoiled = spoil(&mut random, good.clone());
        text += &list(random.one_of(&TOO_FEW), &spoiled);
        text += &list(random.one_of(&ENOUGH), &spoiled);
    }
    text += &large_numbers(&mut random);
    text += &dates(&mut random);
    text.into_bytes()
}

/// The list with each number of places in turn.
pub fn with_all_places(unworked: &[u16]) -> String {
    let places = TOO_FEW.into_iter().chain(ENOUGH);
    places.map(|places| list(places, unworked)).collect()
}

/// Half of them end like days of 2028.
fn large_numbers(random: &mut Random) -> String {
    let mut text = String::new();
    for _ in 0..10 {
        let number = random.below(1 << 32);
        let of_year = number / 100 * 100 + 28;
        let _ = write!(text, "date {number}\ndate {of_year}\n");
    }
    text
}

/// In turn any day of 2028 and one near the limits.
fn dates(random: &mut Random) -> String {
    let year: Vec<Date> = year_2028::dates().collect();
    let mut text = String::new();
    for _ in 0..20 {
        let (any, near) = (random.one_of(&year), near_the_limits(random));
        let _ = write!(text, "date {}\ndate {}\n", any.number(), near.number());
    }
    text
}

/// Day, month and year are drawn apart, so many are no date at all.
fn near_the_limits(random: &mut Random) -> Date {
    let day = random.one_of(&[0, 1, 28, 29, 30, 31, 32]);
    let any_month = random.within(1, 12) as u32;
    let month = random.one_of(&[0, 1, 2, 11, 12, 13, any_month]);
    let year = random.one_of(&[2027, 2028, 2028, 2028, 2029]);
    Date::new(day, month, year)
}

/// Of any density, the empty list and that of all days among them.
fn good(random: &mut Random) -> Vec<u16> {
    let of_hundred = match random.below(4) {
        0 => return stretches(random),
        1 => random.within(0, 4),
        2 => random.within(96, 100),
        _ => random.within(5, 95),
    };
    let days = 1..=LAST_DAY;
    days.filter(|_| random.below(100) < of_hundred).collect()
}

/// Days in a row that are worked, then days in a row that are not.
fn stretches(random: &mut Random) -> Vec<u16> {
    let mut unworked = Vec::new();
    let mut day = random.within(0, 9) as u16;
    while day < LAST_DAY {
        let last = LAST_DAY.min(day + random.within(1, 60) as u16);
        unworked.extend(day + 1..=last);
        day = last + random.within(1, 60) as u16;
    }
    unworked
}

type Spoil = fn(&mut Random, Vec<u16>) -> Vec<u16>;

const SPOILS: [Spoil; 8] = [
    equal_neighbours,
    swapped_pair,
    begins_with_0,
    has_0,
    ends_beyond_the_year,
    has_a_day_beyond_the_year,
    all_days_and_one_more,
    more_than_a_year,
];

/// The list itself if it is long enough to be spoiled.
fn at_least(count: u16, list: Vec<u16>) -> Vec<u16> {
    if list.len() < usize::from(count) {
        (1..=count).collect()
    } else {
        list
    }
}

fn equal_neighbours(random: &mut Random, list: Vec<u16>) -> Vec<u16> {
    let mut list = at_least(1, list);
    let at = random.below(list.len());
    list.insert(at, list[at]);
    list
}

fn swapped_pair(random: &mut Random, list: Vec<u16>) -> Vec<u16> {
    let mut list = at_least(2, list);
    let at = random.below(list.len() - 1);
    list.swap(at, at + 1);
    list
}

fn begins_with_0(_: &mut Random, mut list: Vec<u16>) -> Vec<u16> {
    list.insert(0, 0);
    list
}

fn has_0(random: &mut Random, list: Vec<u16>) -> Vec<u16> {
    let mut list = at_least(1, list);
    let at = random.below(list.len());
    list[at] = 0;
    list
}

/// Some are days of the year once their upper bits are cut off.
fn beyond_the_year(random: &mut Random) -> u16 {
    let any = random.within(367, 65_535) as u16;
    let day = random.within(1, DAYS) as u16;
    random.one_of(&[367, 367, 65_535, 368, 512 + day, 32_768 + day, any])
}

fn ends_beyond_the_year(random: &mut Random, mut list: Vec<u16>) -> Vec<u16> {
    list.push(beyond_the_year(random));
    list
}

fn has_a_day_beyond_the_year(random: &mut Random, list: Vec<u16>) -> Vec<u16> {
    let mut list = at_least(1, list);
    let at = random.below(list.len());
    list[at] = beyond_the_year(random);
    list
}

fn all_days_and_one_more(random: &mut Random, _: Vec<u16>) -> Vec<u16> {
    let mut list: Vec<u16> = (1..=LAST_DAY).collect();
    let (day, within) = (random.within(1, DAYS) as u16, random.below(DAYS));
    let more = random.one_of(&[0, 1, 366, 367, day]);
    list.insert(random.one_of(&[0, DAYS, within]), more);
    list
}

fn more_than_a_year(random: &mut Random, list: Vec<u16>) -> Vec<u16> {
    let count = random.one_of(&[367, 368, 400, 732, 1_000]);
    match random.below(4) {
        0 => (1..).take(count).collect(),
        1 => (1..=LAST_DAY).cycle().take(count).collect(),
        2 => at_least(1, list).into_iter().cycle().take(count).collect(),
        _ => (0..count).map(|_| random.within(1, DAYS) as u16).collect(),
    }
}
