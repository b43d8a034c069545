//! Nominals, commissions and keys at random, many of them where the answers change.

use crate::random::Random;
use crate::tariff::commission::{MOST_NOMINAL, PARTS};
use crate::tariff::keys::{Key, LAST_NUMBER, MOST_COMMISSION, MOST_RATE};

/// Products of nominal and rate count ten-thousandths of a unit of commission.
const HALF: u64 = PARTS / 2;

/// Of any number of digits up to this one, each number of digits as often as the others.
fn of_digits(random: &mut Random, most: usize) -> u64 {
    let digits = random.within(0, most);
    random.number(digits)
}

pub fn key(random: &mut Random) -> Key {
    let (low, any) = (random.within(1, 30), random.within(1, LAST_NUMBER as usize));
    let rate = random.within(0, MOST_RATE as usize) as u32;
    let [short, long] = [3, 8].map(|most| of_digits(random, most) as u32);
    let greatest = random.one_of(&[MOST_COMMISSION, MOST_COMMISSION, short, long, long]);
    let least = random.within(0, greatest as usize) as u32;
    let number = random.one_of(&[1, 9_998, 9_999, low, any, any]);
    Key {
        number: number as u32,
        rate: random.one_of(&[0, 1, 1_000, 2_500, 5_000, 9_999, 10_000, rate, rate, rate]),
        least: random.one_of(&[0, 0, 0, least, greatest, greatest.saturating_sub(1)]),
        greatest,
    }
}

pub fn nominal(random: &mut Random) -> u64 {
    let any = of_digits(random, 12);
    random.one_of(&[0, 1, MOST_NOMINAL - 1, MOST_NOMINAL, any, any, any, any])
}

/// Some are good once they are cut to fewer bits.
pub fn bad_nominal(random: &mut Random) -> u64 {
    let good = of_digits(random, 12);
    let next = MOST_NOMINAL + 1;
    random.one_of(&[
        next,
        next,
        next + 1,
        next + good,
        (1 << 63) + good,
        u64::MAX,
    ])
}

pub fn typed(random: &mut Random) -> u64 {
    let (most, any) = (u64::from(MOST_COMMISSION), of_digits(random, 8));
    random.one_of(&[0, 1, most - 1, most, any, any, any])
}

/// Some are good once they are cut to fewer bits.
pub fn bad_typed(random: &mut Random) -> u64 {
    let (next, good) = (u64::from(MOST_COMMISSION) + 1, of_digits(random, 8));
    random.one_of(&[
        next,
        next,
        next + 1,
        next + good,
        (1 << 32) + good,
        u64::MAX,
    ])
}

/// Near an exact half, near what gives the key's least or greatest commission, or any.
pub fn nominal_for(random: &mut Random, key: &Key) -> u64 {
    let nominal = match random.below(8) {
        0..=2 => near_a_half(random, key.rate),
        3 => near_to_give(random, key.rate, key.least),
        4 => near_to_give(random, key.rate, key.greatest),
        _ => nominal(random),
    };
    nominal.min(MOST_NOMINAL)
}

/// Not every rate has an exact half; ten thousand above one is another.
fn near_a_half(random: &mut Random, rate: u32) -> u64 {
    let gives_a_half = |nominal: &u64| nominal * u64::from(rate) % PARTS == HALF;
    let first = (0..PARTS).find(gives_a_half);
    let nominal = first.unwrap_or(0) + PARTS * of_digits(random, 4);
    (nominal + random.one_of(&[0, 1, 1, 1, 2])).saturating_sub(1)
}

/// Near where the exact quotient is the commission, or half a unit off.
fn near_to_give(random: &mut Random, rate: u32, commission: u32) -> u64 {
    let twice = 2 * u64::from(commission) + random.one_of(&[0, 1, 2]);
    let nominal = (twice * HALF).saturating_sub(HALF) / u64::from(rate.max(1));
    (nominal + random.below(4) as u64).saturating_sub(1)
}
