//! A good tariff spoiled in each way that the papers name.

use super::{lent, with_more};
use crate::random::Random;
use crate::tariff::keys::{Key, MOST_COMMISSION, MOST_KEYS, NUMBERS};

/// Gives the bad tariff as it is lent.
type Spoil = fn(&mut Random, Vec<Key>) -> Vec<u32>;

pub const ALL: [Spoil; 11] = [
    one_key_too_many,
    many_keys,
    a_key_cut_short,
    a_little_over_the_most,
    neighbours_alike,
    first_and_last_alike,
    number_0,
    number_too_large,
    rate_too_large,
    least_above_greatest,
    greatest_too_large,
];

pub fn any(random: &mut Random, keys: &[Key]) -> Vec<u32> {
    let spoil = random.one_of(&ALL);
    spoil(random, keys.to_vec())
}

fn one_key_too_many(random: &mut Random, keys: Vec<Key>) -> Vec<u32> {
    lent(&with_more(random, keys, MOST_KEYS + 1))
}

fn many_keys(random: &mut Random, keys: Vec<Key>) -> Vec<u32> {
    let count = random.one_of(&[22, 24, 40, 64, 65]);
    lent(&with_more(random, keys, count))
}

fn a_key_cut_short(random: &mut Random, keys: Vec<Key>) -> Vec<u32> {
    let mut tariff = lent(&with_more(random, keys, 1));
    tariff.truncate(tariff.len() - random.within(1, NUMBERS - 1));
    tariff
}

fn a_little_over_the_most(random: &mut Random, keys: Vec<Key>) -> Vec<u32> {
    let mut tariff = one_key_too_many(random, keys);
    tariff.truncate(tariff.len() - random.within(1, NUMBERS - 1));
    tariff
}

fn neighbours_alike(random: &mut Random, keys: Vec<Key>) -> Vec<u32> {
    let mut keys = with_more(random, keys, 2);
    let at = random.below(keys.len() - 1);
    alike(random, &mut keys, at, at + 1)
}

fn first_and_last_alike(random: &mut Random, keys: Vec<Key>) -> Vec<u32> {
    let count = random.within(2, MOST_KEYS);
    let mut keys = with_more(random, keys, count);
    let last = keys.len() - 1;
    alike(random, &mut keys, 0, last)
}

/// In number alone or in all.
fn alike(random: &mut Random, keys: &mut [Key], one: usize, other: usize) -> Vec<u32> {
    if random.once_in(2) {
        keys[other] = keys[one];
    } else {
        keys[other].number = keys[one].number;
    }
    lent(keys)
}

fn number_0(random: &mut Random, keys: Vec<Key>) -> Vec<u32> {
    with_one(random, keys, |_, key| key.number = 0)
}

/// Here and below some are good once they are cut to 16 bits.
fn number_too_large(random: &mut Random, keys: Vec<Key>) -> Vec<u32> {
    with_one(random, keys, |random, key| {
        let number = random.one_of(&[10_000, 10_000, 10_001, 65_536 + key.number, u32::MAX]);
        key.number = number;
    })
}

fn rate_too_large(random: &mut Random, keys: Vec<Key>) -> Vec<u32> {
    with_one(random, keys, |random, key| {
        let rate = random.one_of(&[10_001, 10_001, 10_002, 65_536 + key.rate, u32::MAX]);
        key.rate = rate;
    })
}

fn least_above_greatest(random: &mut Random, keys: Vec<Key>) -> Vec<u32> {
    with_one(random, keys, |random, key| {
        let by_one = key.greatest + 1;
        key.least = random.one_of(&[by_one, by_one, u32::MAX]);
    })
}

fn greatest_too_large(random: &mut Random, keys: Vec<Key>) -> Vec<u32> {
    with_one(random, keys, |random, key| {
        let next = MOST_COMMISSION + 1;
        key.greatest = random.one_of(&[next, next, next + 1, u32::MAX]);
        key.least = random.one_of(&[key.least, key.greatest]);
    })
}

fn with_one(
    random: &mut Random,
    keys: Vec<Key>,
    change: impl Fn(&mut Random, &mut Key),
) -> Vec<u32> {
    let mut keys = with_more(random, keys, 1);
    let at = random.below(keys.len());
    change(random, &mut keys[at]);
    lent(&keys)
}
