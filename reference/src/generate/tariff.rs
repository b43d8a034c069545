//! Tariff questions made from a seed: a good tariff with amounts of every sort, the same tariff
//! spoiled in every way, each fault of a call beside the others, and trays.

pub mod trays;

mod amounts;
mod spoils;

use crate::random::Random;
use crate::tariff::keys::{Key, LAST_NUMBER, MOST_KEYS};
use crate::tariff_script::{document, tray};

/// How many seeds a usual run takes.
pub const SEEDS: u64 = 100;

pub fn questions(seed: u64) -> Vec<u8> {
    let mut random = Random::new(seed);
    let keys = good(&mut random);
    let mut text = worked_out(&mut random, &keys);
    text += &spoiled(&mut random, &keys);
    text += &several_faults(&mut random, &keys);
    text += &trays::questions(&mut random, &keys);
    text.into_bytes()
}

/// The tariff as it is lent.
fn lent(keys: &[Key]) -> Vec<u32> {
    keys.iter().flat_map(Key::numbers).collect()
}

fn good(random: &mut Random) -> Vec<Key> {
    let any = random.within(2, MOST_KEYS);
    let count = random.one_of(&[0, 1, 2, any, any, any, MOST_KEYS, MOST_KEYS]);
    with_more(random, Vec::new(), count)
}

/// Until there are so many, and no number twice.
fn with_more(random: &mut Random, mut keys: Vec<Key>, count: usize) -> Vec<Key> {
    while keys.len() < count {
        let key = amounts::key(random);
        if !is_known(&keys, key.number) {
            keys.push(key);
        }
    }
    keys
}

fn is_known(keys: &[Key], number: u32) -> bool {
    keys.iter().any(|key| key.number == number)
}

/// Often a number that is known once it is cut to fewer bits or digits.
fn unknown(random: &mut Random, keys: &[Key]) -> u32 {
    loop {
        let any = random.within(1, LAST_NUMBER as usize) as u32;
        let near = some(random, keys).map_or(1, |key| key.number);
        let short = [1, LAST_NUMBER, near + 1, any, any];
        let long = [LAST_NUMBER + 1, near + 10_000, near + 65_536, u32::MAX];
        let number = random.one_of(&[&short[..], &long].concat());
        if !is_known(keys, number) {
            return number;
        }
    }
}

/// None of an empty tariff.
fn some(random: &mut Random, keys: &[Key]) -> Option<Key> {
    (!keys.is_empty()).then(|| random.one_of(keys))
}

fn worked_out(random: &mut Random, keys: &[Key]) -> String {
    let tariff = lent(keys);
    let mut text = String::new();
    for _ in 0..24 {
        let (number, nominal) = number_and_nominal(random, keys);
        text += &document(&tariff, number, nominal, amounts::typed(random));
    }
    for _ in 0..4 {
        let number = unknown(random, keys);
        let (nominal, typed) = (amounts::nominal(random), amounts::typed(random));
        text += &document(&tariff, number, nominal, typed);
    }
    text
}

/// Key 0 now and then, and always where the tariff has no other.
fn number_and_nominal(random: &mut Random, keys: &[Key]) -> (u32, u64) {
    match some(random, keys).filter(|_| !random.once_in(8)) {
        Some(key) => (key.number, amounts::nominal_for(random, &key)),
        None => (0, amounts::nominal(random)),
    }
}

fn spoiled(random: &mut Random, keys: &[Key]) -> String {
    let mut text = String::new();
    for spoil in spoils::ALL {
        let tariff = spoil(random, keys.to_vec());
        let (number, nominal) = number_and_nominal(random, keys);
        text += &document(&tariff, number, nominal, amounts::typed(random));
        let count = random.below(3);
        let documents = trays::documents(random, keys, count);
        text += &tray(&tariff, documents.as_flattened());
    }
    text
}

/// All choices of a bad tariff, a bad nominal and a bad typed commission, with key 0, a known and
/// an unknown one.
fn several_faults(random: &mut Random, keys: &[Key]) -> String {
    let mut text = String::new();
    for faults in 0..8 {
        let tariff = match faults & 1 {
            0 => lent(keys),
            _ => spoils::any(random, keys),
        };
        let nominal = match faults & 2 {
            0 => amounts::nominal(random),
            _ => amounts::bad_nominal(random),
        };
        let typed = match faults & 4 {
            0 => amounts::typed(random),
            _ => amounts::bad_typed(random),
        };
        let known = some(random, keys).map_or(1, |key| key.number);
        for number in [0, known, unknown(random, keys)] {
            text += &document(&tariff, number, nominal, typed);
        }
    }
    text
}
