//! Check digit questions of a seed, and those that every run asks.

use super::Script;
use crate::check_digits::schemes::{Scheme, SCHEMES};
use crate::generate::check_digits::{questions, SEEDS};
use crate::generate::check_digits::{with_all_digits, with_each, with_wrong_digits};

pub fn of_seed(seed: u64) -> Script {
    Script::new(&format!("check digits, seed {seed}"), questions(seed))
}

/// Those of as many seeds as a usual run takes.
pub fn generated() -> Vec<Script> {
    (0..SEEDS).map(of_seed).collect()
}

pub fn fixed() -> Vec<Script> {
    let texts = [
        ("named", NAMED.into()),
        ("small numbers", of_all(with_all_digits, 0..=120)),
        ("single places", of_all(with_all_digits, single_places())),
        ("lengths", of_all(with_all_digits, lengths())),
        ("large numbers", of_all(with_all_digits, large_numbers())),
        ("bytes", of_all(with_all_bytes, 0..=14)),
        ("wrong digits", of_all(with_wrong_digits, SPOILED)),
    ];
    let script = |(name, text)| Script::new(&format!("check digits, {name}"), text);
    texts.map(script).into()
}

/// What the papers name, the open points among it.
const NAMED: &str = "\
number 2434157 5
number 9434157 5
number 3434157 5
number 2434157 15
number 9999999 2
number 10000000 3
branch 720101 9
branch 720110 1
branch 720110 9
branch 720101 1
branch 99999999 5
branch 100000000 9
account 720101 9
account 720110 1
account 9999999999 0
account 10000000000 0
";

/// Asks about each number by each scheme.
fn of_all(ask: fn(&Scheme, u64) -> String, numbers: impl IntoIterator<Item = u64>) -> String {
    let by_each = |number| SCHEMES.map(|scheme| ask(&scheme, number)).concat();
    numbers.into_iter().map(by_each).collect()
}

/// Every digit at every place of 64 bits, alone.
fn single_places() -> Vec<u64> {
    let at = |place| (1..=9).filter_map(move |digit| 10_u64.pow(place).checked_mul(digit));
    (0..20).flat_map(at).collect()
}

/// The greatest number of each length, and the least but one of the next.
fn lengths() -> Vec<u64> {
    let about = |length| [10_u64.pow(length) - 1, 10_u64.pow(length) + 1];
    (1..20).flat_map(about).collect()
}

/// What a number loses that is cut to 32 bits.
const LOST: [u64; 9] = [
    0,
    1 << 32,
    2 << 32,
    3 << 32,
    1 << 40,
    1 << 48,
    1 << 63,
    (u32::MAX as u64 - 1) << 32,
    (u32::MAX as u64) << 32,
];
/// What is left of it then.
const LEFT: [u64; 11] = [
    0,
    1,
    5,
    720_101,
    720_110,
    2_434_157,
    9_999_999,
    99_999_999,
    999_999_999,
    1 << 31,
    u32::MAX as u64,
];

fn large_numbers() -> Vec<u64> {
    let cut_from = |lost| LEFT.map(|left| lost + left);
    LOST.into_iter().flat_map(cut_from).collect()
}

/// All that can be keyed.
fn with_all_bytes(scheme: &Scheme, number: u64) -> String {
    with_each(scheme, number, 0..=u8::MAX)
}

/// Weighted, they have the remainders 0, 1, 10, 2, 10, 1 and 3.
const SPOILED: [u64; 7] = [0, 2, 9, 720_101, 720_110, 2_434_157, 9_999_999];
