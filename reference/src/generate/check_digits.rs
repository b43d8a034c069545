//! Check digit questions made from a seed. For each scheme: numbers of every length with their own
//! digit and with others, a number in which one digit is wrong, and numbers about the longest that
//! is taken and far beyond it.

use crate::check_digits::schemes::{Scheme, SCHEMES};
use crate::check_digits_script::question;
use crate::random::Random;

/// How many seeds a usual run takes.
pub const SEEDS: u64 = 100;

pub fn questions(seed: u64) -> Vec<u8> {
    let mut random = Random::new(seed);
    let mut text = String::new();
    for scheme in &SCHEMES {
        text += &of_every_length(&mut random, scheme);
        text += &with_one_wrong_digit(&mut random, scheme);
        text += &about_the_longest(&mut random, scheme);
    }
    text.into_bytes()
}

/// So that the right digit is asked for, and also the one that would be right in a faulty way.
pub fn with_all_digits(scheme: &Scheme, number: u64) -> String {
    with_each(scheme, number, 0..=9)
}

/// All that is keyed beside the number, one after the other.
pub fn with_each(scheme: &Scheme, number: u64, keyed: impl IntoIterator<Item = u8>) -> String {
    let digits = keyed.into_iter();
    let questions = digits.map(|digit| question(scheme, number, digit));
    questions.collect()
}

/// Every digit at every place in turn, beside the check digit of the number itself.
pub fn with_wrong_digits(scheme: &Scheme, number: u64) -> String {
    let check_digit = (scheme.check_digit)(number);
    let mut text = String::new();
    for place in 0..scheme.most_digits {
        for digit in 0..=9 {
            text += &question(scheme, with_digit(number, place, digit), check_digit);
        }
    }
    text
}

/// The number with this digit at a place, counted from 0 for the units.
pub fn with_digit(number: u64, place: usize, digit: u64) -> u64 {
    let unit = 10_u64.pow(place as u32);
    number - number / unit % 10 * unit + digit * unit
}

fn of_every_length(random: &mut Random, scheme: &Scheme) -> String {
    let mut text = String::new();
    for length in 1..=scheme.most_digits {
        let number = of_length(random, length);
        let keyed = about(random, (scheme.check_digit)(number));
        text += &with_each(scheme, number, keyed);
    }
    text
}

/// No zero in front.
fn of_length(random: &mut Random, length: usize) -> u64 {
    let first = random.within(1, 9) as u64;
    with_digit(random.number(length - 1), length - 1, first)
}

/// The right digit; another one; then three that a fault could take for it, 7 more, some tens more
/// and some sixteens more; and any number above 9.
fn about(random: &mut Random, right: u8) -> [u8; 6] {
    [
        right,
        (right + random.within(1, 9) as u8) % 10,
        right + 7,
        right + 10 * random.within(1, 24) as u8,
        right + 16 * random.within(1, 15) as u8,
        random.within(10, 255) as u8,
    ]
}

/// Every second number has the check digit 1: weighted, it stands for two remainders, so that some
/// wrong digits pass.
fn with_one_wrong_digit(random: &mut Random, scheme: &Scheme) -> String {
    let stands_for_two = random.once_in(2);
    let mut number = random.number(scheme.most_digits);
    while stands_for_two && (scheme.check_digit)(number) != 1 {
        number = random.number(scheme.most_digits);
    }
    with_wrong_digits(scheme, number)
}

/// Some are short enough once they are cut to 32 bits or to their last digits.
fn about_the_longest(random: &mut Random, scheme: &Scheme) -> String {
    let most = scheme.most_digits;
    let too_long = 10_u64.pow(most as u32);
    let within_32_bits = random.number(most.min(9));
    let above_32_bits = random.within(1, u32::MAX as usize) as u64;
    let longer = random.within(most + 1, 19);
    let numbers = [
        0,
        too_long - 1,
        too_long,
        too_long + within_32_bits,
        (1 << 32) + within_32_bits,
        (above_32_bits << 32) + within_32_bits,
        u64::MAX - within_32_bits,
        of_length(random, most + 1),
        of_length(random, longer),
    ];
    let questions = numbers.map(|number| with_all_digits(scheme, number));
    questions.concat()
}
