//! The line's check digits against those of the reference, with given and generated numbers; and
//! which wrong digit of a number neither of them sees.
//!
//! `LONG=n` takes n times as many seeds, `SEED=s` begins with another seed than 0.

use reference::check_digits_script::{self, Check, Checks};
use reference::compare::questions::Both;
use reference::corpus::check_digits::{fixed, of_seed};
use reference::generate::check_digits::{with_digit, SEEDS};
use reference::line;
use reference::questions::numbers;
use reference::random::Random;
use reference::seeds::seeds;

const ENGINE: Checks = Checks {
    check_number: line::check_number,
    check_branch: line::check_branch,
    check_account: line::check_account,
};

fn engine(text: &[u8]) -> Vec<u8> {
    ENGINE.play(text)
}

const BOTH: Both = Both {
    reference: check_digits_script::play,
    engine,
};

/// How many the usual number of seeds gives at the least. Of numbers that are too long any seeds
/// give exactly so many.
const LEAST: [(&str, u64); 13] = [
    ("number matches", 1_900),
    ("branch matches", 800),
    ("account matches", 950),
    ("10 becomes 1", 850),
    ("11 becomes 0", 450),
    ("remainder 10", 850),
    ("another digit", 30_000),
    ("above 9", 5_500),
    ("above 9, else right", 3_000),
    ("number too long", 6_300),
    ("branch too long", 6_300),
    ("account too long", 5_400),
    ("too long, else right", 2_000),
];

fn kind(question: &str, answer: &str) -> &'static str {
    let words: Vec<&str> = question.split(' ').collect();
    let asked: Vec<u64> = numbers(&words[1..]);
    match answer {
        "00" => kind_of_match(words[0], asked[0]),
        "43" => kind_of_refusal(words[0], asked[0], asked[1]),
        _ => "no answer",
    }
}

fn kind_of_match(scheme: &str, number: u64) -> &'static str {
    match (scheme, modulo_11(number)) {
        ("number", _) => "number matches",
        (_, 0) => "11 becomes 0",
        (_, 1) => "10 becomes 1",
        (_, 10) => "remainder 10",
        ("branch", _) => "branch matches",
        _ => "account matches",
    }
}

fn kind_of_refusal(scheme: &str, number: u64, digit: u64) -> &'static str {
    let (longest, too_long, right) = match scheme {
        "number" => (9_999_999, "number too long", modulo_7(number)),
        "branch" => (99_999_999, "branch too long", weighted(number)),
        _ => (9_999_999_999, "account too long", weighted(number)),
    };
    match (number > longest, digit) {
        (true, _) if digit == right => "too long, else right",
        (true, _) => too_long,
        (false, 0..=9) => "another digit",
        (false, _) if digit % 10 == right => "above 9, else right",
        (false, _) => "above 9",
    }
}

/// By long division, digit after digit from the highest place on.
fn modulo_7(number: u64) -> u64 {
    let places = (0..20).rev();
    places.fold(0, |rest, place| (10 * rest + digit(number, place)) % 7)
}

/// From the tenth place down the weights are 1, 2, 4, 8 and so on, less some elevens: so, going up
/// from the units, what has come together is doubled at each place. Higher digits do not count.
fn modulo_11(number: u64) -> u64 {
    let places = 0..10;
    places.fold(0, |rest, place| (2 * rest + digit(number, place)) % 11)
}

fn digit(number: u64, place: usize) -> u64 {
    number / 10_u64.pow(place as u32) % 10
}

/// The check digit of an entity with its branch, and of an account.
fn weighted(number: u64) -> u64 {
    match modulo_11(number) {
        0 => 0,
        1 => 1,
        remainder => 11 - remainder,
    }
}

#[test]
fn the_line_answers_fixed_questions_like_the_reference() {
    BOTH.ask_fixed(fixed());
}

/// A digit at random seldom does.
#[test]
fn every_fixed_text_has_digits_that_match() {
    for made in fixed() {
        let answers = BOTH.answers(&made);
        let matching = answers.lines().filter(|code| *code == "00").count();
        println!("{}: {matching} match", made.name);
        assert!(matching >= 8, "{}: {matching} are few", made.name);
    }
}

#[test]
fn the_line_answers_generated_questions_like_the_reference() {
    BOTH.ask_seeds(SEEDS, of_seed, kind, &LEAST);
}

/// The reference and the engine.
type Pair = [Check; 2];

const NUMBER: Pair = [Checks::REFERENCE.check_number, ENGINE.check_number];
const BRANCH: Pair = [Checks::REFERENCE.check_branch, ENGINE.check_branch];
const ACCOUNT: Pair = [Checks::REFERENCE.check_account, ENGINE.check_account];

/// Of all that can be keyed, what both take.
fn taken(pair: Pair, number: u64) -> Vec<u8> {
    let [reference, engine] = pair.map(|check| {
        let is_taken = |digit: &u8| match check(number, *digit) {
            0 => true,
            43 => false,
            code => panic!("{code} for {number} with {digit}"),
        };
        (0..=u8::MAX).filter(is_taken).collect::<Vec<u8>>()
    });
    assert_eq!(reference, engine, "{number}");
    reference
}

#[test]
fn the_examples_of_the_papers() {
    assert_eq!(taken(NUMBER, 2_434_157), [5]);
    assert_eq!(taken(BRANCH, 720_101), [9]);
    assert_eq!(taken(BRANCH, 720_110), [1]);
}

#[test]
fn a_158_digits_that_differ_by_7_and_not_numbers() {
    assert_eq!(taken(NUMBER, 9_434_157), taken(NUMBER, 2_434_157));
    assert_eq!(taken(NUMBER, 3_434_157), [6]);
    assert_eq!(taken(NUMBER, 2_434_150), taken(NUMBER, 2_434_157));
}

#[test]
fn a_159_remainders_1_and_10_in_either_order() {
    assert_eq!((modulo_11(720_101), modulo_11(720_110)), (2, 10));
    assert_eq!((modulo_11(2), modulo_11(9)), (1, 10));
    for pair in [BRANCH, ACCOUNT] {
        for (number, digit) in [(0, 0), (2, 1), (9, 1), (720_101, 9), (720_110, 1)] {
            assert_eq!(taken(pair, number), [digit]);
        }
    }
}

#[test]
fn a_160_no_digit_and_numbers_that_are_too_long() {
    assert_eq!(modulo_7(10_000_000), 3);
    for (number, digit) in [(2_434_157, 15), (10_000_000, 3)] {
        assert_eq!(NUMBER.map(|check| check(number, digit)), [43, 43]);
    }
    for (pair, length) in [(NUMBER, 7), (BRANCH, 8), (ACCOUNT, 10)] {
        let too_long = 10_u64.pow(length);
        assert_eq!(taken(pair, too_long - 1).len(), 1);
        for number in [too_long, too_long + 1, 1 << 63, u64::MAX] {
            assert!(taken(pair, number).is_empty(), "{number}");
        }
    }
}

/// The right number and the wrong one, which differ at this place.
#[derive(Debug)]
struct Mistake {
    numbers: [u64; 2],
    place: usize,
}

/// Every other digit at every place.
fn mistakes(right: u64, places: usize) -> Vec<Mistake> {
    let mut mistakes = Vec::new();
    for place in 0..places {
        let others = (0..=9).filter(|&other| other != digit(right, place));
        mistakes.extend(others.map(|other| {
            let numbers = [right, with_digit(right, place, other)];
            Mistake { numbers, place }
        }));
    }
    mistakes
}

/// Tries all mistakes in many numbers: with the check digit of the right number a wrong one must
/// pass just where it is said to. At every place some do.
fn try_mistakes(pair: Pair, places: usize, is_said_to_pass: fn(&Mistake) -> bool) {
    let mut passed = vec![0; places];
    let any = seeds(3_000).map(|seed| Random::new(seed).number(places));
    for right in any.chain([0, 10_u64.pow(places as u32) - 1]) {
        let check_digit = taken(pair, right)[0];
        for mistake in mistakes(right, places) {
            let passes = is_said_to_pass(&mistake);
            let codes = pair.map(|check| check(mistake.numbers[1], check_digit));
            assert_eq!(codes, if passes { [0; 2] } else { [43; 2] }, "{mistake:?}");
            passed[mistake.place] += usize::from(passes);
        }
    }
    println!("passed at each place: {passed:?}");
    assert!(passed.iter().all(|&count| count > 0), "{passed:?}");
}

#[test]
fn a_wrong_digit_passes_the_document_check_where_it_is_7_off() {
    try_mistakes(NUMBER, 7, |mistake| {
        let [old, new] = mistake.numbers.map(|number| digit(number, mistake.place));
        old.abs_diff(new) == 7
    });
}

#[test]
fn a_wrong_digit_passes_the_weighted_check_between_the_remainders_1_and_10() {
    for (pair, places) in [(BRANCH, 8), (ACCOUNT, 10)] {
        try_mistakes(pair, places, |mistake| {
            let [old, new] = mistake.numbers.map(modulo_11);
            assert_ne!(old, new, "{mistake:?}");
            [[1, 10], [10, 1]].contains(&[old, new])
        });
    }
}
