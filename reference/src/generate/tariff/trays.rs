//! Trays of documents with any bytes beside nominal, tariff key and commission: good ones, others
//! with bad documents in several places, and such as are no whole documents.

use super::{amounts, lent, number_and_nominal, spoils, unknown};
use crate::bodies::Document;
use crate::packed;
use crate::random::Random;
use crate::session::detail::DOCUMENT;
use crate::tariff::keys::{Key, LAST_NUMBER};
use crate::tariff::tray::{COMMISSION, NOMINAL, TARIFF_KEY};
use crate::tariff_script::tray;
use std::iter;

pub fn questions(random: &mut Random, keys: &[Key]) -> String {
    good(random, keys)
        + &one_bad_document(random, keys)
        + &two_bad_documents(random, keys)
        + &no_whole_documents(random, keys)
}

pub fn documents(random: &mut Random, keys: &[Key], count: usize) -> Vec<Document> {
    (0..count).map(|_| document(random, keys)).collect()
}

fn document(random: &mut Random, keys: &[Key]) -> Document {
    let mut document = [0; DOCUMENT];
    document.fill_with(|| random.byte());
    let (number, nominal) = number_and_nominal(random, keys);
    stating(document, number, nominal, amounts::typed(random))
}

/// The document with these in it.
pub fn stating(mut document: Document, key: u32, nominal: u64, typed: u64) -> Document {
    packed::write(u64::from(key), &mut document[TARIFF_KEY]);
    packed::write(nominal, &mut document[NOMINAL]);
    packed::write(typed, &mut document[COMMISSION]);
    document
}

fn good(random: &mut Random, keys: &[Key]) -> String {
    let mut text = String::new();
    for count in [0, 1, 2, random.within(3, 30)] {
        let documents = documents(random, keys, count);
        text += &tray(&lent(keys), documents.as_flattened());
    }
    text
}

type Spoil = fn(&mut Random, &[Key], &mut Document);

const SPOILS: [Spoil; 4] = [
    key_without_digits,
    nominal_without_digits,
    commission_without_digits,
    unknown_key,
];

fn key_without_digits(random: &mut Random, _: &[Key], document: &mut Document) {
    take_a_digit(random, &mut document[TARIFF_KEY]);
}

fn nominal_without_digits(random: &mut Random, _: &[Key], document: &mut Document) {
    take_a_digit(random, &mut document[NOMINAL]);
}

fn commission_without_digits(random: &mut Random, _: &[Key], document: &mut Document) {
    take_a_digit(random, &mut document[COMMISSION]);
}

fn take_a_digit(random: &mut Random, field: &mut [u8]) {
    let at = random.below(field.len());
    let other = random.within(10, 15) as u8;
    field[at] = match random.below(2) {
        0 => field[at] & 0xF0 | other,
        _ => field[at] & 0x0F | other << 4,
    };
}

/// Of four digits, as a document can state it.
fn unknown_key(random: &mut Random, keys: &[Key], document: &mut Document) {
    let mut numbers = iter::repeat_with(|| unknown(random, keys));
    let number = numbers.find(|&number| number <= LAST_NUMBER);
    packed::write(u64::from(number.unwrap()), &mut document[TARIFF_KEY]);
}

/// Each fault first, last and in between, and all other faults beside it now and then.
fn one_bad_document(random: &mut Random, keys: &[Key]) -> String {
    let mut text = String::new();
    for spoil in SPOILS {
        let mut documents = documents(random, keys, 5);
        let within = random.within(1, documents.len() - 2);
        for at in [0, within, documents.len() - 1] {
            let good = documents[at];
            spoil_often(random, keys, &mut documents[at]);
            spoil(random, keys, &mut documents[at]);
            text += &tray(&lent(keys), documents.as_flattened());
            documents[at] = good;
        }
    }
    text
}

/// Every second time at least once, every fourth at least twice, and so on.
fn spoil_often(random: &mut Random, keys: &[Key], document: &mut Document) {
    while random.once_in(2) {
        let spoil = random.one_of(&SPOILS);
        spoil(random, keys, document);
    }
}

/// Or two faults in one.
fn two_bad_documents(random: &mut Random, keys: &[Key]) -> String {
    let mut text = String::new();
    for _ in 0..6 {
        let count = random.within(2, 6);
        let mut documents = documents(random, keys, count);
        for at in [random.below(count), random.below(count)] {
            let spoil = random.one_of(&SPOILS);
            spoil(random, keys, &mut documents[at]);
        }
        text += &tray(&lent(keys), documents.as_flattened());
    }
    text
}

/// With good and bad documents, and with a good and a bad tariff.
fn no_whole_documents(random: &mut Random, keys: &[Key]) -> String {
    let mut text = String::new();
    for left_over in [1, 50, random.within(2, 49)] {
        let count = random.within(1, 4);
        let mut documents = documents(random, keys, count);
        spoil_often(random, keys, &mut documents[0]);
        let last = documents.len() - 1;
        let bytes = &documents.as_flattened()[..DOCUMENT * last + left_over];
        text += &tray(&lent(keys), bytes);
        text += &tray(&spoils::any(random, keys), bytes);
    }
    text
}
