//! Tariff questions of a seed, and those that every run asks.

use super::Script;
use crate::bodies::{Document, EXAMPLE};
use crate::generate::tariff::trays::stating;
use crate::generate::tariff::{questions, SEEDS};
use crate::tariff_script::{document, tray};

pub fn of_seed(seed: u64) -> Script {
    Script::new(&format!("tariff, seed {seed}"), questions(seed))
}

/// Those of as many seeds as a usual run takes.
pub fn generated() -> Vec<Script> {
    (0..SEEDS).map(of_seed).collect()
}

pub fn fixed() -> Vec<Script> {
    vec![
        Script::new("tariff, named", NAMED),
        Script::new("tariff, lengths", lengths()),
        Script::new("tariff, numbers", numbers()),
        Script::new("tariff, least and greatest", least_and_greatest()),
        Script::new("tariff, keys twice", keys_twice()),
        Script::new("tariff, rounding", rounding()),
        Script::new("tariff, raising and cutting", raising_and_cutting()),
        Script::new("tariff, order of codes", order_of_codes()),
        Script::new("tariff, bytes of a document", bytes_of_a_document()),
        Script::new("tariff, bad documents", bad_documents()),
        Script::new("tariff, lengths of trays", lengths_of_trays()),
    ]
}

/// What the papers name, the open points among it.
const NAMED: &str = "\
commission 1 25 0 1 1000 0 99999999
commission 1 24 0 1 1000 0 99999999
commission 1 26 0 1 1000 0 99999999
commission 1 35 0 1 1000 0 99999999
commission 1 999999999999 0 1 10000 0 99999999
commission 9999 15000 30 9999 20 0 99999999
commission 1 15000 100000000 1 20 0 99999999
commission 1 1000000000000 0 1 20 0 99999999
commission 0 15000 30 0 20 0 99999999
commission 0 15000 5
commission 10000 15000 5
commission 1 15000 5
tray -
tray - 0 0 0 0
tray 00
";

/// So many good keys from 1 on, no two of them alike in any number.
fn keys(count: u32) -> Vec<u32> {
    let key = |number| [number, 100 * number, number, 99_999_999 - number];
    (1..=count).flat_map(key).collect()
}

/// A good tariff that knows key 1 alone.
const ONE_KEY: [u32; 4] = [1, 1_000, 0, 99_999_999];
/// A bad one.
const KEY_0: [u32; 4] = [0, 1_000, 0, 99_999_999];

/// The tariff cut to every length, asked for key 0, its first key and the last that may be in it.
fn lengths() -> String {
    let numbers = keys(22);
    let mut text = String::new();
    for length in 0..=numbers.len() {
        let tariff = &numbers[..length];
        for key in [0, 1, 20, 21] {
            text += &document(tariff, key, 15_000, 30);
        }
        text += &tray(tariff, &stating(EXAMPLE, 1, 15_000, 30));
    }
    text
}

const EDGES: [u32; 17] = [
    0,
    1,
    2,
    9_998,
    9_999,
    10_000,
    10_001,
    65_535,
    65_536,
    65_537,
    75_536,
    99_999_998,
    99_999_999,
    100_000_000,
    100_000_001,
    1 << 31,
    u32::MAX,
];

/// Each number of a first and of a last key at every edge.
fn numbers() -> String {
    let mut text = String::new();
    for count in [1, 3, 20] {
        let good = keys(count);
        for at in [0, 1, 2, 3].into_iter().chain(good.len() - 4..good.len()) {
            text += &with_edges_at(at, &good);
        }
    }
    text
}

fn with_edges_at(at: usize, good: &[u32]) -> String {
    let mut text = String::new();
    for edge in EDGES {
        let mut tariff = good.to_vec();
        tariff[at] = edge;
        for key in [0, edge, good[at - at % 4]] {
            text += &document(&tariff, key, 15_000, 30);
        }
    }
    text
}

fn least_and_greatest() -> String {
    let mut text = String::new();
    for greatest in EDGES {
        for least in [
            greatest.saturating_sub(1),
            greatest,
            greatest.saturating_add(1),
        ] {
            for nominal in [0, 15_000, 999_999_999_999] {
                text += &document(&[1, 1_000, least, greatest], 1, nominal, 30);
            }
        }
    }
    text
}

/// Every two places of the longest tariff.
fn keys_twice() -> String {
    let mut text = String::new();
    for later in 1..20 {
        for earlier in 0..later {
            let mut tariff = keys(20);
            tariff[4 * later] = tariff[4 * earlier];
            text += &document(&tariff, tariff[4 * later], 15_000, 30);
        }
    }
    text
}

/// Rates with exact halves and without, from the least nominal on and up to the greatest.
fn rounding() -> String {
    let mut text = String::new();
    for rate in [
        0, 1, 2, 3, 5, 7, 20, 625, 1_000, 2_500, 3_333, 5_000, 7_500, 9_999, 10_000,
    ] {
        let low = 0..=40;
        let about_halves = (4_998..=5_002).chain(14_998..=15_002);
        let high = 999_999_999_990..=999_999_999_999;
        for nominal in low.chain(about_halves).chain(high) {
            text += &document(&[1, rate, 0, 99_999_999], 1, nominal, 30);
        }
    }
    text
}

/// With a rate that leaves the nominal as it is, and with halves.
fn raising_and_cutting() -> String {
    let mut text = String::new();
    for (least, greatest) in [(0, 0), (0, 1), (5, 9), (7, 7), (99_999_998, 99_999_999)] {
        for rate in [10_000, 5_000] {
            for nominal in (0..=20).chain(99_999_996..=100_000_001) {
                text += &document(&[1, rate, least, greatest], 1, nominal, 30);
            }
        }
    }
    text
}

const NOMINALS: [u64; 7] = [
    0,
    15_000,
    999_999_999_999,
    1_000_000_000_000,
    1_099_511_627_776,
    1 << 63,
    u64::MAX,
];
const TYPED: [u64; 7] = [
    0,
    30,
    99_999_999,
    100_000_000,
    4_294_967_296,
    1 << 63,
    u64::MAX,
];

/// Every two amounts, with all sorts of keys and tariffs.
fn order_of_codes() -> String {
    let mut text = String::new();
    for nominal in NOMINALS {
        for typed in TYPED {
            for key in [0, 1, 2, 9_999, 10_000, 65_537, u32::MAX] {
                text += &document(&ONE_KEY, key, nominal, typed);
                text += &document(&KEY_0, key, nominal, typed);
                text += &document(&[], key, nominal, typed);
            }
        }
    }
    text
}

/// A non-digit in every half of every byte, with key 0, a known and an unknown one.
fn bytes_of_a_document() -> String {
    let mut text = String::new();
    for key in [0, 1, 2] {
        let good = stating(EXAMPLE, key, 15_000, 30);
        for at in 0..good.len() {
            text += &tray(&ONE_KEY, &with(good, at, good[at] | 0xA0));
            text += &tray(&ONE_KEY, &with(good, at, good[at] | 0x0A));
        }
    }
    text
}

fn with(mut document: Document, at: usize, byte: u8) -> Document {
    document[at] = byte;
    document
}

/// A byte of the example and what makes it bad: key, nominal and commission without digits, and an
/// unknown key.
const BAD: [(usize, u8); 4] = [(41, 0xA0), (30, 0x0A), (43, 0xF0), (42, 0x02)];

/// All choices of faults in one document, and every two faults in every two of three documents.
fn bad_documents() -> String {
    let mut text = String::new();
    for choice in 0..1 << BAD.len() {
        let mut bad = EXAMPLE;
        let chosen = (0..BAD.len()).filter(|fault| choice >> fault & 1 == 1);
        chosen.for_each(|fault| bad[BAD[fault].0] = BAD[fault].1);
        text += &tray(&ONE_KEY, [EXAMPLE, bad, EXAMPLE].as_flattened());
    }
    for (one, other) in [(0, 1), (0, 2), (1, 2), (0, 0), (1, 1), (2, 2)] {
        for (at, byte) in BAD {
            text += &with_two_faults(one, (at, byte), other);
        }
    }
    text
}

/// All faults in turn in the other document.
fn with_two_faults(one: usize, fault: (usize, u8), other: usize) -> String {
    let mut text = String::new();
    for second in BAD {
        let mut documents = [EXAMPLE; 3];
        documents[one][fault.0] = fault.1;
        documents[other][second.0] = second.1;
        text += &tray(&ONE_KEY, documents.as_flattened());
    }
    text
}

/// Of good and of bad documents, with a good and a bad tariff.
fn lengths_of_trays() -> String {
    let good = [EXAMPLE; 4];
    let bad = [with(EXAMPLE, 41, 0xA0); 4];
    let mut text = String::new();
    for length in 0..=good.as_flattened().len() {
        for documents in [&good, &bad] {
            let bytes = &documents.as_flattened()[..length];
            text += &tray(&ONE_KEY, bytes);
            text += &tray(&KEY_0, bytes);
        }
    }
    text
}
