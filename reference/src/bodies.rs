//! Bodies for the tests and the benchmark: the paper's example, bodies of given documents,
//! and generated ones, good or changed, each made from its seed alone.

use crate::random::{packed, Random};
use std::ops::Range;

/// A document as it stands in a group; the paper's positions 5 to 55 are its bytes 0 to 50.
pub type Document = [u8; 51];

pub const PRESENTED: u8 = 0x30;
pub const RETURN: u8 = 0x40;

#[rustfmt::skip]
pub const EXAMPLE: Document = [
    0x00, 0x00, 0x00, 0x00, 0x01, 0x00, 0x00, 0x02, 0x43, 0x41, 0x57, 0x14, 0x03,
    0x00, 0x81, 0x01, 0x10, 0x28, 0x00, 0x72, 0x08, 0x00, 0x81, 0x01, 0x10,
    0x00, 0x00, 0x00, 0x01, 0x50, 0x00, 0x00, 0x72, 0x01, 0x10,
    0x00, 0x00, 0x12, 0x34, 0x56, 0x01, 0x00, 0x01,
    0x00, 0x00, 0x00, 0x30, 0x00, 0x00, 0x00, 0x00,
];

/// Values at or next to the ends of the fields' ranges, and non-digits.
#[rustfmt::skip]
const BOUNDARIES: [u8; 20] = [
    0x00, 0x01, 0x02, 0x03, 0x12, 0x13, 0x29, 0x30, 0x31, 0x32,
    0x49, 0x50, 0x51, 0x52, 0x53, 0x80, 0x99, 0x0A, 0xA0, 0xFF,
];

/// The fields that take any digits; in a return the last but one is then overwritten.
#[rustfmt::skip]
const ANY_DIGITS: [Range<usize>; 10] = [
    0..5, 7..11, 13..15, 15..17, 21..23, 23..25, 33..35, 35..40, 41..43, 43..47,
];

pub const NOMINAL: Range<usize> = 25..31;

/// The documents in groups of 4, the last group with what remains.
pub fn body(operation: u8, documents: &[Document]) -> Vec<u8> {
    let mut body = Vec::with_capacity(documents.len() * 52 + 4);
    for group in documents.chunks(4) {
        body.extend([0x00, 0x51, operation, group.len() as u8]);
        body.extend(group.as_flattened());
    }
    body
}

/// The whole documents in a body of any shape.
pub fn documents_in(body: &[u8]) -> Vec<Document> {
    let groups = body.chunks(208).map(|group| group.get(4..).unwrap_or(&[]));
    groups
        .flat_map(|group| group.as_chunks().0)
        .copied()
        .collect()
}

pub fn of_examples(operation: u8, count: usize) -> Vec<u8> {
    body(operation, &vec![EXAMPLE; count])
}

/// A good body of `count` documents whose drawees are all among `drawees`.
pub fn generated(seed: u64, operation: u8, count: usize, own: u16, drawees: &[u16]) -> Vec<u8> {
    let mut random = Random::new(seed);
    good_body(&mut random, operation, count, own, drawees)
}

/// Good documents whose drawees are all among `drawees`.
pub fn documents(
    seed: u64,
    operation: u8,
    count: usize,
    own: u16,
    drawees: &[u16],
) -> Vec<Document> {
    let mut random = Random::new(seed);
    many(count, || {
        good_document(&mut random, operation, own, drawees)
    })
}

/// What one call of the detail check is given.
pub struct Case {
    pub body: Vec<u8>,
    pub own: u16,
    pub represented: Vec<u16>,
}

/// One case in four is good; the others have one to three changes, which may cancel out.
pub fn case(seed: u64) -> Case {
    let mut random = Random::new(seed);
    let own = random.entity();
    let represented = many(random.below(9), || random.entity());
    let drawees = [&[own], represented.as_slice()].concat();
    let operation = random.one_of(&[PRESENTED, RETURN]);
    let count = document_count(&mut random);
    let body = good_body(&mut random, operation, count, own, &drawees);
    let mut case = Case {
        body,
        own,
        represented,
    };
    if !random.once_in(4) {
        for _ in 0..1 + random.below(3) {
            change(&mut random, &mut case);
        }
    }
    case
}

fn many<T>(count: usize, one: impl FnMut() -> T) -> Vec<T> {
    std::iter::repeat_with(one).take(count).collect()
}

fn document_count(random: &mut Random) -> usize {
    let most = random.one_of(&[4, 8, 8, 12, 24, 24, 48, 200]);
    1 + random.below(most)
}

fn good_body(
    random: &mut Random,
    operation: u8,
    count: usize,
    own: u16,
    drawees: &[u16],
) -> Vec<u8> {
    let documents = many(count, || good_document(random, operation, own, drawees));
    let mut body = body(operation, &documents);
    for free in body.iter_mut().step_by(208) {
        *free = random.byte();
    }
    body
}

pub(crate) fn good_document(
    random: &mut Random,
    operation: u8,
    own: u16,
    drawees: &[u16],
) -> Document {
    let mut document = [0; 51];
    for field in ANY_DIGITS {
        random.digits(&mut document[field]);
    }
    document[NOMINAL].copy_from_slice(&good_nominal(random));
    if random.once_in(2) {
        document[5] = 0x80;
        document[6] = random.packed(0, 99);
    }
    [document[11], document[12]] = good_day(random);
    document[17] = random.packed(1, 52);
    document[18..20].copy_from_slice(&packed_entity(own));
    document[20] = random.packed(1, 52);
    document[31..33].copy_from_slice(&packed_entity(random.one_of(drawees)));
    document[40] = random.packed(1, 2);
    if operation == RETURN {
        random.digits(&mut document[31..33]);
        document[41] = 0;
        document[42] = random.packed(1, 49) + random.one_of(&[0x00, 0x50]);
    }
    document[47..].fill_with(|| random.byte());
    document
}

/// Any digits but zero, now and then a single one, so that each byte alone makes a nominal good.
fn good_nominal(random: &mut Random) -> [u8; 6] {
    let mut nominal = [0; 6];
    random.digits(&mut nominal);
    if nominal == [0; 6] || random.once_in(16) {
        nominal = [0; 6];
        nominal[random.below(6)] = random.one_of(&[0x01, 0x09, 0x10, 0x80, 0x90]);
    }
    nominal
}

fn good_day(random: &mut Random) -> [u8; 2] {
    let last = [31, 29, 31, 30, 31, 30, 31, 31, 30, 31, 30, 31];
    let month = random.below(12);
    [random.packed(1, last[month]), packed(month as u8 + 1)]
}

fn packed_entity(entity: u16) -> [u8; 2] {
    [packed((entity / 100) as u8), packed((entity % 100) as u8)]
}

/// One change, anywhere in what the check is given.
fn change(random: &mut Random, case: &mut Case) {
    match random.below(18) {
        0 => change_length(random, &mut case.body),
        1 => change_head(random, &mut case.body),
        2 | 3 => change_operation(random, &mut case.body),
        4 => change_entities(random, case),
        5 => swap(random, &mut case.body),
        6 | 7 => change_amount(random, &mut case.body),
        8..=10 => change_drawee(random, case),
        11 => case.represented.truncate(random.below(9)),
        12 | 13 => zero_nominals(random, &mut case.body),
        _ => change_byte(random, &mut case.body),
    }
}

fn change_length(random: &mut Random, body: &mut Vec<u8>) {
    let step = random.one_of(&[1, 3, 4, 51, 55, 208]);
    match random.below(4) {
        0 => body.truncate(random.below(body.len() + 1)),
        1 => body.truncate(body.len().saturating_sub(step)),
        2 => body.extend(many(step, || random.byte())),
        _ => body.extend_from_within(..step.min(body.len())),
    }
}

/// The 51 or the count of a group.
fn change_head(random: &mut Random, body: &mut [u8]) {
    let value = random.one_of(&[0, 1, 2, 3, 4, 5, 0x50, 0x51, 0x52, 0xFF]);
    let at = 208 * random.below(body.len() / 208 + 1) + random.one_of(&[1, 3]);
    set(body, at, value);
}

/// The operation of one group, or of all from there on.
fn change_operation(random: &mut Random, body: &mut [u8]) {
    let value = random.one_of(&[0x30, 0x40, 0x30, 0x40, 0x30, 0x40, 0x00, 0x31, 0x70, 0x80]);
    let first = random.below(body.len() / 208 + 1);
    let groups = random.one_of(&[1, 50]);
    for group in body.chunks_mut(208).skip(first).take(groups) {
        set(group, 2, value);
    }
}

fn change_entities(random: &mut Random, case: &mut Case) {
    let entity = random.one_of(&[0, 9999, 10_000, 10_001, 0x9999, u16::MAX]);
    match random.below(3) {
        0 => case.own = entity,
        1 => case.represented.push(entity),
        _ => case
            .represented
            .resize(random.one_of(&[0, 7, 8, 9, 10]), entity.min(9999)),
    }
}

/// Two bytes or two documents.
fn swap(random: &mut Random, body: &mut [u8]) {
    if body.is_empty() {
        return;
    }
    if random.once_in(2) {
        body.swap(random.below(body.len()), random.below(body.len()));
        return;
    }
    let (one, other) = (document_start(random, body), document_start(random, body));
    for at in 0..51 {
        if one.max(other) + at < body.len() {
            body.swap(one + at, other + at);
        }
    }
}

fn change_amount(random: &mut Random, body: &mut [u8]) {
    let at =
        document_start(random, body) + random.one_of(&[25, 26, 27, 28, 29, 30, 43, 44, 45, 46]);
    let value = random.one_of(&[0x0A, 0xA0, 0x9A, 0xA9, 0x0F, 0xF0, 0xFF, 0x99, 0x00]);
    set(body, at, value);
}

/// In one document of a body, the first, the last or all.
pub(crate) fn zero_nominals(random: &mut Random, body: &mut [u8]) {
    let count = (body.len() / 52).max(1);
    for document in some_of(random, count) {
        for at in NOMINAL {
            set(body, start_of(document) + at, 0);
        }
    }
}

/// Any one of so many, the first, the last or all.
pub(crate) fn some_of(random: &mut Random, count: usize) -> Range<usize> {
    let any = random.below(count);
    match random.below(8) {
        0 => 0..1,
        1 => count - 1..count,
        2 => 0..count,
        _ => any..any + 1,
    }
}

/// Any entity, or the halves of two known ones put together.
fn change_drawee(random: &mut Random, case: &mut Case) {
    let known = [&[case.own], case.represented.as_slice()].concat();
    let halves = [
        random.one_of(&known) / 100 % 100,
        random.one_of(&known) % 100,
    ];
    let drawee = if random.once_in(2) {
        random.entity()
    } else {
        halves[0] * 100 + halves[1]
    };
    let at = document_start(random, &case.body) + 31;
    let [first, second] = packed_entity(drawee);
    set(&mut case.body, at, first);
    set(&mut case.body, at + 1, second);
}

/// A byte of a document, or any byte of the body.
fn change_byte(random: &mut Random, body: &mut [u8]) {
    let at = match random.below(4) {
        0 => random.below(body.len() + 1),
        _ => document_start(random, body) + random.below(51),
    };
    let value = if random.once_in(2) {
        random.byte()
    } else {
        random.one_of(&BOUNDARIES)
    };
    set(body, at, value);
}

fn document_start(random: &mut Random, body: &[u8]) -> usize {
    start_of(random.below(body.len() / 52 + 1))
}

/// Where a document begins in a body of full groups.
pub(crate) fn start_of(document: usize) -> usize {
    4 + document / 4 * 208 + document % 4 * 51
}

/// An earlier change may have cut the body before this byte.
fn set(body: &mut [u8], at: usize, value: u8) {
    if let Some(byte) = body.get_mut(at) {
        *byte = value;
    }
}
