//! Lots of up to 2,600 documents, and one document more, which may be for nothing.

use super::course;
use super::end::End;
use super::evening::Evening;
use super::foreign::Foreign;
use crate::bodies::{Document, NOMINAL, PRESENTED, RETURN};

const MOST: usize = 2_600;

pub fn play(evening: &mut Evening) {
    evening.start_both();
    if evening.draft.random.once_in(2) {
        own_lot(evening);
    } else {
        foreign_lot(evening);
    }
}

/// Parts that together make up `whole`, the first ones full as a rule.
fn parts(evening: &mut Evening, whole: usize) -> Vec<usize> {
    let mut parts = Vec::new();
    let mut rest = whole;
    while rest > 0 {
        let size = evening.draft.random.one_of(&[200, 200, 200, 200, 199, 150]);
        parts.push(size.min(rest));
        rest -= size.min(rest);
    }
    parts
}

/// So many copies of one document, half of the time with the greatest amounts.
fn copies(evening: &mut Evening, presenter: End, operation: u8, count: usize) -> Vec<Document> {
    let mut document = evening.documents(presenter, operation, 1)[0];
    if evening.draft.random.once_in(2) {
        document[NOMINAL].fill(0x99);
        document[43..47].fill(0x99);
    }
    vec![document; count]
}

/// For a lot that is full, in half of the evenings.
fn one_for_nothing(evening: &mut Evening, presenter: End) -> Option<[Document; 1]> {
    let mut document = evening.documents(presenter, PRESENTED, 1)[0];
    document[NOMINAL].fill(0);
    evening.draft.random.once_in(2).then_some([document])
}

fn own_lot(evening: &mut Evening) {
    let end = evening.draft.random.one_of(&End::BOTH);
    let number = evening.draft.random.within(1, 9999) as u64;
    evening.header(end, number);
    evening.exchange(end);
    let whole = MOST - evening.draft.random.one_of(&[0, 0, 1, 5]);
    for count in parts(evening, whole) {
        let operation = evening.operation();
        let documents = copies(evening, end, operation, count);
        evening.detail(end, operation, &documents);
        evening.exchange(end);
    }
    for count in [MOST - whole + 1, 200, MOST - whole, 1] {
        let documents = copies(evening, end, RETURN, count);
        evening.detail(end, RETURN, &documents);
        evening.exchange(end);
    }
    if let Some(documents) = one_for_nothing(evening, end) {
        evening.detail(end, PRESENTED, &documents);
    }
    evening.lot(end);
    evening.exchange(end);
    course::finish(evening, end);
    evening.report(end);
    evening.report(end.other());
}

fn foreign_lot(evening: &mut Evening) {
    let end = evening.draft.random.one_of(&End::BOTH);
    let mut foreign = Foreign::new(end);
    let header = foreign.header(evening, 7);
    foreign.hand(evening, &header);
    let whole = MOST - evening.draft.random.one_of(&[0, 0, 1, 5]);
    for count in parts(evening, whole) {
        hand_copies(evening, &mut foreign, count);
    }
    for count in [MOST - whole + 1, 200, MOST - whole, 1] {
        hand_copies(evening, &mut foreign, count);
    }
    if let Some(documents) = one_for_nothing(evening, end.other()) {
        let body = foreign.detail(PRESENTED, &documents);
        foreign.hand(evening, &body);
    }
    let total = foreign.lot_total();
    foreign.hand(evening, &total);
    evening.report(end);
}

fn hand_copies(evening: &mut Evening, foreign: &mut Foreign, count: usize) {
    let operation = evening.draft.random.one_of(&[PRESENTED, RETURN]);
    let documents = copies(evening, foreign.end.other(), operation, count);
    let body = foreign.detail(operation, &documents);
    foreign.hand(evening, &body);
}
