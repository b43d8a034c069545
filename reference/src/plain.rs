//! The detail check as the paper tells it: one pass over the message for each code.

use crate::packed::{are_digits, value};
use crate::session::rules::Rules;
use crate::Checked;
use std::slice::Chunks;

const HEAD: usize = 4;
const DOCUMENT: usize = 51;
const FULL_GROUP: usize = HEAD + 4 * DOCUMENT;

/// The receiver's check of a detail body, by today's rules.
pub fn check(body: &[u8], own: u16, represented: &[u16]) -> Checked {
    check_by(Rules::TODAY, body, own, represented)
}

pub fn check_by(rules: Rules, body: &[u8], own: u16, represented: &[u16]) -> Checked {
    if !within_limits(own, represented) {
        return Checked::refused(24);
    }
    if !shape_holds(body) {
        return Checked::refused(1);
    }
    let operation = body[2];
    if groups(body).any(|group| group[2] != operation) {
        return Checked::refused(9);
    }
    let checked = field_codes(documents(body), operation, own);
    let drawn_elsewhere = |document| !drawn_here(document, own, represented);
    if checked.code == 0 && operation == 0x30 && documents(body).any(drawn_elsewhere) {
        return Checked::refused(6);
    }
    last_code(rules, checked, documents(body))
}

/// The presenter's check of whole documents before they are sent under an operation, 30 or 40.
/// It does not look at the drawees.
pub fn check_to_send(rules: Rules, documents: &[u8], operation: u8, receiving: u16) -> Checked {
    let documents = documents.chunks_exact(DOCUMENT);
    let checked = field_codes(documents.clone(), operation, receiving);
    last_code(rules, checked, documents)
}

/// The codes 01 and 03 of the documents' fields, and the totals where there is none.
fn field_codes<'a>(
    documents: impl Iterator<Item = &'a [u8]> + Clone,
    operation: u8,
    receiving: u16,
) -> Checked {
    let every = || documents.clone();
    if !every().all(|document| fields_hold(document, operation, receiving)) {
        return Checked::refused(1);
    }
    if !every().all(amounts_are_digits) {
        return Checked::refused(3);
    }
    Checked {
        code: 0,
        documents: every().count() as u64,
        nominal: every().map(nominal).sum(),
        commission: every().map(commission).sum(),
    }
}

/// 44 where no code came before it and a document is for nothing.
fn last_code<'a>(
    rules: Rules,
    checked: Checked,
    mut documents: impl Iterator<Item = &'a [u8]>,
) -> Checked {
    if checked.code == 0 && rules.knows_44 && documents.any(is_for_nothing) {
        return Checked::refused(44);
    }
    checked
}

fn within_limits(own: u16, represented: &[u16]) -> bool {
    own <= 9999 && represented.len() <= 8 && represented.iter().all(|&entity| entity <= 9999)
}

/// Every group but the last is full, so groups begin at every 208th byte.
fn groups(body: &[u8]) -> Chunks<'_, u8> {
    body.chunks(FULL_GROUP)
}

fn documents(body: &[u8]) -> impl Iterator<Item = &[u8]> + Clone {
    groups(body).flat_map(|group| group[HEAD..].chunks_exact(DOCUMENT))
}

fn shape_holds(body: &[u8]) -> bool {
    let count = groups(body).len();
    (1..=50).contains(&count) && groups(body).all(group_holds)
}

/// A short chunk can only be the last, and no count but 4 fits the length of the others.
fn group_holds(group: &[u8]) -> bool {
    group.len() >= HEAD
        && group[1] == 0x51
        && matches!(group[2], 0x30 | 0x40)
        && (1..=4).contains(&group[3])
        && group.len() == HEAD + DOCUMENT * usize::from(group[3])
}

/// The bytes at the paper's positions, which count a document's own from 5 on.
fn field(document: &[u8], first: usize, last: usize) -> &[u8] {
    &document[first - 5..=last - 5]
}

fn fields_hold(document: &[u8], operation: u8, receiving: u16) -> bool {
    let number = |first, last| value(field(document, first, last));
    are_digits(field(document, 5, 29))
        && are_digits(field(document, 36, 47))
        && matches!(field(document, 10, 11), [0, 0] | [0x80, _])
        && is_day(number(16, 16), number(17, 17))
        && (1..=52).contains(&number(22, 22))
        && number(23, 24) == u64::from(receiving)
        && (1..=52).contains(&number(25, 25))
        && (1..=2).contains(&number(45, 45))
        && (operation == 0x30 || matches!(number(46, 47), 1..=49 | 51..=99))
}

fn is_day(day: u64, month: u64) -> bool {
    let last = match month {
        1 | 3 | 5 | 7 | 8 | 10 | 12 => 31,
        4 | 6 | 9 | 11 => 30,
        2 => 29,
        _ => 0,
    };
    (1..=last).contains(&day)
}

fn amounts_are_digits(document: &[u8]) -> bool {
    are_digits(field(document, 30, 35)) && are_digits(field(document, 48, 51))
}

fn drawn_here(document: &[u8], own: u16, represented: &[u16]) -> bool {
    let drawee = value(field(document, 36, 37));
    drawee == u64::from(own)
        || represented
            .iter()
            .any(|&entity| drawee == u64::from(entity))
}

fn is_for_nothing(document: &[u8]) -> bool {
    nominal(document) == 0
}

fn nominal(document: &[u8]) -> u64 {
    value(field(document, 30, 35))
}

fn commission(document: &[u8]) -> u64 {
    value(field(document, 48, 51))
}
