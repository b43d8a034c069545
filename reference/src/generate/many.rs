//! 64 lots and one more, with dropped and duplicate lots in between, and session totals that
//! are refused and sent again.

use super::course;
use super::end::End;
use super::evening::{Evening, HEADER_LIMITS};
use super::fields::{self, PAST_16_BITS, PAST_8_BITS};
use super::foreign::Foreign;
use super::message;
use crate::bodies::{NOMINAL, PRESENTED};

pub fn play(evening: &mut Evening) {
    evening.start_both();
    // Lots of equal totals would never come to 64.
    evening.narrow = false;
    match evening.draft.random.below(16) {
        0 => heavy_lots(evening),
        1..=7 => own_lots(evening),
        _ => foreign_lots(evening),
    }
}

/// Lots of many documents with the greatest amounts, no two of equal totals.
fn heavy_lots(evening: &mut Evening) {
    let end = evening.draft.random.one_of(&End::BOTH);
    let mut document = course::plain_document(evening, end);
    document[NOMINAL].fill(0x99);
    document[43..47].fill(0x99);
    for at in 0..65 {
        course::lot(evening, end, number(at), &vec![document; 200 - at]);
    }
    course::finish(evening, end);
    evening.report(end);
    evening.report(end.other());
}

/// Numbers in an order without repeats, so that each is new.
fn number(at: usize) -> u64 {
    (at as u64 * 7_919) % 9_999 + 1
}

fn own_lots(evening: &mut Evening) {
    let end = evening.draft.random.one_of(&End::BOTH);
    let mut at = 0;
    while evening.at(end).lots.len() < 64 && at < 200 {
        at += 1;
        own_lot(evening, end, number(at));
    }
    evening.header(end, number(at + 1));
    evening.report(end);
    let accepted = evening.at(end).lots[0];
    evening.header(end, accepted);
    for hour in HEADER_LIMITS {
        evening.at(end).time = hour;
        evening.header(end, number(at + 2));
    }
    course::finish(evening, end);
    evening.report(end);
    evening.report(end.other());
}

/// Three in four are good, fewer in an evening with documents for nothing.
fn own_lot(evening: &mut Evening, end: End, number: u64) {
    let mut documents = evening.documents(end, PRESENTED, 1);
    match evening.draft.random.below(16) {
        0 => course::spoil_drawee(evening, end, &mut documents),
        1 => documents = vec![course::plain_document(evening, end)],
        2 => {
            let lots = evening.at(end).lots.clone();
            let used = lots.first().copied().unwrap_or(number);
            evening.header(end, used);
            evening.exchange(end);
            return;
        }
        3 => evening.report(end),
        _ => course::spoil_nominals(evening, end, 4, &mut documents),
    }
    course::lot(evening, end, number, &documents);
}

fn foreign_lots(evening: &mut Evening) {
    let end = evening.draft.random.one_of(&End::BOTH);
    let mut foreign = Foreign::new(end);
    let mut at = 0;
    while foreign.lots.len() < 64 && at < 200 {
        at += 1;
        foreign_lot(evening, &mut foreign, number(at));
    }
    let (first, last) = (foreign.lots[0].0, foreign.lots[63].0);
    for number in [number(at + 1), last, number(at + 2), first, number(at + 3)] {
        let header = foreign.header(evening, number);
        foreign.hand(evening, &header);
    }
    for hour in HEADER_LIMITS {
        evening.at(end).time = hour;
        for number in [number(at + 4), first] {
            let header = foreign.header(evening, number);
            foreign.hand(evening, &header);
        }
    }
    end_foreign(evening, &mut foreign);
    evening.report(end);
}

fn foreign_lot(evening: &mut Evening, foreign: &mut Foreign, number: u64) {
    let presenter = foreign.end.other();
    let mut documents = evening.documents(presenter, PRESENTED, 1);
    course::spoil_nominals(evening, presenter, 4, &mut documents);
    let detail = foreign.detail(PRESENTED, &documents);
    let header = foreign.header(evening, number);
    foreign.hand(evening, &header);
    if !evening.draft.random.once_in(16) {
        foreign.hand(evening, &detail);
    }
    let total = foreign_total(evening, foreign, number);
    foreign.hand(evening, &total);
}

fn foreign_total(evening: &mut Evening, foreign: &Foreign, number: u64) -> Vec<u8> {
    let random = &mut evening.draft.random;
    let mut stated = foreign.running;
    match random.below(16) {
        0 => stated[random.below(3)] += 1,
        1 if !foreign.lots.is_empty() => stated = foreign.lots[random.below(foreign.lots.len())].1,
        2 => return message::lot_total(number + 1, stated),
        _ => {}
    }
    message::lot_total(number, stated)
}

/// Three refused, one accepted, one too late. In fewer bits the second and third would be good.
fn end_foreign(evening: &mut Evening, foreign: &mut Foreign) {
    let good = foreign.session_total();
    let mut bad = good.clone();
    bad[evening.draft.random.one_of(&[4, 8, 17, 24])] ^= 1;
    let mut more_lots = good.clone();
    fields::raise(&mut more_lots[3..5], PAST_8_BITS);
    let mut more_documents = good.clone();
    fields::raise(&mut more_documents[5..9], PAST_16_BITS);
    for body in [&bad, &more_lots, &more_documents, &good, &good] {
        foreign.hand(evening, body);
    }
    let header = foreign.header(evening, 9_999);
    foreign.hand(evening, &header);
}
