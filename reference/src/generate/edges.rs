//! Fields at and next to their limits: end B receives them from a foreign partner, and end A
//! presents to another.

use super::course;
use super::edged_sends;
use super::end::End;
use super::evening::{Evening, HEADER_LIMITS};
use super::fields::{self, PAST_16_BITS};
use super::foreign::Foreign;
use super::message;
use crate::bodies::{self, PRESENTED};
use crate::random::Random;

pub fn play(evening: &mut Evening) {
    evening.start_both();
    let mut foreign = Foreign::new(End::B);
    for _ in 0..evening.draft.random.within(10, 70) {
        if evening.draft.random.once_in(30) {
            move_on(evening);
        }
        match evening.draft.random.below(21) {
            0..=4 => edged_message(evening, &mut foreign),
            5..=7 => good_message(evening, &mut foreign),
            8 => stated_wrongly(evening, &mut foreign),
            9 => mixed_groups(evening, &mut foreign),
            10 | 11 => other_serial(evening, &mut foreign),
            12 => evening.report(foreign.end),
            13 => evening.report(End::A),
            14 | 15 => edged_sends::edged_send(evening),
            16 if evening.for_nothing => detail_for_nothing(evening, &mut foreign),
            _ => edged_sends::present(evening),
        }
    }
}

/// Each clock, to an hour that matters.
fn move_on(evening: &mut Evening) {
    for end in End::BOTH {
        let hour = evening.draft.random.one_of(&HEADER_LIMITS);
        evening.at(end).time = hour.max(evening.at(end).time);
    }
}

/// The last serial again with another body, or one that is not due. In 16 bits two of these would
/// be the last and the next.
fn other_serial(evening: &mut Evening, foreign: &mut Foreign) {
    let body = foreign.body(evening);
    let pair = foreign.pair(evening);
    let last = foreign.serial;
    let far = last + PAST_16_BITS;
    let before = last.saturating_sub(1);
    let serials = [last, last, before, last + 2, far, far + 1, 99_999_999];
    let serial = evening.draft.random.one_of(&serials);
    foreign.hand_whole(evening, &message::message(pair, serial, &body));
}

fn good_message(evening: &mut Evening, foreign: &mut Foreign) {
    let body = foreign.body(evening);
    foreign.hand(evening, &body);
}

/// Whether a lot is open or not.
fn detail_for_nothing(evening: &mut Evening, foreign: &mut Foreign) {
    let body = foreign.some_detail(evening, 1);
    foreign.hand(evening, &body);
}

fn edged_message(evening: &mut Evening, foreign: &mut Foreign) {
    let body = match evening.draft.random.below(6) {
        0 => foreign.session_total(),
        1 => foreign.lot_total(),
        _ => foreign.body(evening),
    };
    let mut bytes = foreign.next(evening, &body);
    let random = &mut evening.draft.random;
    match random.below(80) {
        0 => bytes.resize(random.one_of(&[10_411, 10_412, 10_413]), 0),
        1..=10 => fields::change(random, &mut bytes, 0, &fields::ENVELOPE),
        11..=17 => bytes.truncate(random.one_of(&[12, 13, 14, 15, bytes.len() - 1])),
        18..=24 => bytes.push(random.one_of(&[0x00, 0xFF])),
        _ => edge_of_body(random, &mut bytes[12..]),
    }
    foreign.hand_whole(evening, &bytes);
}

fn edge_of_body(random: &mut Random, body: &mut [u8]) {
    match body[2] {
        0x01 => fields::change(random, body, 0, &fields::HEADER),
        0x80 => fields::change(random, body, 0, &fields::LOT_TOTAL),
        0x90 => fields::change(random, body, 0, &fields::SESSION_TOTAL),
        _ if random.once_in(5) => {
            let group = random.below(body.len() / 208 + 1);
            fields::change(random, body, 208 * group as isize, &fields::GROUP);
        }
        _ => {
            let start = bodies::start_of(random.below(body.len() / 52));
            fields::change(random, body, start as isize - 4, &fields::DOCUMENT);
        }
    }
}

/// A total that is off by one, one of an earlier lot, or one with another number.
fn stated_wrongly(evening: &mut Evening, foreign: &mut Foreign) {
    let random = &mut evening.draft.random;
    let number = foreign.open.unwrap_or(7);
    let mut totals = foreign.running;
    match random.below(6) {
        0 if !foreign.lots.is_empty() => totals = foreign.lots[random.below(foreign.lots.len())].1,
        1 => totals = [0; 3],
        2 => return hand_session_total(evening, foreign),
        3 => return hand_lot_total(evening, foreign, number % 9999 + 1, totals),
        _ => totals[random.below(3)] += 1,
    }
    hand_lot_total(evening, foreign, number, totals);
}

fn hand_lot_total(evening: &mut Evening, foreign: &mut Foreign, number: u64, totals: [u64; 3]) {
    let body = message::lot_total(number, totals);
    foreign.hand(evening, &body);
}

fn hand_session_total(evening: &mut Evening, foreign: &mut Foreign) {
    let mut body = foreign.session_total();
    let at = evening.draft.random.one_of(&[4, 8, 17, 24]);
    body[at] = if body[at] == 0 { 1 } else { 0 };
    foreign.hand(evening, &body);
}

/// Full groups of which some have the other operation, a bad field, a bad shape or a document for
/// nothing as well.
fn mixed_groups(evening: &mut Evening, foreign: &mut Foreign) {
    let groups = evening.draft.random.within(2, 4);
    let presenter = foreign.end.other();
    let mut documents = evening.documents(presenter, PRESENTED, 4 * groups);
    course::spoil_nominals(evening, presenter, 2, &mut documents);
    let mut body = foreign.detail(PRESENTED, &documents);
    let random = &mut evening.draft.random;
    let other = random.below(groups);
    body[208 * other + 2] = random.one_of(&[0x40, 0x40, 0x40, 0x41]);
    if random.once_in(4) {
        edge_of_body(random, &mut body);
    }
    foreign.hand(evening, &body);
}
