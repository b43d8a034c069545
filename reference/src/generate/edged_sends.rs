//! An end presents to a foreign partner: its sends' arguments and the replies it gets have
//! fields at and next to their limits.

use super::centre::Sort;
use super::course;
use super::end::End;
use super::evening::Evening;
use super::fields::{self, PAST_16_BITS};
use super::message;
use crate::bodies::RETURN;
use crate::hex;
use crate::packed;

/// The other end presents to a partner that replies as it likes.
pub fn present(evening: &mut Evening) {
    let Some(awaited) = &evening.at(End::A).awaited else {
        return course::send(evening, End::A);
    };
    let serial = packed::value(&awaited.message.bytes[8..12]);
    let operation = match awaited.sort {
        Sort::Lot => 0x87,
        Sort::Session => 0x97,
        _ => 0x86,
    };
    let pair = evening.pair(End::A);
    let random = &mut evening.draft.random;
    let mut reply = message::reply(pair, serial, operation, 0);
    match random.below(16) {
        0 => fields::change(random, &mut reply, 0, &fields::ENVELOPE),
        1 => fields::change(random, &mut reply, 12, &fields::REPLY),
        2 => reply[14] = random.one_of(&[0x80, 0x85, 0x86, 0x87, 0x88, 0x96, 0x97, 0x98]),
        3 => reply[15] = random.within(0x00, 0x1F) as u8,
        4 => reply[15] = random.one_of(&UNKNOWN_CODES),
        5 => reply.truncate(random.one_of(&[0, 12, 15])),
        6 => reply.push(0),
        7 | 8 => reply[15] = random.one_of(&KNOWN_CODES),
        9 => reply_far_ahead(evening, &reply),
        _ => {}
    }
    evening.reply(End::A, &hex::write(&reply), &reply);
}

/// Before the good reply one whose serial would be the same in 16 bits, at times with 44.
fn reply_far_ahead(evening: &mut Evening, good: &[u8]) {
    let mut reply = good.to_vec();
    fields::raise(&mut reply[8..12], PAST_16_BITS);
    if evening.for_nothing && evening.draft.random.once_in(2) {
        reply[15] = 0x44;
    }
    evening.reply(End::A, &hex::write(&reply), &reply);
}

/// 44 stands twice, so that it is common.
#[rustfmt::skip]
const KNOWN_CODES: [u8; 12] = [
    0x01, 0x03, 0x04, 0x06, 0x07, 0x08, 0x09, 0x10, 0x11, 0x12, 0x44, 0x44,
];

/// The binary 44 is among them.
#[rustfmt::skip]
const UNKNOWN_CODES: [u8; 12] = [
    0x02, 0x05, 0x0A, 0x0F, 0x13, 0x2C, 0x40, 0x43, 0x45, 0x54, 0x99, 0xFF,
];

pub fn edged_send(evening: &mut Evening) {
    match evening.draft.random.below(4) {
        0 => edged_header(evening),
        1 => edged_operation(evening),
        _ => edged_detail(evening),
    }
}

/// A few good steps, so that as a rule nothing is awaited and, if asked for, a lot is open.
fn prepare(evening: &mut Evening, with_lot: bool) {
    for _ in 0..6 {
        let centre = evening.at(End::A);
        if centre.awaited.is_some() || with_lot && centre.open.is_none() {
            present(evening);
        }
    }
}

#[rustfmt::skip]
const TIMES: [u64; 12] = [
    0, 99, 100, 5_999, 6_000, 595_999, 600_000, 23_595_999, 23_596_000, 24_000_000, 99_999_999,
    100_000_000,
];

fn edged_header(evening: &mut Evening) {
    prepare(evening, false);
    let random = &mut evening.draft.random;
    let time = random.one_of(&TIMES);
    let centre: u64 = random.one_of(&[0, 1, 9999, 9999, 10_000, 65_535, 65_536]);
    let number: u64 = random.one_of(&[0, 1, 7, 9999, 9999, 10_000, 65_543]);
    let arguments = format!(" {time} {centre} {number}");
    evening.send(End::A, Sort::Header(number), &arguments);
}

/// A return is good as a presented document too, so the operation alone decides.
fn edged_operation(evening: &mut Evening) {
    prepare(evening, true);
    let documents = evening.documents(End::A, RETURN, 1);
    let random = &mut evening.draft.random;
    let operation: u64 = random.one_of(&[0, 29, 30, 31, 39, 40, 41, 48, 64, 255, 286, 65_566]);
    let mut part = documents.as_flattened().to_vec();
    match random.below(4) {
        0 => part.truncate(random.one_of(&[0, 1, 50, 51])),
        1 => part.push(0),
        2 => part = part.repeat(random.one_of(&[2, 199, 200, 201])),
        _ => {}
    }
    let arguments = format!(" {operation} {}", hex::write(&part));
    evening.send(End::A, Sort::Detail, &arguments);
}

fn edged_detail(evening: &mut Evening) {
    prepare(evening, true);
    let operation = evening.operation();
    let count = evening.draft.random.within(1, 6);
    let mut documents = evening.documents(End::A, operation, count);
    course::spoil_nominals(evening, End::A, 4, &mut documents);
    let random = &mut evening.draft.random;
    let at = random.below(count);
    fields::change(random, &mut documents[at], -4, &fields::DOCUMENT);
    if random.once_in(8) {
        let own = message::packed(evening.at(End::A).own.into(), 2);
        documents[at][18..20].copy_from_slice(&own);
    }
    evening.detail(End::A, operation, &documents);
}
