//! Damaged and random bytes on a line that works otherwise; some lose the nominal of a document.

use super::centre::Sort;
use super::course;
use super::end::End;
use super::evening::Evening;
use crate::bodies;
use crate::hex;
use crate::random::Random;

pub fn play(evening: &mut Evening) {
    evening.start_both();
    for _ in 0..evening.draft.random.within(10, 90) {
        let end = evening.draft.random.one_of(&End::BOTH);
        match evening.draft.random.below(32) {
            0..=19 => course::step(evening, end),
            20..=23 => damaged_message(evening, end),
            24..=26 => damaged_reply(evening, end),
            27 => random_message(evening, end),
            28 => random_reply(evening, end),
            29 | 30 => random_body(evening, end),
            _ => evening.report(end),
        }
    }
}

fn damaged_message(evening: &mut Evening, presenter: End) {
    let Some(awaited) = &evening.at(presenter).awaited else {
        return;
    };
    let mut bytes = awaited.message.bytes.clone();
    let is_detail = awaited.sort == Sort::Detail;
    let random = &mut evening.draft.random;
    let is_for_nothing = is_detail && evening.for_nothing && random.once_in(2);
    if is_for_nothing {
        bodies::zero_nominals(random, &mut bytes[12..]);
    }
    if !is_for_nothing || random.once_in(4) {
        damage(random, &mut bytes);
    }
    evening.receive(presenter.other(), &hex::write(&bytes));
}

fn damaged_reply(evening: &mut Evening, presenter: End) {
    let awaited = evening.at(presenter).awaited.as_ref();
    let Some(reply) = awaited.and_then(|awaited| awaited.reply.clone()) else {
        return;
    };
    let mut bytes = reply.bytes;
    damage(&mut evening.draft.random, &mut bytes);
    evening.reply(presenter, &hex::write(&bytes), &bytes);
}

fn random_message(evening: &mut Evening, end: End) {
    let length = some_length(&mut evening.draft.random);
    let mut bytes = evening.draft.random.bytes(length);
    if let Some(kind) = bytes.first_mut() {
        *kind = evening.draft.random.one_of(&[0, 1, 1, 1, 2]);
    }
    evening.receive(end, &hex::write(&bytes));
}

fn random_reply(evening: &mut Evening, end: End) {
    let random = &mut evening.draft.random;
    let length = random.one_of(&[0, 1, 12, 15, 16, 16, 16, 16, 17, 40]);
    let mut bytes = random.bytes(length);
    if let Some(kind) = bytes.first_mut() {
        *kind = random.one_of(&[0, 1, 2, 2, 2]);
    }
    evening.reply(end, &hex::write(&bytes), &bytes);
}

/// A random body in the awaited message's envelope.
fn random_body(evening: &mut Evening, presenter: End) {
    let Some(awaited) = &evening.at(presenter).awaited else {
        return;
    };
    let mut bytes = awaited.message.bytes[..12].to_vec();
    let random = &mut evening.draft.random;
    let length = some_length(random);
    let mut body = random.bytes(length);
    if body.len() >= 3 && !random.once_in(4) {
        body[1] = 0x51;
        body[2] = random.one_of(&[0x01, 0x30, 0x40, 0x80, 0x90, 0x86, 0x87, 0x97, 0x99]);
    }
    bytes.extend(body);
    evening.receive(presenter.other(), &hex::write(&bytes));
}

/// Short ones, those of the layouts, and a few about the greatest length.
fn some_length(random: &mut Random) -> usize {
    match random.below(16) {
        0 => random.below(10_421),
        1 => random.within(10_396, 10_420),
        2..=7 => random.one_of(&[4, 19, 22, 25, 55, 106, 208, 263]),
        _ => random.below(80),
    }
}

/// One change, or a few.
fn damage(random: &mut Random, bytes: &mut Vec<u8>) {
    for _ in 0..random.one_of(&[1, 1, 1, 2, 3]) {
        match random.below(16) {
            0 => bytes.truncate(random.below(bytes.len() + 1)),
            1 => bytes.truncate(bytes.len().saturating_sub(1)),
            2 => bytes.push(random.byte()),
            3 => bytes.extend(random.bytes(51)),
            4..=6 => change(random, bytes, 0),
            _ => change(random, bytes, 12),
        }
    }
}

/// Another byte somewhere after the first `skipped`.
fn change(random: &mut Random, bytes: &mut [u8], skipped: usize) {
    if bytes.len() <= skipped {
        return;
    }
    let at = random.within(skipped, bytes.len() - 1);
    bytes[at] = match random.below(4) {
        0 => random.byte(),
        1 => bytes[at] ^ 1 << random.below(8),
        2 => bytes[at].wrapping_add(1),
        _ => random.one_of(&[0x00, 0x01, 0x09, 0x0A, 0x10, 0x50, 0x51, 0x99, 0xA0, 0xFF]),
    };
}
