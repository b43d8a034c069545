//! More written bytes than the 1 MiB that are remembered.

use super::course;
use super::end::End;
use super::evening::Evening;
use crate::bodies::{Document, PRESENTED};
use crate::hex;

const KEPT: usize = 1 << 20;

pub fn play(evening: &mut Evening) {
    evening.start_both();
    evening.header(End::A, 7);
    evening.exchange(End::A);
    let refused = refused_documents(evening);
    while left(evening) > 11_000 {
        evening.detail(End::A, PRESENTED, &refused);
        evening.exchange(End::A);
    }
    fill(evening, &refused);
    fill_exactly(evening, &refused[..1]);
    look_back(evening);
    for _ in 0..40 {
        let end = evening.draft.random.one_of(&End::BOTH);
        course::step(evening, end);
    }
}

/// What of the memory is left: each is kept that still fits.
fn left(evening: &Evening) -> usize {
    let lengths = evening.draft.written.iter().map(Vec::len);
    lengths.fold(KEPT, |left, length| {
        left.checked_sub(length).unwrap_or(left)
    })
}

/// A full detail that is refused with 06, so that the lot never gets full.
fn refused_documents(evening: &mut Evening) -> Vec<Document> {
    let mut document = evening.documents(End::A, PRESENTED, 1);
    course::spoil_drawee(evening, End::A, &mut document);
    vec![document[0]; 200]
}

/// Long ones that no longer fit, between shorter ones that do and leave enough for the rest.
fn fill(evening: &mut Evening, documents: &[Document]) {
    for count in [200, 200, 100, 150, 50, 200, 25, 50, 12, 200, 6] {
        let count = count - evening.draft.random.below(3);
        let length = 12 + 51 * count + 4 * count.div_ceil(4);
        let left = left(evening);
        if length > left || length + 1_400 < left {
            send(evening, &documents[..count]);
        }
    }
}

/// A detail of one document and its reply take 83 bytes, so that 11 of them change the rest
/// by 1 modulo 16; repeated replies of 16 bytes then fill the memory to the last byte.
fn fill_exactly(evening: &mut Evening, document: &[Document]) {
    for _ in 0..left(evening) * 11 % 16 {
        send(evening, document);
    }
    let last = evening
        .draft
        .written
        .iter()
        .rev()
        .find(|bytes| bytes[0] == 1);
    let Some(message) = last.map(|bytes| hex::write(bytes)) else {
        return;
    };
    for _ in 0..left(evening) / 16 + 2 {
        evening.receive(End::B, &message);
    }
}

fn send(evening: &mut Evening, documents: &[Document]) {
    evening.detail(End::A, PRESENTED, documents);
    evening.exchange(End::A);
    hand_over(evening);
}

/// A forgotten message has no number that works, so its bytes and its reply's are given.
fn hand_over(evening: &mut Evening) {
    let Some(awaited) = &evening.at(End::A).awaited else {
        return;
    };
    let message = hex::write(&awaited.message.bytes);
    if let Some(reply) = evening.receive(End::B, &message) {
        evening.reply(End::A, &hex::write(&reply.bytes), &reply.bytes);
    }
}

/// Names old and late ones, kept or forgotten.
fn look_back(evening: &mut Evening) {
    let count = evening.draft.written.len();
    for _ in 0..60 {
        let random = &mut evening.draft.random;
        let end = random.one_of(&End::BOTH);
        let number = count - random.below(40);
        evening.receive(end, &format!("@{number}"));
        evening
            .draft
            .done(&format!("reply {end} 75600 @{}", number - 1));
    }
}
