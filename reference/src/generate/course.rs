//! What a presenter does next in a direction that goes well, with a few false steps.

use super::end::End;
use super::evening::Evening;
use super::message::packed;
use crate::bodies::{self, Document, EXAMPLE, NOMINAL, PRESENTED};

/// Sends, delivers or answers, whichever is next.
pub fn step(evening: &mut Evening, presenter: End) {
    match &evening.at(presenter).awaited {
        None => send(evening, presenter),
        Some(awaited) if awaited.reply.is_none() => evening.deliver(presenter),
        Some(_) => evening.answer(presenter),
    }
}

pub fn send(evening: &mut Evening, presenter: End) {
    let open = evening.at(presenter).open.is_some();
    let ended = evening.at(presenter).ended;
    match evening.draft.random.below(100) {
        0..=2 => false_step(evening, presenter),
        _ if ended => evening.report(presenter),
        3..=64 if open => send_detail(evening, presenter),
        _ if open => evening.lot(presenter),
        3..=93 => send_header(evening, presenter),
        _ => evening.session(presenter),
    }
}

/// Any send, whether it fits or not.
pub fn false_step(evening: &mut Evening, presenter: End) {
    match evening.draft.random.below(4) {
        0 => send_header(evening, presenter),
        1 => send_detail(evening, presenter),
        2 => evening.lot(presenter),
        _ => evening.session(presenter),
    }
}

/// A new number as a rule, at times one that was confirmed before.
pub fn send_header(evening: &mut Evening, presenter: End) {
    let lots = evening.at(presenter).lots.clone();
    let number = evening.number();
    let random = &mut evening.draft.random;
    let number = match random.below(8) {
        0 if !lots.is_empty() => random.one_of(&lots),
        1 => random.one_of(&[1, 9999, 7]),
        _ => number,
    };
    evening.header(presenter, number);
}

pub fn send_detail(evening: &mut Evening, presenter: End) {
    let operation = evening.operation();
    let count = evening.count();
    let mut documents = evening.documents(presenter, operation, count);
    match evening.draft.random.below(8) {
        0 => spoil_drawee(evening, presenter, &mut documents),
        1 | 2 => documents = vec![plain_document(evening, presenter)],
        _ => {}
    }
    spoil_nominals(evening, presenter, 4, &mut documents);
    evening.detail(presenter, operation, &documents);
}

/// The paper's example for this receiver; lots of it alone have equal totals.
pub fn plain_document(evening: &mut Evening, presenter: End) -> Document {
    let own = packed(evening.at(presenter.other()).own.into(), 2);
    let mut document = EXAMPLE;
    document[18..20].copy_from_slice(&own);
    document[31..33].copy_from_slice(&own);
    document
}

/// Makes the receiver refuse the detail, if it is of presented documents.
pub fn spoil_drawee(evening: &mut Evening, presenter: End, documents: &mut [Document]) {
    let stranger = evening.stranger(presenter.other());
    let at = evening.draft.random.below(documents.len());
    documents[at][31..33].copy_from_slice(&packed(stranger.into(), 2));
}

/// In an evening that has such documents, one detail in so many gets some that are for nothing, now
/// and then beside a strange drawee.
pub fn spoil_nominals(
    evening: &mut Evening,
    presenter: End,
    details: usize,
    documents: &mut [Document],
) {
    if !evening.for_nothing || !evening.draft.random.once_in(details) {
        return;
    }
    for at in bodies::some_of(&mut evening.draft.random, documents.len()) {
        documents[at][NOMINAL].fill(0);
    }
    if evening.draft.random.once_in(4) {
        spoil_drawee(evening, presenter, documents);
    }
}

/// A whole lot of one detail.
pub fn lot(evening: &mut Evening, end: End, number: u64, documents: &[Document]) {
    evening.header(end, number);
    evening.exchange(end);
    evening.detail(end, PRESENTED, documents);
    evening.exchange(end);
    evening.lot(end);
    evening.exchange(end);
}

/// What is awaited, then the open lot's total: a header fits next, or the session total.
pub fn settle(evening: &mut Evening, presenter: End) {
    evening.exchange(presenter);
    if evening.at(presenter).open.is_some() {
        evening.lot(presenter);
        evening.exchange(presenter);
    }
}

/// Brings the direction to its end.
pub fn finish(evening: &mut Evening, presenter: End) {
    settle(evening, presenter);
    evening.session(presenter);
    evening.exchange(presenter);
}
