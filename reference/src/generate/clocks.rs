//! Clocks that differ: one is ahead by so many seconds all evening, and headers leave and come
//! when one of the two shows an hour that decides on them. Nothing is lost, but some come late.

use super::course;
use super::end::End;
use super::evening::{Evening, CLOSE, HEADER_LIMITS, PRECLOSE};

/// Seconds, up to one more than the margin.
const APART: [u64; 8] = [0, 1, 3, 3, 3, 29, 30, 31];

pub fn play(evening: &mut Evening) {
    evening.start_both();
    let apart = evening.draft.random.one_of(&APART);
    let ahead = evening.draft.random.one_of(&End::BOTH);
    set(evening, ahead, PRECLOSE - 400, apart);
    for _ in 0..evening.draft.random.below(40) {
        let presenter = evening.draft.random.one_of(&End::BOTH);
        course::step(evening, presenter);
    }
    for moment in moments(apart) {
        if !evening.draft.random.once_in(4) {
            set(evening, ahead, moment, apart);
            headers(evening);
        }
    }
    close(evening, ahead, apart);
}

/// The moment is told by the clock that is behind.
fn set(evening: &mut Evening, ahead: End, moment: u64, apart: u64) {
    evening.at(ahead).time = moment + apart;
    evening.at(ahead.other()).time = moment;
}

/// When either clock shows one of the limits.
fn moments(apart: u64) -> Vec<u64> {
    let limits = HEADER_LIMITS.into_iter();
    let mut moments: Vec<u64> = limits.flat_map(|limit| [limit - apart, limit]).collect();
    moments.sort();
    moments.dedup();
    moments
}

fn headers(evening: &mut Evening) {
    for _ in 0..evening.draft.random.within(2, 6) {
        let presenter = evening.draft.random.one_of(&End::BOTH);
        match evening.draft.random.below(8) {
            0 => course::send_header(evening, presenter),
            1..=5 => {
                course::settle(evening, presenter);
                course::send_header(evening, presenter);
            }
            _ => course::step(evening, presenter),
        }
        if !evening.draft.random.once_in(4) {
            evening.deliver(presenter);
        }
    }
}

/// Calls at the close, which has no margin; half of the evenings are brought to their end first.
fn close(evening: &mut Evening, ahead: End, apart: u64) {
    let in_order = evening.draft.random.once_in(2);
    for end in End::BOTH.into_iter().filter(|_| in_order) {
        course::finish(evening, end);
    }
    let moment = evening.draft.random.one_of(&[CLOSE - 1, CLOSE, CLOSE + 29]);
    set(evening, ahead, moment, apart);
    for end in End::BOTH {
        course::false_step(evening, end);
        evening.deliver(end.other());
        evening.clock(end);
        evening.report(end);
    }
}
