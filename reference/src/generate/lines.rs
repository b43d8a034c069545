//! Bad lines: what was written comes late, twice, in another order or not at all, and the
//! clocks jump. The bytes themselves are never altered.

use super::course;
use super::end::End;
use super::evening::{Act, Evening, CLOSE, CUT_OFF, OPENING, PRECLOSE};

pub fn play(evening: &mut Evening) {
    evening.start_both();
    set_clocks(evening);
    let steps = evening.draft.random.within(20, 200);
    let pace = evening.draft.random.one_of(&[2, 10, 60]);
    for _ in 0..steps {
        let end = evening.draft.random.one_of(&End::BOTH);
        let passed = evening.draft.random.below(pace) as u64;
        evening.at(end).time += passed;
        event(evening, end);
        if is_over(evening, end) {
            break;
        }
    }
    for end in End::BOTH {
        evening.report(end);
    }
}

/// Some calls after the close, but not many.
fn is_over(evening: &mut Evening, end: End) -> bool {
    let late = evening.at(end).closed || evening.at(end).time > CLOSE + 60;
    late && evening.draft.random.once_in(8)
}

/// The ends begin at hours that matter, and need not agree.
fn set_clocks(evening: &mut Evening) {
    let hours = [
        OPENING,
        OPENING,
        OPENING,
        80_000,
        PRECLOSE - 60,
        PRECLOSE - 5,
        CLOSE - 60,
        OPENING - 5,
    ];
    let common = evening.draft.random.one_of(&hours);
    for end in End::BOTH {
        let apart = evening.draft.random.one_of(&[0, 0, 1, 3, 30, 600]);
        evening.at(end).time = common + apart;
    }
}

fn event(evening: &mut Evening, end: End) {
    match evening.draft.random.below(32) {
        0..=15 => course::step(evening, end),
        16 | 17 => evening.deliver(end),
        18..=20 => receive_any(evening, end),
        21..=23 => reply_any(evening, end),
        24 => course::false_step(evening, end),
        25..=27 => wrong_time(evening, end),
        28 => jump(evening, end),
        29 => go_back(evening, end),
        30 => evening.clock(end),
        _ => evening.report(end),
    }
}

/// Any two things, among them the repeat of a message.
fn go_back(evening: &mut Evening, end: End) {
    let acts: [Act; 6] = [
        |evening, end| evening.deliver(end.other()),
        |evening, end| evening.deliver(end.other()),
        course::step,
        receive_any,
        reply_any,
        Evening::clock,
    ];
    let first = evening.draft.random.one_of(&acts);
    let second = evening.draft.random.one_of(&acts);
    evening.go_back(end, first, second);
}

/// Something written before, a late one more often.
fn any_written(evening: &mut Evening) -> Option<usize> {
    let count = evening.draft.written.len();
    let recent = evening.draft.random.one_of(&[2, 4, 8, count]);
    let back = evening.draft.random.below(recent.max(1));
    (back < count).then(|| count - back)
}

fn receive_any(evening: &mut Evening, end: End) {
    if let Some(number) = any_written(evening) {
        evening.receive(end, &format!("@{number}"));
    }
}

fn reply_any(evening: &mut Evening, end: End) {
    if let Some(number) = any_written(evening) {
        let bytes = evening.draft.written[number - 1].clone();
        evening.reply(end, &format!("@{number}"), &bytes);
    }
}

/// One call at another time; the clock is right again for the next.
fn wrong_time(evening: &mut Evening, end: End) {
    let right = evening.at(end).time;
    let times = [
        0,
        OPENING - 1,
        right.saturating_sub(1),
        right.saturating_sub(100),
        CLOSE,
        CLOSE + 1,
        86_399,
        86_400,
        u64::from(u32::MAX),
    ];
    evening.at(end).time = evening.draft.random.one_of(&times);
    match evening.draft.random.below(8) {
        0 => evening.clock(end),
        1 | 2 => receive_any(evening, end),
        3 | 4 => course::step(evening, end),
        _ => course::step(evening, end.other()),
    }
    evening.at(end).time = right;
}

/// The clock goes on from another hour.
fn jump(evening: &mut Evening, end: End) {
    let now = evening.at(end).time;
    let random = &mut evening.draft.random;
    let hours = [
        PRECLOSE - 1,
        PRECLOSE,
        CUT_OFF - 1,
        CUT_OFF,
        CLOSE - 2,
        now + 600,
        now + 60,
    ];
    let later = random.one_of(&hours);
    let back = random.once_in(8);
    evening.at(end).time = if back { now - 30 } else { later.max(now) };
}
