//! Good evenings: both directions at once, nothing lost, and a close at the end.

use super::course;
use super::end::End;
use super::evening::{Evening, CLOSE, PRECLOSE};

pub fn play(evening: &mut Evening) {
    evening.start_both();
    let steps = evening.draft.random.within(5, 160);
    let pace = ((PRECLOSE - 75_600) * 2) as usize / steps;
    for _ in 0..steps {
        let end = evening.draft.random.one_of(&End::BOTH);
        let passed = evening.draft.random.below(pace) as u64;
        pass(evening, passed);
        match evening.draft.random.below(16) {
            0 => evening.report(end),
            1 => evening.clock(end),
            _ => course::step(evening, end),
        }
    }
    close(evening);
}

/// The same at both ends, and not past the last second before the close.
fn pass(evening: &mut Evening, seconds: u64) {
    for end in End::BOTH {
        let time = &mut evening.at(end).time;
        *time = (*time + seconds).min(CLOSE - 1);
    }
}

/// Half of the evenings bring both directions to their end first.
fn close(evening: &mut Evening) {
    let in_order = evening.draft.random.once_in(2);
    for end in End::BOTH {
        if in_order {
            course::finish(evening, end);
        }
        evening.report(end);
    }
    for end in End::BOTH {
        evening.at(end).time = CLOSE + evening.draft.random.below(900) as u64;
        evening.clock(end);
        evening.report(end);
    }
}
