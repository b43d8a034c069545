//! The table of next working days, made from a list of unworked days. Day 1 is 1 January.

/// The days of a leap year, and so the places that are filled.
pub const DAYS: usize = 366;
pub const LAST_DAY: u16 = DAYS as u16;

/// Each of the first 366 places gets the first working day after its own day, 0 if none comes.
/// A code other than 0 leaves all places as they were.
pub fn next_days(unworked: &[u16], days: &mut [u16]) -> u8 {
    if !is_list(unworked) {
        return 40;
    }
    if days.len() < DAYS {
        return 23;
    }
    let worked = worked(unworked);
    for day in 1..=DAYS {
        days[day - 1] = first_later(day, &worked);
    }
    0
}

fn is_list(unworked: &[u16]) -> bool {
    unworked.iter().all(|day| (1..=LAST_DAY).contains(day))
        && unworked.windows(2).all(|pair| pair[0] < pair[1])
}

/// For each day, by its number; there is no day 0.
fn worked(unworked: &[u16]) -> [bool; DAYS + 1] {
    let mut worked = [true; DAYS + 1];
    for &day in unworked {
        worked[usize::from(day)] = false;
    }
    worked
}

fn first_later(day: usize, worked: &[bool; DAYS + 1]) -> u16 {
    let found = (day + 1..=DAYS).find(|&later| worked[later]);
    found.map_or(0, |later| later as u16)
}
