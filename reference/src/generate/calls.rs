//! Short buffers, bad starts, second starts in the middle, and ends without a session.

use super::centre::Sort;
use super::course;
use super::end::End;
use super::evening::{Evening, OPENING};
use crate::bodies::PRESENTED;
use crate::hex;
use crate::random::Random;

pub fn play(evening: &mut Evening) {
    for _ in 0..evening.draft.random.below(6) {
        let end = evening.draft.random.one_of(&End::BOTH);
        any_call(evening, end);
    }
    for end in End::BOTH {
        if !evening.draft.random.once_in(8) {
            evening.start(end);
        }
    }
    for _ in 0..evening.draft.random.within(10, 80) {
        let end = evening.draft.random.one_of(&End::BOTH);
        match evening.draft.random.below(32) {
            0..=13 => course::step(evening, end),
            14..=18 => short_of_room(evening, end),
            19 => evening.go_back(end, short_receive, Evening::clock),
            20..=22 => bad_start(evening, end),
            23 => start_again(evening, &[end]),
            24 => start_again(evening, &End::BOTH),
            _ => any_call(evening, end),
        }
        evening.at(end).time += evening.draft.random.below(40) as u64;
    }
}

/// A fresh session takes any time, also one before the last of the old session.
fn start_again(evening: &mut Evening, ends: &[End]) {
    for &end in ends {
        evening.start(end);
        if evening.draft.random.once_in(2) {
            evening.at(end).time = OPENING;
        }
    }
}

fn any_call(evening: &mut Evening, end: End) {
    match evening.draft.random.below(8) {
        0..=2 => course::false_step(evening, end),
        3 => evening.report(end),
        4 => evening.clock(end),
        5 => bad_start(evening, end),
        6 => {
            evening.receive(end, "-");
        }
        _ => evening.reply(end, "-", &[]),
    }
}

/// The next thing with a buffer about as long as it needs.
fn short_of_room(evening: &mut Evening, end: End) {
    if let Some(awaited) = &evening.at(end).awaited {
        let message = awaited.message.number;
        let room = room(evening, 16);
        evening.receive(end.other(), &format!("@{message} {room}"));
        return;
    }
    let open = evening.at(end).open.is_some();
    match evening.draft.random.below(4) {
        0 if open => short_total(evening, end, Sort::Lot, 34),
        0 => short_total(evening, end, Sort::Session, 37),
        _ if open => short_detail(evening, end),
        _ => short_header(evening, end),
    }
}

fn short_total(evening: &mut Evening, end: End, sort: Sort, needed: usize) {
    let room = room(evening, needed);
    evening.send(end, sort, &format!(" {room}"));
}

/// What the other end has sent, as far as there is something.
fn short_receive(evening: &mut Evening, end: End) {
    if evening.at(end.other()).awaited.is_some() {
        short_of_room(evening, end.other());
    }
}

fn short_header(evening: &mut Evening, end: End) {
    let number = evening.draft.random.below(10_001) as u64;
    let room = room(evening, 31);
    let arguments = format!(" 21000000 1 {number} {room}");
    evening.send(end, Sort::Header(number), &arguments);
}

fn short_detail(evening: &mut Evening, end: End) {
    let count = evening.draft.random.one_of(&[1, 1, 2, 4, 5, 199, 200]);
    let mut documents = evening.documents(end, PRESENTED, count);
    course::spoil_nominals(evening, end, 2, &mut documents);
    let room = room(evening, 12 + 51 * count + 4 * count.div_ceil(4));
    let digits = hex::write(documents.as_flattened());
    evening.send(end, Sort::Detail, &format!(" 30 {digits} {room}"));
}

fn room(evening: &mut Evening, needed: usize) -> usize {
    let rooms = [
        0,
        12,
        needed - 1,
        needed - 1,
        needed,
        needed,
        needed + 1,
        10_412,
        10_413,
    ];
    evening.draft.random.one_of(&rooms)
}

/// One of the start's arguments is past its limits. It is never good: the evening would not
/// know of the new session.
fn bad_start(evening: &mut Evening, end: End) {
    let random = &mut evening.draft.random;
    let mut date: u64 = evening.date;
    let mut entities: Vec<u64> = vec![81, 72];
    match random.below(4) {
        0 => date = random.one_of(&BAD_DATES),
        1 => entities[random.below(2)] = random.one_of(&[10_000, 65_535, 65_536, 65_617, 70_000]),
        2 => entities[0] = entities[1],
        _ => entities.extend(bad_represented(random)),
    }
    let words: String = entities.iter().map(|one| format!(" {one}")).collect();
    evening
        .draft
        .say(format!("start {end} {date}{words}").as_bytes());
}

/// Too many, or one that is no entity; 17 are more than a line may have.
fn bad_represented(random: &mut Random) -> Vec<u64> {
    let count = random.one_of(&[9, 10, 16, 17]);
    if random.once_in(2) {
        return vec![1; count];
    }
    let mut entities = vec![1; random.within(1, 8)];
    let at = random.below(entities.len());
    entities[at] = random.one_of(&[10_000, 65_536, u64::MAX]);
    entities
}

#[rustfmt::skip]
const BAD_DATES: [u64; 17] = [
    0, 128, 10_028, 11_328, 290_227, 290_201, 300_228, 310_428, 310_628, 310_928, 311_128,
    320_128, 999_999, 1_000_000, 1_140_328, 4_295_107_624, u64::MAX,
];
