//! Lines that cannot be read, and odd ones that can, among the calls of a good evening.

use super::centre::Sort;
use super::course;
use super::end::End;
use super::evening::Evening;
use crate::random::Random;

pub fn play(evening: &mut Evening) {
    if evening.draft.random.once_in(64) {
        return;
    }
    evening.start_both();
    for _ in 0..evening.draft.random.within(5, 60) {
        let end = evening.draft.random.one_of(&End::BOTH);
        match evening.draft.random.below(8) {
            0..=2 => course::step(evening, end),
            3 => odd_send(evening, end),
            4 => mutated(evening, end),
            5 => long(evening),
            _ => unreadable(evening, end),
        }
    }
    if evening.draft.random.once_in(3) {
        evening.draft.unend();
    }
}

/// Lines as they stand; `E` is the end, `T` the time.
#[rustfmt::skip]
const LINES: [&str; 78] = [
    "", " ", "     ", "#", "# report A", " # report A", "#\u{e9}", "\t", "\r", "\0", "E", "-",
    "report E\r", "report\tE", "\treport E", " report E", "report E ", "   report   E   ",
    "REPORT E", "Report E", "report e", "report C", "report", "report E E", "reportE",
    "report AB", "report E #", "reports E", "report E 0", "report \u{e9}", "report E\u{a0}",
    "clock E", "clock E T T", "clock E -1", "clock E +T", "clock E 0xT", "clock E T.0",
    "clock E 1e3", "clock E T\r", "clock T E", "clock E \u{ff11}", "clock E T,",
    "clock E 000000000000000T", "clock E 0000000000000000T", "clock E 18446744073709551615",
    "clock E 18446744073709551616", "clock E 99999999999999999999", "clock E 100000000000000000000",
    "clock E 4294967296", "clock E 4295042896",
    "lot E", "lot E T 10413", "lot E T 18446744073709551615", "lot E T -", "lot E T 34 34",
    "session E", "session E T 99999", "session E T x", "session E 0 0 0", "session",
    "start E", "start E 140328", "start E 140328 81", "start E 140328 81 x", "start E 140328 81 -",
    "start E 140328 81 72 1 2 3 4 5 6 7 8 9 10 11 12 13 14 15 16 17", "start C 140328 81 72",
    "start E 140328 65617 72 65608", "start E 4295107624 81 72", "start E 14032A 81 72",
    "header E T 21000000 1", "header E T 21000000 1 7 31 0", "header E T 21000000 1 65543",
    "header E T 4315967296 1 7", "header E T 21000000 65537 7", "header E T 21000000 1 7 10413",
    "header E T 21:00 1 7", "header E 4295042896 21000000 1 7",
];

#[rustfmt::skip]
const BYTES: [&str; 28] = [
    "", "-", "--", "0", "000", "0g", "zz", "00 00", "@", "@0", "@x", "@-1", "@+1", "@@1", "1@",
    "@1 x", "@1 10413", "@99999", "@18446744073709551615", "@18446744073709551616",
    "@00000000000000000001", "@000000000000000000001", "@1,", "0x00", "00-", "\u{e9}\u{e9}", "@ 1",
    "00112233445566778899aAbBcCdDeEfF",
];

fn unreadable(evening: &mut Evening, end: End) {
    let time = evening.at(end).time.to_string();
    let random = &mut evening.draft.random;
    let bytes = random.one_of(&BYTES);
    let line = match random.below(8) {
        0 => format!("receive {end} {time} {bytes}"),
        1 => format!("reply {end} {time} {bytes}"),
        2 => format!("detail {end} {time} 30 @1{bytes}"),
        3 => format!("{} {end} {time} 1 2 3", some_word(random)),
        _ => random
            .one_of(&LINES)
            .replace('E', &end.to_string())
            .replace('T', &time),
    };
    evening.draft.say(line.as_bytes());
}

fn some_word(random: &mut Random) -> &'static str {
    random.one_of(&[
        "", "close", "tray", "check", "set", "limits", "headers", "A", "@1",
    ])
}

/// A good send, written oddly.
fn odd_send(evening: &mut Evening, end: End) {
    let number = evening.draft.random.within(1, 9999) as u64;
    let header = |text: String| (Sort::Header(number), text);
    let (sort, arguments) = match evening.draft.random.below(6) {
        0 => header(format!("   0021000000  1   {number:020}  ")),
        1 => header(format!(" 21000000 0001 {number} 000031 ")),
        2 => header(format!(" 21000000 1 {number} 010412")),
        3 => header(format!(" 21000000 1 {number:021}")),
        4 => (Sort::Lot, "   0000000000000000034  ".into()),
        _ => (Sort::Session, " 37   ".into()),
    };
    evening.send(end, sort, &arguments);
}

/// A call that does no harm, with one byte put in, left out or changed.
fn mutated(evening: &mut Evening, end: End) {
    let time = evening.at(end).time;
    let count = evening.draft.written.len();
    let random = &mut evening.draft.random;
    let number = random.within(1, count.max(1));
    let mut line = match random.below(4) {
        0 => format!("report {end}"),
        1 => format!("clock {end} {time}"),
        2 => format!("receive {end} {time} @{number}"),
        _ => format!("reply {end} {time} @{number} "),
    }
    .into_bytes();
    let at = random.below(line.len());
    let sign = random.one_of(b" \t\r\0#@-AB0a\x7f\x80\xff\x0b");
    match random.below(3) {
        0 => line.insert(at, sign),
        1 => line[at] = sign,
        _ => {
            line.remove(at);
        }
    }
    evening.draft.say(&line);
}

/// Lines of about 24,000 bytes.
fn long(evening: &mut Evening) {
    let random = &mut evening.draft.random;
    if !random.once_in(3) {
        return;
    }
    let length = random.one_of(&[23_999, 24_000, 24_000, 24_001, 24_001, 30_000]);
    let head = random.one_of(&["#", "", "report A", "report A x", "receive B 75600 "]);
    let filling = match head {
        "receive B 75600 " => b'0',
        _ => random.one_of(b"   x"),
    };
    let mut line = head.as_bytes().to_vec();
    line.resize(length, filling);
    evening.draft.say(&line);
}
