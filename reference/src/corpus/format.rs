//! Lines about the format of scripts, each with the answer that it gets after those before it.

/// An empty answer stands for a line that is passed over.
pub fn lines() -> Vec<(String, &'static str)> {
    let mut lines: Vec<(String, &str)> = Vec::new();
    for group in [NO_SESSION, WORDS, NUMBERS, CLAMPS, BYTES, ROOM, STARTS] {
        lines.extend(group.iter().map(|&(line, answer)| (line.into(), answer)));
    }
    lines.extend(long_lines());
    lines
}

/// All lines, the last without a line feed.
pub fn script() -> Vec<u8> {
    let lines: Vec<String> = lines().into_iter().map(|(line, _)| line).collect();
    lines.join("\n").into_bytes()
}

const BAD: &str = "bad line";
const PASSED_OVER: &str = "";

type Line = (&'static str, &'static str);

/// A bad word is found before it is found that there is no session.
const NO_SESSION: &[Line] = &[
    ("header A 75600 21000000 1 7", "header A none"),
    ("detail A 75600 30 00", "detail A none"),
    ("lot A 75600", "lot A none"),
    ("session B 75600", "session B none"),
    ("receive B 75600 00", "receive B none"),
    ("reply B 75600 00", "reply B none"),
    ("clock A 75600", "clock A none"),
    ("report A", "report A none"),
    ("header A 75600 21000000 1 x", BAD),
    ("receive A 75600 @1", BAD),
    ("start A 310228 81 72", "start A 24"),
    ("report A", "report A none"),
];

const WORDS: &[Line] = &[
    ("", PASSED_OVER),
    ("   ", PASSED_OVER),
    ("# header A", PASSED_OVER),
    ("#", PASSED_OVER),
    (" # header A", BAD),
    ("\r", BAD),
    ("start  A   140328 81   72  ", "start A 00"),
    ("  start B 140328 72 81", "start B 00"),
    ("clock A 5 # five", BAD),
    ("clock\tA 5", BAD),
    ("clock A 5\t", BAD),
    ("clock A 5\r", BAD),
    ("clock A 5\0", BAD),
    ("clock A 5é", BAD),
    ("clock A 5", "clock A 00 open"),
    ("clock", BAD),
    ("clock A", BAD),
    ("clock A 5 6", BAD),
    ("clock a 5", BAD),
    ("clock C 5", BAD),
    ("clock AB 5", BAD),
    ("Clock A 5", BAD),
    ("clocks A 5", BAD),
    ("report", BAD),
    ("report A 5", BAD),
    ("reply A 75600 00 10412", BAD),
    ("receive B 75600", BAD),
    ("detail A 75600 30", BAD),
    ("header A 75600 21000000 1", BAD),
    ("header A 75600 21000000 1 7 31 1", BAD),
    ("lot A 75600 34 1", BAD),
    ("start A 140328 81", BAD),
    ("check A 5", BAD),
];

const NUMBERS: &[Line] = &[
    ("clock B 00000000000000000007", "clock B 00 open"),
    ("clock B 000000000000000000007", BAD),
    ("clock B 18446744073709551615", "clock B 20 open"),
    ("clock B 18446744073709551616", BAD),
    ("clock B 99999999999999999999", BAD),
    ("clock B +8", BAD),
    ("clock B -8", BAD),
    ("clock B 8.", BAD),
    ("clock B 0x8", BAD),
    ("clock B 8_0", BAD),
    ("clock B 6", "clock B 30 open"),
];

/// A number that is too large becomes the largest of its type, and never a smaller one.
const CLAMPS: &[Line] = &[
    ("start A 4295107624 81 72", "start A 24"),
    ("start A 140328 65617 72", "start A 24"),
    ("start A 140328 81 65608", "start A 24"),
    ("start A 140328 81 72 65537", "start A 24"),
    ("clock A 4294967301", "clock A 20 open"),
    ("header A 75600 4315967296 1 7", "header A 01"),
    ("header A 75600 21000000 65537 7", "header A 01"),
    ("header A 75600 21000000 1 65543", "header A 01"),
    ("header A 75600 21000000 10000 7", "header A 01"),
    ("header A 75600 21000000 1 10000", "header A 01"),
    (DETAIL_286, "detail A 01"),
    ("detail A 75600 30 -", "detail A 01"),
];

/// Operation 30 and 256, with the paper's document.
const DETAIL_286: &str = "detail A 75600 286 \
    00000000010000024341571403008101102800720800810110000000015000\
    0072011000001234560100010000003000000000";

const BYTES: &[Line] = &[
    ("receive A 75600 @0", BAD),
    ("receive A 75600 @1", BAD),
    ("receive A 75600 -", "receive A 21"),
    ("receive A 75600 0", BAD),
    ("receive A 75600 000", BAD),
    ("receive A 75600 0g", BAD),
    ("receive A 75600 --", BAD),
    ("receive A 75600 00-", BAD),
    ("receive A 75600 +0", BAD),
    (
        "header A 75600 21000000 1 7",
        "header A 00 @1 01140328008100720000000100510121000000140328008100720001000700",
    ),
    ("receive A 75600 @1", "receive A 33"),
    ("receive A 75600 @0", BAD),
    ("receive A 75600 @2", BAD),
    ("receive A 75600 @", BAD),
    ("receive A 75600 @-1", BAD),
    ("receive A 75600 @1@", BAD),
    ("receive A 75600 @000000000000000000001", BAD),
    ("receive A 75600 @18446744073709551615", BAD),
    ("receive A 75600 @18446744073709551617", BAD),
    ("detail A 75600 30 @1", BAD),
    ("reply A 75600 @1", "reply A 21"),
    (
        "receive B 75600 @01",
        "receive B 00 @2 02140328008100720000000100518600",
    ),
    (
        "receive B 75600 0114032800810072000000010A",
        "receive B 00 @3 02140328008100720000000100518600",
    ),
    (
        "receive B 75600 011403280081007200000002aB",
        "receive B 00 @4 02140328008100720000000200518601",
    ),
    ("reply A 75600 @3", "reply A 00"),
    ("reply A 75600 @2", "reply A 35"),
];

const ROOM: &[Line] = &[
    ("lot A 75600 0", "lot A 23"),
    ("lot A 75600 33", "lot A 23"),
    ("lot A 75600 10413", BAD),
    ("lot A 75600 18446744073709551615", BAD),
    ("lot A 75600 x", BAD),
    (
        "lot A 75600 10412",
        "lot A 00 @5 01140328008100720000000200518000070000000000000000000000000000000000",
    ),
    ("receive B 75600 @5 15", "receive B 23"),
    (
        "receive B 75600 @5 00000000000000000016",
        "receive B 00 @6 02140328008100720000000200518601",
    ),
    (
        "report A",
        "report A presented 0 0 0 0 received 0 0 0 0 open 0 0 lot 7 0 0 0",
    ),
];

/// A refused start leaves the earlier session, and a good one begins afresh.
const STARTS: &[Line] = &[
    ("start A 140328 81 72 1 2 3 4 5 6 7 8 9", "start A 24"),
    (
        "start A 140328 81 72 1 2 3 4 5 6 7 8 9 10 11 12 13 14 15 16",
        "start A 24",
    ),
    (
        "start A 140328 81 72 1 2 3 4 5 6 7 8 9 10 11 12 13 14 15 16 17",
        BAD,
    ),
    ("start A 140328 81 81", "start A 24"),
    (
        "report A",
        "report A presented 0 0 0 0 received 0 0 0 0 open 0 0 lot 7 0 0 0",
    ),
    ("start A 140328 81 72 1 2 3 4 5 6 7 8", "start A 00"),
    (
        "report A",
        "report A presented 0 0 0 0 received 0 0 0 0 open 0 0 none",
    ),
    ("receive A 75600 @5", "receive A 33"),
];

/// Of 24,000 bytes and of one more: a comment, spaces, and a call with spaces after it.
fn long_lines() -> Vec<(String, &'static str)> {
    let padded = |start: &str, sign: &str, length: usize| {
        start.to_string() + &sign.repeat(length - start.len())
    };
    vec![
        (padded("#", "x", 24_000), PASSED_OVER),
        (padded("#", "x", 24_001), BAD),
        (padded("", " ", 24_000), PASSED_OVER),
        (padded("", " ", 24_001), BAD),
        (padded("clock A 9", " ", 24_001), BAD),
        (padded("clock A 8", " ", 24_000), "clock A 00 open"),
        (padded("receive A 75600 ", "0", 24_000), "receive A 21"),
        ("clock A 8".into(), "clock A 00 open"),
    ]
}
