//! Times the four detail checks side by side on full good bodies and prints their ratios.

use reference::timing::{in_turn, show, time, Run};
use reference::{bodies, columns, line, plain, tuned, Checked};
use std::hint::black_box;

const SAMPLES: usize = 2_000;
const CALLS: usize = 20;
const DOCUMENTS: usize = 200;
const OWN: u16 = 72;
const REPRESENTED: [u16; 8] = [81, 182, 1465, 2038, 2100, 3058, 49, 9000];

type Check = fn(&[u8], u16, &[u16]) -> Checked;

const CHECKS: [(&str, Check); 4] = [
    ("plain", plain::check),
    ("tuned", tuned::check),
    ("columns", columns::check),
    ("line", line::check),
];

fn main() {
    let last = &REPRESENTED[7..];
    let presented =
        |seed, drawees| bodies::generated(seed, bodies::PRESENTED, DOCUMENTS, OWN, drawees);
    let returns = bodies::generated(2, bodies::RETURN, DOCUMENTS, OWN, &[OWN]);
    compare("presented, drawee own", &presented(1, &[OWN]), &[]);
    compare("returns", &returns, &[]);
    compare(
        "presented, drawee last of 8",
        &presented(3, last),
        &REPRESENTED,
    );
}

fn compare(case: &str, body: &[u8], represented: &[u16]) {
    assert_eq!(body.len(), 10_400);
    let answer = plain::check(body, OWN, represented);
    assert_eq!((answer.code, answer.documents), (0, DOCUMENTS as u64));
    for (name, check) in CHECKS {
        assert_eq!(check(body, OWN, represented), answer, "{name}");
    }
    let runs = CHECKS.map(|(_, check)| run(check, body, represented));
    let times = in_turn(SAMPLES, runs.into());
    println!("{case}, {SAMPLES} samples of {CALLS} calls");
    show(&CHECKS.map(|(name, _)| name), &times, CALLS, [0, 1]);
}

fn run<'a>(check: Check, body: &'a [u8], represented: &'a [u16]) -> Run<'a> {
    Box::new(move || {
        time(CALLS, || {
            check(black_box(body), black_box(OWN), black_box(represented))
        })
    })
}
