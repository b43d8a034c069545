//! Times a full evening of 64 full lots in both directions: of the reference with the plain
//! detail check and with the tuned one, and of the line.

use reference::exchange::{of_two, trays, FULL};
use reference::line::{self, Evening};
use reference::session::detail::DetailCheck;
use reference::timing::{in_turn, time, Run, Times};

const SAMPLES: usize = 41;
const DOCUMENTS: usize = 2 * FULL;

type Play<'a> = Box<dyn Fn() -> Evening + 'a>;

fn main() {
    let half = FULL / 2;
    let near = trays(1, half, half, 72);
    let far = trays(2, half, half, 81);
    let evenings: [(&str, Play); 3] = [
        (
            "plain",
            Box::new(|| of_two(DetailCheck::PLAIN, &near, &far)),
        ),
        (
            "tuned",
            Box::new(|| of_two(DetailCheck::TUNED, &near, &far)),
        ),
        ("line", Box::new(|| line::exchange(near.both(), far.both()))),
    ];
    let expected = evenings[0].1();
    assert_eq!(expected.near_side.presented.documents, FULL as u64);
    for (name, evening) in &evenings {
        assert_eq!(evening(), expected, "{name}");
    }
    let runs = evenings.iter().map(|(_, evening)| run(evening));
    let times = in_turn(SAMPLES, runs.collect());
    println!("a full evening of {DOCUMENTS} documents, {SAMPLES} samples");
    println!("           least  of plain  a document     median  of plain");
    for ((name, _), one) in evenings.iter().zip(&times) {
        show(name, *one, times[0]);
    }
}

fn run<'a>(evening: &'a dyn Fn() -> Evening) -> Run<'a> {
    Box::new(move || time(1, evening))
}

fn show(name: &str, times: Times, plain: Times) {
    println!(
        "  {name:<6}{:>6.2} ms  {:>8.3}  {:>7.1} ns  {:>6.2} ms  {:>8.3}",
        times.least / 1e6,
        times.least / plain.least,
        times.least / DOCUMENTS as f64,
        times.median / 1e6,
        times.median / plain.median,
    );
}
