//! Times one direction of an evening as its lot grows, and as it has more full lots: what a
//! document costs beyond an evening without any. The least of the samples is shown.

use reference::exchange::{of_two, trays, FilledTrays};
use reference::line;
use reference::session::detail::DetailCheck;
use reference::timing::{in_turn, time, Run};

const SAMPLES: usize = 201;
/// About so many documents are exchanged in a sample.
const DOCUMENTS: usize = 5_200;
const FULL_LOT: usize = 2_600;

fn main() {
    println!("nanoseconds a document, least of {SAMPLES} samples");
    show("documents", &[1, 10, 50, 200, 1_000, FULL_LOT], 1);
    show("full lots", &[1, 2, 8, 32, 64], FULL_LOT);
}

/// A row for each size; a size counts units of so many documents. The empty evening is the first
/// of the sizes that are measured.
fn show(what: &str, sizes: &[usize], unit: usize) {
    let counts: Vec<usize> = [0].iter().chain(sizes).map(|size| size * unit).collect();
    let filled: Vec<FilledTrays> = counts.iter().map(|&count| trays(1, count, 0, 72)).collect();
    let none = trays(2, 0, 0, 81);
    let runs = filled.iter().zip(&counts);
    let runs = runs.flat_map(|(near, &count)| runs_of(calls(count), near, &none));
    let times = in_turn(SAMPLES, runs.collect());
    let (empty, rows) = times.split_at(3);
    println!("  {what}    plain    tuned     line");
    for ((size, &count), row) in sizes.iter().zip(&counts[1..]).zip(rows.chunks(3)) {
        print!("  {size:>9}");
        for (times, empty) in row.iter().zip(empty) {
            let evening = times.for_each(calls(count));
            let beyond = evening.beyond(empty.for_each(calls(0)));
            print!("{:>9.1}", beyond.for_each(count).least);
        }
        println!();
    }
}

/// Evenings in a sample, so that it takes some time; the smallest ones cost most of theirs for
/// start and end, and need no more than a hundred.
fn calls(documents: usize) -> usize {
    DOCUMENTS.div_ceil(documents.max(50))
}

/// Of the plain reference, the tuned one and the line.
fn runs_of<'a>(calls: usize, near: &'a FilledTrays, far: &'a FilledTrays) -> [Run<'a>; 3] {
    let expected = of_two(DetailCheck::PLAIN, near, far);
    assert_eq!(of_two(DetailCheck::TUNED, near, far), expected);
    assert_eq!(line::exchange(near.both(), far.both()), expected);
    let of_reference =
        |check| -> Run<'a> { Box::new(move || time(calls, || of_two(check, near, far))) };
    [
        of_reference(DetailCheck::PLAIN),
        of_reference(DetailCheck::TUNED),
        Box::new(move || time(calls, || line::exchange(near.both(), far.both()))),
    ]
}
