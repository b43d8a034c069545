//! Times the commissions of a tray as it has more documents and as its tariff has more keys: what a
//! document costs. The least of the samples is shown. A tray that is filled again stays as it is,
//! so that every call has the same work.

use reference::bodies::EXAMPLE;
use reference::generate::tariff::trays::stating;
use reference::line;
use reference::tariff::keys::{MOST_COMMISSION, MOST_KEYS};
use reference::tariff::tray::{fill_commissions, Filled};
use reference::timing::{in_turn, time, Run};
use std::hint::black_box;

const SAMPLES: usize = 201;
/// About so many documents are filled in a sample.
const DOCUMENTS: usize = 26_000;

type Fill = fn(&[u32], &mut [u8]) -> Filled;

fn main() {
    println!("nanoseconds a document, least of {SAMPLES} samples");
    println!("  keys  documents  reference      line     ratio");
    for keys in [1, 5, MOST_KEYS] {
        for documents in [1, 10, 200, 2_600, DOCUMENTS] {
            show(keys, documents);
        }
    }
}

fn show(keys: usize, documents: usize) {
    let tariff: Vec<u32> = (1..=keys as u32)
        .flat_map(|key| [key, 10 * key, key, MOST_COMMISSION])
        .collect();
    let tray = tray(keys, documents);
    let (mut one, mut other) = (tray.clone(), tray);
    assert_eq!(
        fill_commissions(&tariff, &mut one),
        line::fill_commissions(&tariff, &mut other)
    );
    assert_eq!(one, other);
    let runs = vec![
        run(fill_commissions, &tariff, &mut one),
        run(line::fill_commissions, &tariff, &mut other),
    ];
    let times = in_turn(SAMPLES, runs);
    let each = |at: usize| times[at].for_each(calls(documents) * documents).least;
    let (reference, line) = (each(0), each(1));
    let ratio = line / reference;
    println!("  {keys:>4}  {documents:>9}  {reference:>9.1}  {line:>8.1}  {ratio:>8.2}");
}

/// The keys follow one another, so that each is looked for equally often.
fn tray(keys: usize, documents: usize) -> Vec<u8> {
    let documents = (0..documents as u64).map(|at| {
        let key = at % keys as u64 + 1;
        stating(EXAMPLE, key as u32, 12_345 * (at + 1), 0)
    });
    documents.flatten().collect()
}

fn calls(documents: usize) -> usize {
    DOCUMENTS / documents
}

fn run<'a>(fill: Fill, tariff: &'a [u32], tray: &'a mut [u8]) -> Run<'a> {
    let calls = calls(tray.len() / EXAMPLE.len());
    Box::new(move || time(calls, || fill(black_box(tariff), black_box(&mut *tray))))
}
