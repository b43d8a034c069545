//! Times adding a lot to a file and taking the first one out: of the reference, of the calls in
//! place and of the line, beside a plain move of the same bytes. Every call finds a file that was
//! made anew, which is not timed.

use reference::generate::lot_file::contents::Contents;
use reference::line;
use reference::lot_file::calls;
use reference::lot_file_in_place as in_place;
use reference::lot_file_script::{slice, tray};
use reference::timing::{in_turn, show, time, Run};
use std::hint::black_box;

const SAMPLES: usize = 101;
/// About so many bytes the files of a sample have together.
const BYTES: usize = 400_000;
const NEW: u32 = 9_999;

/// What is done to a file; a plain move has no code.
type Work<'a> = Box<dyn Fn(&mut [u8]) -> u8 + 'a>;
type Add = fn(&mut [u8], u32, &[u8]) -> u8;
type TakeOut = fn(&mut [u8], u32) -> u8;

const NAMES: [&str; 4] = ["move", "plain", "in place", "line"];
const ADDS: [Add; 3] = [calls::add, in_place::add, line::lot_file_add];
const TAKES: [TakeOut; 3] = [calls::take_out, in_place::take_out, line::lot_file_take_out];

fn main() {
    for lots in [1, 63] {
        for documents in [1, 200, 2_600] {
            adding(lots, documents);
        }
    }
    for documents in [1, 200, 2_600] {
        taking_out(documents);
    }
}

/// Behind so many lots of four documents.
fn adding(lots: u32, documents: usize) {
    let tray = tray(51 * documents, 2);
    let contents = Contents::of(1..=lots, 4, tray.len());
    let (end, tray) = (contents.end(), &tray);
    let moved = move |file: &mut [u8]| {
        file[end..].copy_from_slice(black_box(tray));
        0
    };
    let mut works: Vec<Work> = vec![Box::new(moved)];
    for add in ADDS {
        works.push(Box::new(move |file| {
            add(file, black_box(NEW), black_box(tray))
        }));
    }
    let what = format!("a lot of {documents} added to {lots} of 4");
    compare(&what, &contents, &works);
}

/// The first of 64 lots of so many documents.
fn taking_out(documents: u32) {
    let contents = Contents::of(1..=64, documents, 0);
    let (start, end) = (640 + contents.lots[0].length(), contents.end());
    let moved = move |file: &mut [u8]| {
        file.copy_within(black_box(start)..end, 640);
        0
    };
    let mut works: Vec<Work> = vec![Box::new(moved)];
    for take_out in TAKES {
        works.push(Box::new(move |file| take_out(file, black_box(1))));
    }
    let what = format!("the first of 64 lots of {documents} taken out");
    compare(&what, &contents, &works);
}

fn compare(what: &str, contents: &Contents, works: &[Work]) {
    let ready = slice(contents.length(), 1, &contents.rows());
    check(&ready, works);
    let files = BYTES.div_ceil(ready.len());
    let runs = works.iter().map(|work| run(work, &ready, files));
    let times = in_turn(SAMPLES, runs.collect());
    println!("{what}, {SAMPLES} samples of {files} calls");
    show(&NAMES, &times, files, [0, 2]);
}

/// None is refused, and all calls give the same file.
fn check(ready: &[u8], works: &[Work]) {
    let mut done = works[1..].iter().map(|work| {
        let mut file = ready.to_vec();
        assert_eq!(work(&mut file), 0);
        file
    });
    let first = done.next();
    assert!(done.all(|file| Some(&file) == first.as_ref()));
    assert!(first.as_deref() != Some(ready));
}

/// On so many files, one after the other.
fn run<'a>(work: &'a Work, ready: &'a [u8], files: usize) -> Run<'a> {
    let mut lent = vec![ready.to_vec(); files];
    Box::new(move || {
        lent.iter_mut().for_each(|file| file.copy_from_slice(ready));
        let mut next = lent.iter_mut();
        time(files, || work(next.next().expect("a file for each call")))
    })
}
