//! A good file spoiled in each way that the papers name.

use super::contents::{Contents, Lot};
use crate::lot_file::lots::{LAST_NUMBER, MOST_DOCUMENTS};
use crate::lot_file::table::{ROWS, TABLE};
use crate::lot_file_script::Row;
use crate::random::Random;
use crate::session::detail::DOCUMENT;

/// What a question states of a slice, good or not.
#[derive(Clone, Debug)]
pub struct Slice {
    pub length: usize,
    pub rows: Vec<Row>,
}

impl Slice {
    pub fn of(contents: &Contents) -> Slice {
        let (length, rows) = (contents.length(), contents.rows());
        Slice { length, rows }
    }
}

pub type Spoil = fn(&mut Random, Contents) -> Slice;

pub const ALL: [Spoil; 17] = [
    number_0,
    number_too_large,
    neighbours_alike,
    first_and_last_alike,
    no_documents,
    one_document_too_many,
    far_too_many_documents,
    documents_off,
    start_off,
    gap,
    overlap,
    rows_exchanged,
    unused_row_before_a_used_one,
    something_in_an_unused_row,
    partly_zero,
    last_body_outside,
    no_room_for_the_table,
];

/// All else is as it should be.
fn with_one(
    random: &mut Random,
    mut contents: Contents,
    change: impl Fn(&mut Random, &mut Lot),
) -> Slice {
    contents.fill_up(random, 1);
    let at = random.below(contents.lots.len());
    change(random, &mut contents.lots[at]);
    Slice::of(&contents)
}

fn number_0(random: &mut Random, contents: Contents) -> Slice {
    with_one(random, contents, |_, lot| lot.number = 0)
}

fn number_too_large(random: &mut Random, contents: Contents) -> Slice {
    with_one(random, contents, |random, lot| {
        let next = LAST_NUMBER + 1;
        lot.number = random.one_of(&[next, next, next + 1, next + lot.number, 65_535]);
    })
}

fn no_documents(random: &mut Random, contents: Contents) -> Slice {
    with_one(random, contents, |_, lot| lot.documents = 0)
}

fn one_document_too_many(random: &mut Random, contents: Contents) -> Slice {
    with_one(random, contents, |_, lot| {
        lot.documents = MOST_DOCUMENTS as u32 + 1;
    })
}

fn neighbours_alike(random: &mut Random, mut contents: Contents) -> Slice {
    contents.fill_up(random, 2);
    let at = random.below(contents.lots.len() - 1);
    contents.lots[at + 1].number = contents.lots[at].number;
    Slice::of(&contents)
}

fn first_and_last_alike(random: &mut Random, mut contents: Contents) -> Slice {
    contents.fill_up(random, 3);
    let last = contents.lots.len() - 1;
    contents.lots[last].number = contents.lots[0].number;
    Slice::of(&contents)
}

/// Of a file with so many lots at the least, and one of its rows.
fn with_row(random: &mut Random, mut contents: Contents, least: usize) -> (Slice, usize) {
    contents.fill_up(random, least);
    let at = random.below(contents.lots.len());
    (Slice::of(&contents), at)
}

/// In the last row; some are good once they are cut to fewer bits.
fn far_too_many_documents(random: &mut Random, contents: Contents) -> Slice {
    let (mut slice, _) = with_row(random, contents, 1);
    let documents = &mut slice.rows.last_mut().unwrap()[2];
    let cut = [1 << 16, 1 << 24, 1 << 31].map(|lost| lost + *documents);
    *documents = random.one_of(&[cut[0], cut[1], cut[2], documents.swap_bytes(), u32::MAX]);
    slice
}

/// So that the next row starts too soon or too late.
fn documents_off(random: &mut Random, contents: Contents) -> Slice {
    let (mut slice, at) = with_row(random, contents, 2);
    let documents = &mut slice.rows[at.max(1) - 1][2];
    *documents = match random.below(2) {
        0 => *documents + 1,
        _ => *documents - 1,
    };
    slice
}

/// In one row alone.
fn start_off(random: &mut Random, contents: Contents) -> Slice {
    let (mut slice, at) = with_row(random, contents, 1);
    let start = &mut slice.rows[at][1];
    let near = [*start - 1, *start + 1, *start - 51, *start + 51];
    let far = [0, *start - TABLE as u32, *start + 65_536, 1 << 31 | *start];
    let turned = start.swap_bytes();
    let wrong = [&near[..], &near, &far, &[turned, u32::MAX]].concat();
    *start = random.one_of(&wrong);
    slice
}

/// Before one of the bodies, and the slice is so much longer.
fn gap(random: &mut Random, contents: Contents) -> Slice {
    let by = random.one_of(&[1, 10, DOCUMENT]);
    let mut slice = moved(random, contents, by as u32);
    slice.length += by;
    slice
}

/// Of a body with the one before it or with the table.
fn overlap(random: &mut Random, contents: Contents) -> Slice {
    let by = random.one_of(&[1, 10, DOCUMENT]);
    moved(random, contents, (by as u32).wrapping_neg())
}

/// One of the bodies and all behind it start by so much later.
fn moved(random: &mut Random, contents: Contents, by: u32) -> Slice {
    let (mut slice, at) = with_row(random, contents, 1);
    for row in &mut slice.rows[at..] {
        row[1] = row[1].wrapping_add(by);
    }
    slice
}

fn rows_exchanged(random: &mut Random, contents: Contents) -> Slice {
    let (mut slice, at) = with_row(random, contents, 2);
    let next = (at + 1) % slice.rows.len();
    slice.rows.swap(at, next);
    slice
}

fn unused_row_before_a_used_one(random: &mut Random, mut contents: Contents) -> Slice {
    contents.lots.truncate(ROWS - 1);
    let (mut slice, at) = with_row(random, contents, 1);
    slice.rows.insert(at, [0; 3]);
    slice
}

/// All but one or two of the three numbers.
fn with_zeros(random: &mut Random, row: Row) -> Row {
    let kept = random.within(1, 6);
    [0, 1, 2].map(|field| {
        if kept >> field & 1 == 1 {
            row[field]
        } else {
            0
        }
    })
}

/// In the first or another; what is not zero would be right.
fn something_in_an_unused_row(random: &mut Random, mut contents: Contents) -> Slice {
    contents.lots.truncate(ROWS - 1);
    let mut slice = Slice::of(&contents);
    let first = slice.rows.len();
    let at = random.one_of(&[first, first, ROWS - 1]);
    let good = [contents.new_number(random), contents.end() as u32, 1];
    slice.rows.resize(at, [0; 3]);
    slice.rows.push(with_zeros(random, good));
    slice
}

fn partly_zero(random: &mut Random, contents: Contents) -> Slice {
    let (mut slice, at) = with_row(random, contents, 1);
    slice.rows[at] = with_zeros(random, slice.rows[at]);
    slice
}

/// By one byte, one document or any part of it.
fn last_body_outside(random: &mut Random, mut contents: Contents) -> Slice {
    contents.fill_up(random, 1);
    let mut slice = Slice::of(&contents);
    let last = contents.lots[contents.lots.len() - 1].length();
    let by = random.within(1, last);
    slice.length = contents.end() - random.one_of(&[1, 1, DOCUMENT, by, last]);
    slice
}

fn no_room_for_the_table(random: &mut Random, contents: Contents) -> Slice {
    let mut slice = Slice::of(&contents);
    let any = random.below(TABLE);
    slice.length = random.one_of(&[0, 1, TABLE - 1, TABLE - 1, any]);
    slice
}
