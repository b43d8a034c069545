//! Lot file questions made from a seed: calls of every sort on a good file one after the other,
//! each fault of a call beside the others, the same file spoiled in every way, and with one bit of
//! its table changed.

pub mod contents;

mod course;
mod spoils;

use crate::lot_file::table::ROWS;
use crate::lot_file_script::{adding, file, finding, taking_out};
use crate::random::Random;
use contents::Contents;
use course::Course;
use spoils::Slice;

/// How many seeds a usual run takes.
pub const SEEDS: u64 = 60;
const CALLS: usize = 40;
const CHANGED_BITS: usize = 10;

pub fn questions(seed: u64) -> Vec<u8> {
    let mut random = Random::new(seed);
    let contents = Contents::any(&mut random);
    let mut text = Course::new(&mut random, &contents).calls(CALLS);
    text += &Course::new(&mut random, &contents).several_faults();
    for spoil in spoils::ALL {
        let slice = spoil(&mut random, contents.clone());
        text += &calls_on(&mut random, &contents, &slice);
    }
    for _ in 0..CHANGED_BITS {
        text += &changed_bit(&mut random, &contents);
    }
    text.into_bytes()
}

/// Any bytes for a slice or a tray.
fn filling(random: &mut Random) -> u32 {
    random.below(1 << 16) as u32
}

/// One of each; if the slice were good, most of them would be.
fn calls_on(random: &mut Random, contents: &Contents, slice: &Slice) -> String {
    let known = contents.some_number(random);
    let number = contents.any_number(random);
    file(slice.length, filling(random), &slice.rows)
        + &adding(number, 51, filling(random))
        + &finding(known)
        + &taking_out(known)
}

/// In a used row or the first unused one; half of them in an order number.
fn changed_bit(random: &mut Random, contents: &Contents) -> String {
    let mut slice = Slice::of(contents);
    let used = slice.rows.len();
    let at = random.below((used + 1).min(ROWS));
    slice.rows.resize(used.max(at + 1), [0; 3]);
    let (field, bits) = random.one_of(&[(0, 16), (0, 16), (1, 32), (2, 32)]);
    slice.rows[at][field] ^= 1 << random.below(bits);
    calls_on(random, contents, &slice)
}
