//! Session scripts made from a kind and a seed, to be played by two implementations. While a
//! script grows the reference answers it by today's rules, so a seed's script changes only if
//! these answers do. Questions about the calendar, the tariff, the check digits and the lot file
//! are made from a seed alone.

pub mod calendar;
pub mod check_digits;
pub mod lot_file;
pub mod tariff;

mod calls;
mod centre;
mod choice;
mod clocks;
mod course;
mod damaged;
mod draft;
mod edged_sends;
mod edges;
mod end;
mod evening;
mod fields;
mod foreign;
mod full;
mod lines;
mod many;
mod memory;
mod message;
mod ordinary;
mod text;

use crate::random::Random;
use draft::Draft;
use evening::Evening;

#[derive(Clone, Copy, Debug, PartialEq, Eq)]
pub enum Kind {
    /// Good evenings in both directions.
    Ordinary,
    /// Loss, repetition, delay and reordering, and clocks that jump.
    BadLine,
    /// Damaged and random bytes.
    Damaged,
    /// Fields at and next to their limits.
    Edges,
    /// Lots of 2,600 documents and one more.
    FullLots,
    /// 64 lots and one more, dropped and duplicate ones in between.
    ManyLots,
    /// Short buffers, bad and second starts, ends without a session.
    Calls,
    /// Lines that cannot be read, among good ones.
    Text,
    /// More written bytes than are remembered.
    Memory,
    /// Clocks that differ, about the hours that decide on headers.
    Clocks,
}

impl Kind {
    pub const ALL: [Kind; 10] = [
        Kind::Ordinary,
        Kind::BadLine,
        Kind::Damaged,
        Kind::Edges,
        Kind::FullLots,
        Kind::ManyLots,
        Kind::Calls,
        Kind::Text,
        Kind::Memory,
        Kind::Clocks,
    ];

    /// How many seeds a usual run takes; the large scripts are few.
    pub fn scripts(self) -> u64 {
        match self {
            Kind::Ordinary => 500,
            Kind::BadLine => 900,
            Kind::Damaged => 600,
            Kind::Edges => 900,
            Kind::FullLots => 40,
            Kind::ManyLots => 100,
            Kind::Calls => 500,
            Kind::Text => 400,
            Kind::Memory => 6,
            Kind::Clocks => 500,
        }
    }
}

pub fn script(kind: Kind, seed: u64) -> Vec<u8> {
    let random = Random::new(seed.wrapping_mul(16).wrapping_add(kind as u64));
    let mut evening = Evening::new(Draft::new(random));
    match kind {
        Kind::Ordinary => ordinary::play(&mut evening),
        Kind::BadLine => lines::play(&mut evening),
        Kind::Damaged => damaged::play(&mut evening),
        Kind::Edges => edges::play(&mut evening),
        Kind::FullLots => full::play(&mut evening),
        Kind::ManyLots => many::play(&mut evening),
        Kind::Calls => calls::play(&mut evening),
        Kind::Text => text::play(&mut evening),
        Kind::Memory => memory::play(&mut evening),
        Kind::Clocks => clocks::play(&mut evening),
    }
    evening.draft.script()
}
