//! The lots of a good file, from which its rows follow.

use crate::lot_file::lots::{is_count, is_order_number, LAST_NUMBER, MOST_DOCUMENTS};
use crate::lot_file::table::{ROWS, TABLE};
use crate::lot_file_script::{file, Row};
use crate::random::Random;
use crate::session::detail::DOCUMENT;

#[derive(Clone, Copy, Debug)]
pub struct Lot {
    pub number: u32,
    pub documents: u32,
}

impl Lot {
    pub fn length(&self) -> usize {
        DOCUMENT * self.documents as usize
    }
}

#[derive(Clone, Debug, Default)]
pub struct Contents {
    pub lots: Vec<Lot>,
    /// The bytes past the last body.
    pub room: usize,
}

impl Contents {
    /// Lots with these numbers and so many documents each.
    pub fn of(numbers: impl IntoIterator<Item = u32>, documents: u32, room: usize) -> Contents {
        let lots = numbers.into_iter().map(|number| Lot { number, documents });
        let lots = lots.collect();
        Contents { lots, room }
    }

    pub fn end(&self) -> usize {
        TABLE + self.lots.iter().map(Lot::length).sum::<usize>()
    }

    pub fn length(&self) -> usize {
        self.end() + self.room
    }

    pub fn rows(&self) -> Vec<Row> {
        let mut start = TABLE;
        let row = |lot: &Lot| {
            let row = [lot.number, start as u32, lot.documents];
            start += lot.length();
            row
        };
        self.lots.iter().map(row).collect()
    }

    /// The question that makes the file, filled from a seed.
    pub fn file(&self, seed: u32) -> String {
        file(self.length(), seed, &self.rows())
    }

    pub fn place(&self, number: u32) -> Option<usize> {
        self.lots.iter().position(|lot| lot.number == number)
    }

    /// If the call is not refused.
    pub fn add(&mut self, number: u32, length: usize) {
        let documents = (length / DOCUMENT) as u32;
        let taken = is_order_number(number)
            && self.place(number).is_none()
            && length.is_multiple_of(DOCUMENT)
            && is_count(documents.into())
            && self.lots.len() < ROWS
            && length <= self.room;
        if taken {
            self.room -= length;
            self.lots.push(Lot { number, documents });
        }
    }

    /// If there is such a lot.
    pub fn take_out(&mut self, number: u32) {
        if let Some(at) = self.place(number) {
            self.room += self.lots.remove(at).length();
        }
    }

    pub fn any(random: &mut Random) -> Contents {
        let any = random.within(3, ROWS - 1);
        let count = random.one_of(&[0, 1, 2, 3, any, any, ROWS - 1, ROWS]);
        let mut contents = Contents::default();
        contents.fill_up(random, count);
        contents.room = room(random);
        contents
    }

    /// Until there are so many lots.
    pub fn fill_up(&mut self, random: &mut Random, count: usize) {
        while self.lots.len() < count {
            let number = self.new_number(random);
            let documents = documents(random);
            self.lots.push(Lot { number, documents });
        }
    }

    /// That no lot has. Some are like one of a lot in either byte, or once they are cut to fewer
    /// digits.
    pub fn new_number(&self, random: &mut Random) -> u32 {
        loop {
            let any = random.within(1, LAST_NUMBER as usize) as u32;
            let near = self.some_number(random);
            let turned = u32::from((near as u16).swap_bytes());
            let like = [near + 1, near + 256, near + 1_000, near ^ 0x100, turned];
            let number = match random.below(8) {
                0 => random.one_of(&[1, 2, 255, 256, 257, LAST_NUMBER - 1, LAST_NUMBER]),
                1 | 2 => random.one_of(&like),
                _ => any,
            };
            if is_order_number(number) && self.place(number).is_none() {
                return number;
            }
        }
    }

    /// Of a lot, the first and the last more often; any if there is none.
    pub fn some_number(&self, random: &mut Random) -> u32 {
        let any = random.within(1, LAST_NUMBER as usize) as u32;
        match self.lots.as_slice() {
            [] => any,
            lots @ [first, .., last] => {
                let within = random.one_of(lots);
                random.one_of(&[first, last, &within, &within]).number
            }
            [only] => only.number,
        }
    }

    /// Out of range. Some are those of a lot once they are cut to fewer bits.
    pub fn bad_number(&self, random: &mut Random) -> u32 {
        let near = self.some_number(random);
        let bits = random.within(1, 0xFFFF) as u32;
        let cut = [65_536 + near, bits << 16 | near, 1 << 31 | near];
        let next = LAST_NUMBER + 1;
        let others = [0, 0, next, next, 65_535, 65_536, u32::MAX];
        match random.below(2) {
            0 => random.one_of(&cut),
            _ => random.one_of(&others),
        }
    }

    /// Of a lot, of none and out of range.
    pub fn any_number(&self, random: &mut Random) -> u32 {
        match random.below(5) {
            0 | 1 => self.some_number(random),
            2 | 3 => self.new_number(random),
            _ => self.bad_number(random),
        }
    }
}

/// Mostly few.
fn documents(random: &mut Random) -> u32 {
    let count = match random.below(256) {
        0 => random.within(2_590, MOST_DOCUMENTS as usize),
        1..=32 => random.within(1, 60),
        _ => random.within(1, 4),
    };
    count as u32
}

fn room(random: &mut Random) -> usize {
    let whole = DOCUMENT * random.within(1, 20);
    let any = random.within(0, 1_000);
    let most = DOCUMENT * MOST_DOCUMENTS as usize;
    match random.below(16) {
        0 => random.one_of(&[most - 1, most, most + DOCUMENT]),
        1..=3 => random.one_of(&[0, 1, 50]),
        4..=10 => whole - 1 + random.below(3),
        _ => any,
    }
}
