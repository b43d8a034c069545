//! Lot file questions as text, a line each. The first makes a slice, the others are calls on it as
//! those before them have left it.
//!
//! | question | answer |
//! | --- | --- |
//! | `file LENGTH SEED NUMBER START DOCUMENTS ...` | what the check says to it |
//! | `check` | the code |
//! | `add NUMBER LENGTH SEED` | the code |
//! | `take NUMBER` | the code |
//! | `find NUMBER` | the code, the start and the documents |
//!
//! A length counts bytes, which come from a seed. A slice begins with the rows that are given and
//! zeros to the table's end, or as much of that as it is long. Behind each answer stands which
//! bytes of the slice the call has changed, and before that `tray` if it has changed the tray.

use crate::lent::Lent;
use crate::lot_file::calls::{add, check, find, take_out, Found};
use crate::questions::{answered, line, numbers};
use crate::random::Random;
use std::hint::black_box;

/// Order number, start and documents.
pub type Row = [u32; 3];

/// Stated apart from the reference, so that a fault there leaves the questions as they are.
const TABLE: usize = 640;

pub const CHECK: &str = "check\n";

pub fn file(length: usize, seed: u32, rows: &[Row]) -> String {
    line(&format!("file {length} {seed}"), rows.as_flattened())
}

pub fn adding(number: u32, length: usize, seed: u32) -> String {
    format!("add {number} {length} {seed}\n")
}

pub fn taking_out(number: u32) -> String {
    format!("take {number}\n")
}

pub fn finding(number: u32) -> String {
    format!("find {number}\n")
}

/// The slice that such a question makes.
pub fn slice(length: usize, seed: u32, rows: &[Row]) -> Vec<u8> {
    let mut bytes: Vec<u8> = rows.iter().flat_map(row).collect();
    bytes.resize(length.max(TABLE), 0);
    Random::new(seed.into()).fill(&mut bytes[TABLE..]);
    bytes.truncate(length);
    bytes
}

/// The number has no more than 16 bits.
fn row(&[number, start, documents]: &Row) -> Vec<u8> {
    let [number, start, documents] = [number, start, documents].map(u32::to_be_bytes);
    [&number[2..], &start, &documents].concat()
}

pub fn tray(length: usize, seed: u32) -> Vec<u8> {
    let mut bytes = vec![0; length];
    Random::new(seed.into()).fill(&mut bytes);
    bytes
}

/// The four functions that are asked.
#[derive(Clone, Copy)]
pub struct LotFile {
    pub add: fn(&mut [u8], u32, &[u8]) -> u8,
    pub take_out: fn(&mut [u8], u32) -> u8,
    pub find: fn(&[u8], u32) -> Found,
    pub check: fn(&[u8]) -> u8,
}

/// The answers of the reference.
pub fn play(text: &[u8]) -> Vec<u8> {
    LotFile::REFERENCE.play(text)
}

impl LotFile {
    pub const REFERENCE: LotFile = LotFile {
        add,
        take_out,
        find,
        check,
    };

    pub fn play(&self, text: &[u8]) -> Vec<u8> {
        let mut file = Lent::new(&[]);
        answered(text, |question, words| {
            let numbers: Vec<u32> = numbers(words);
            if question == "file" {
                let (rows, _) = numbers[2..].as_chunks();
                file = Lent::new(&slice(numbers[0] as usize, numbers[1], rows));
            }
            let before = file.clone();
            let answer = self.answer(question, &numbers, &mut file);
            format!("{answer} {}\n", file.changes(&before, TABLE))
        })
    }

    fn answer(&self, question: &str, numbers: &[u32], file: &mut Lent) -> String {
        match question {
            "file" | "check" => said((self.check)(file.bytes())),
            "add" => self.added(numbers, file),
            "take" => said((self.take_out)(file.bytes_mut(), numbers[0])),
            "find" => self.found(numbers[0], file),
            _ => panic!("{question} is no question"),
        }
    }

    fn added(&self, numbers: &[u32], file: &mut Lent) -> String {
        let tray = tray(numbers[1] as usize, numbers[2]);
        let before = tray.clone();
        let code = (self.add)(file.bytes_mut(), numbers[0], &tray);
        let changed = *black_box(&tray) != before;
        said(code) + if changed { " tray" } else { "" }
    }

    fn found(&self, number: u32, file: &Lent) -> String {
        let Found {
            code,
            start,
            documents,
        } = (self.find)(file.bytes(), number);
        format!("{} {start} {documents}", said(code))
    }
}

fn said(code: u8) -> String {
    format!("{code:02}")
}
