//! What card 7 and the open points say in numbers.

use super::calls::{add, check, find, take_out, Found};
use crate::lot_file_script::{slice, Row};
use crate::session::detail::DOCUMENT;

fn at(start: u64, documents: u64) -> Found {
    Found {
        code: 0,
        start,
        documents,
    }
}

/// Each lot's body is filled with one byte, so is what lies behind the last.
fn three_lots() -> Vec<u8> {
    let mut file = slice(900, 0, &[[7, 640, 1], [9_999, 691, 2], [1, 793, 1]]);
    file[640..691].fill(0x77);
    file[691..793].fill(0x99);
    file[793..844].fill(0x11);
    file[844..].fill(0xAA);
    file
}

#[test]
fn taking_out_moves_later_rows_and_bodies_down() {
    let before = three_lots();
    let mut file = before.clone();
    assert_eq!(take_out(&mut file, 9_999), 0);
    assert_eq!(file[..20], slice(20, 0, &[[7, 640, 1], [1, 691, 1]]));
    assert_eq!(file[20..640], [0; 620]);
    assert_eq!(file[640..691], before[640..691]);
    assert_eq!(file[691..742], before[793..844]);
    assert_eq!(file[742..], before[742..]);
    assert_eq!(find(&file, 1), at(691, 1));
    assert_eq!(find(&file, 9_999), Found::refused(46));
}

#[test]
fn what_is_freed_serves_the_next_lot_which_comes_last() {
    let mut file = three_lots();
    let tray = [0x55; 3 * DOCUMENT];
    assert_eq!(add(&mut file, 20, &tray), 45);
    assert_eq!(file, three_lots());
    assert_eq!(take_out(&mut file, 9_999), 0);
    let before = file.clone();
    assert_eq!(add(&mut file, 20, &tray), 0);
    assert_eq!(file[..20], before[..20]);
    assert_eq!(file[20..30], [0, 20, 0, 0, 0x02, 0xE6, 0, 0, 0, 3]);
    assert_eq!(file[30..742], before[30..742]);
    assert_eq!(file[742..895], tray);
    assert_eq!(file[895..], before[895..]);
    assert_eq!(find(&file, 20), at(742, 3));
}

#[test]
fn a_163_numbers_of_the_file() {
    assert_eq!(check(&[0; 640]), 0);
    assert_eq!(check(&[0; 639]), 25);
    assert_eq!(check(&[]), 25);
    let mut file = [0; 691];
    file[..10].copy_from_slice(&[0x00, 0x07, 0, 0, 0x02, 0x80, 0, 0, 0, 0x01]);
    assert_eq!(check(&file), 0);
    assert_eq!(find(&file, 7), at(640, 1));
    assert_eq!(check(&file[..690]), 25);
}

const UNUSED: Row = [0; 3];

#[test]
fn a_164_partly_zero_or_behind_an_unused_row() {
    let code = |rows: &[Row]| check(&slice(900, 0, rows));
    assert_eq!(code(&[UNUSED, [7, 640, 1]]), 25);
    assert_eq!(code(&[[7, 640, 1], UNUSED, [8, 691, 1]]), 25);
    for partly_zero in [[0, 640, 1], [7, 0, 1], [7, 640, 0], [0, 0, 1], [0, 640, 0]] {
        assert_eq!(code(&[partly_zero]), 25);
    }
    assert_eq!(code(&[[7, 640, 1], [8, 691, 1]]), 0);
    for start in [690, 692, 640, 742] {
        assert_eq!(code(&[[7, 640, 1], [8, start, 1]]), 25);
    }
    assert_eq!(code(&[[7, 640, 5]]), 0);
    assert_eq!(code(&[[7, 640, 6]]), 25);
}

#[test]
fn a_165_order_of_the_codes() {
    let numbers = [7].into_iter().chain(101..164);
    let rows: Vec<Row> = numbers.zip((640..).step_by(51)).map(one_document).collect();
    assert_eq!(rows.len(), 64);
    let full = slice(640 + 64 * 51, 0, &rows);
    let mut file = full.clone();
    let tray = [0x55; DOCUMENT];
    assert_eq!(add(&mut file, 7, &tray), 4);
    assert_eq!(add(&mut file, 8, &tray), 45);
    assert_eq!(add(&mut file, 0, &tray), 25);
    assert_eq!(add(&mut file, 7, &tray[1..]), 25);
    assert_eq!(take_out(&mut file, 9), 46);
    assert_eq!(take_out(&mut file, 10_000), 25);
    assert_eq!(file, full);
}

fn one_document((number, start): (u32, u32)) -> Row {
    [number, start, 1]
}

#[test]
fn a_166_the_lot_limit() {
    let code = |documents: u32| check(&slice(640 + 2_601 * 51, 0, &[[7, 640, documents]]));
    assert_eq!((code(2_600), code(2_601)), (0, 25));
    let trays = vec![0x55; 2_601 * DOCUMENT];
    let mut file = slice(640 + trays.len(), 0, &[]);
    assert_eq!(add(&mut file, 7, &trays), 25);
    assert_eq!(add(&mut file, 7, &trays[DOCUMENT..]), 0);
    assert_eq!(find(&file, 7), at(640, 2_600));
}

#[test]
fn a_167_the_greatest_file() {
    let starts = (640..).step_by(2_600 * 51);
    let rows = (1..=64)
        .zip(starts)
        .map(|(number, start)| [number, start, 2_600]);
    let rows: Vec<Row> = rows.collect();
    let file = slice(8_487_040, 0, &rows);
    assert_eq!(check(&file), 0);
    assert_eq!(check(&file[..8_487_039]), 25);
    assert_eq!(find(&file, 64), at(8_354_440, 2_600));
}
