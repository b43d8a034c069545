//! The line's lot file against that of the reference, every byte of the slice: given and generated
//! slices and calls on them; and what must hold of every file that is added to and taken from.
//!
//! `LONG=n` takes n times as many seeds, `SEED=s` begins with another seed than 0.

use reference::compare::questions::Both;
use reference::corpus::lot_file::{fixed, of_seed};
use reference::generate::lot_file::contents::Contents;
use reference::generate::lot_file::SEEDS;
use reference::line;
use reference::lot_file::calls::Found;
use reference::lot_file_in_place::IN_PLACE;
use reference::lot_file_script::{self, slice, tray, LotFile};
use reference::questions::numbers;
use reference::random::Random;
use reference::seeds::seeds;

const ENGINE: LotFile = LotFile {
    add: line::lot_file_add,
    take_out: line::lot_file_take_out,
    find: line::lot_file_find,
    check: line::lot_file_check,
};

fn engine(text: &[u8]) -> Vec<u8> {
    ENGINE.play(text)
}

const BOTH: Both = Both {
    reference: lot_file_script::play,
    engine,
};

/// The calls in place in the line's stead.
const IN_PLACE_ONES: Both = Both {
    reference: lot_file_script::play,
    engine: |text| IN_PLACE.play(text),
};

/// How many the usual number of seeds gives at the least.
const LEAST: [(&str, u64); 17] = [
    ("good slice", 230),
    ("bad slice", 1_210),
    ("checked", 120),
    ("added", 490),
    ("added, number known", 170),
    ("added, no room", 310),
    ("added, bad number", 480),
    ("added, bad tray", 260),
    ("added to a bad slice", 960),
    ("last taken out", 230),
    ("taken out, others moved", 380),
    ("taken out, absent", 170),
    ("taken out, bad number", 60),
    ("taken out of a bad slice", 1_210),
    ("found", 410),
    ("found, absent", 230),
    ("found, bad number or slice", 1_340),
];

/// Beside a code nothing may have changed. A body that is written may find its own bytes there.
fn kind(question: &str, answer: &str) -> &'static str {
    let asked: Vec<&str> = question.split(' ').collect();
    let answered: Vec<&str> = answer.split(' ').collect();
    let changes = &answered[if asked[0] == "find" { 3 } else { 1 }..];
    match (asked[0], answered[0], changes) {
        ("file", "00", ["-"]) => "good slice",
        ("file", "25", ["-"]) => "bad slice",
        ("check", "00", ["-"]) => "checked",
        ("add" | "take", "00", ["-"]) => "nothing done",
        ("add", "00", [_] | [_, _]) => "added",
        ("add", "04", ["-"]) => "added, number known",
        ("add", "45", ["-"]) => "added, no room",
        ("add", "25", ["-"]) => kind_of_bad_adding(&numbers(&asked[1..])),
        ("take", "00", [_]) => "last taken out",
        ("take", "00", [_, _]) => "taken out, others moved",
        ("take", "46", ["-"]) => "taken out, absent",
        ("take", "25", ["-"]) => kind_of_bad_taking(&numbers(&asked[1..])),
        ("find", "00", ["-"]) => "found",
        ("find", "46", ["-"]) => "found, absent",
        ("find", "25", ["-"]) => "found, bad number or slice",
        _ => "no answer",
    }
}

fn is_order_number(number: u32) -> bool {
    number != 0 && number.to_string().len() <= 4
}

fn kind_of_bad_adding(asked: &[u32]) -> &'static str {
    let (number, length) = (asked[0], asked[1]);
    match (is_order_number(number), length % 51, length / 51) {
        (false, _, _) => "added, bad number",
        (true, 0, 1..=2_600) => "added to a bad slice",
        (true, _, _) => "added, bad tray",
    }
}

fn kind_of_bad_taking(asked: &[u32]) -> &'static str {
    match is_order_number(asked[0]) {
        false => "taken out, bad number",
        true => "taken out of a bad slice",
    }
}

#[test]
fn the_line_answers_fixed_questions_like_the_reference() {
    BOTH.ask_fixed(fixed());
}

#[test]
fn the_line_answers_generated_questions_like_the_reference() {
    BOTH.ask_seeds(SEEDS, of_seed, kind, &LEAST);
}

#[test]
fn the_calls_in_place_answer_like_the_reference() {
    IN_PLACE_ONES.ask_fixed(fixed());
    IN_PLACE_ONES.ask_seeds(SEEDS, of_seed, kind, &LEAST);
}

/// Each code that a call can give, and how many of them there are at the least.
#[test]
fn the_fixed_questions_get_every_code() {
    let texts = fixed();
    let answers: Vec<String> = texts.iter().map(|made| BOTH.answers(made)).collect();
    for (code, least) in [
        ("00 ", 3_800),
        ("04 ", 50),
        ("25 ", 3_500),
        ("45 ", 500),
        ("46 ", 550),
    ] {
        let lines = answers.iter().flat_map(|text| text.lines());
        let count = lines.filter(|answer| answer.starts_with(code)).count();
        println!("{code}: {count}");
        assert!(count >= least, "{code}: {count} are few");
    }
}

const EACH: [LotFile; 3] = [LotFile::REFERENCE, IN_PLACE, ENGINE];

/// A good file as it was made.
struct Made {
    contents: Contents,
    bytes: Vec<u8>,
    random: Random,
}

/// Of each seed one, with so many lots at the most and this change in what it holds.
fn made(most: usize, change: fn(&mut Contents)) -> impl Iterator<Item = Made> {
    seeds(100).map(move |seed| {
        let mut random = Random::new(seed);
        let mut contents = Contents::any(&mut random);
        contents.fill_up(&mut random, 2);
        contents.lots.truncate(most);
        change(&mut contents);
        let bytes = slice(contents.length(), seed as u32, &contents.rows());
        Made {
            contents,
            bytes,
            random,
        }
    })
}

/// What the lot with this number reads.
fn body<'a>(asked: &LotFile, file: &'a [u8], number: u32) -> &'a [u8] {
    let found = (asked.find)(file, number);
    assert_eq!(found.code, 0, "{number}");
    &file[found.start as usize..][..51 * found.documents as usize]
}

/// Every lot of the contents but one with this number.
fn others_read_the_same(asked: &LotFile, made: &Made, after: &[u8], but: u32) {
    let others = made.contents.lots.iter().filter(|lot| lot.number != but);
    for lot in others {
        let before = body(asked, &made.bytes, lot.number);
        assert_eq!(before.len(), lot.length());
        assert!(before == body(asked, after, lot.number), "{lot:?}");
    }
    assert_eq!((asked.check)(after), 0);
}

#[test]
fn a_lot_reads_what_was_added_and_the_others_as_before() {
    for mut made in made(63, |contents| contents.room += 3 * 51) {
        let number = made.contents.new_number(&mut made.random);
        let most = (made.contents.room / 51).min(2_600);
        for documents in [1, 2, most] {
            let tray = tray(51 * documents, number);
            for asked in EACH {
                let mut file = made.bytes.clone();
                assert_eq!((asked.add)(&mut file, number, &tray), 0);
                assert!(body(&asked, &file, number) == tray);
                others_read_the_same(&asked, &made, &file, number);
                let end = made.contents.end() + tray.len();
                assert!(file[end..] == made.bytes[end..]);
            }
        }
    }
}

#[test]
fn adding_then_taking_out_gives_the_table_and_bodies_of_before() {
    for mut made in made(63, |contents| contents.room += 51) {
        let number = made.contents.new_number(&mut made.random);
        let (tray, end) = (tray(51, number), made.contents.end());
        for asked in EACH {
            let mut file = made.bytes.clone();
            assert_eq!((asked.add)(&mut file, number, &tray), 0);
            assert!(file[..end] != made.bytes[..end]);
            assert_eq!((asked.take_out)(&mut file, number), 0);
            assert!(file[..end] == made.bytes[..end]);
            assert!(file[end..end + 51] == tray);
            assert!(file[end + 51..] == made.bytes[end + 51..]);
        }
    }
}

#[test]
fn taking_out_leaves_the_other_lots_and_the_bytes_past_them() {
    for mut made in made(64, |_| ()) {
        let lots = &made.contents.lots;
        let any = made.random.one_of(lots);
        for lot in [lots[0], any, lots[lots.len() - 1]] {
            for asked in EACH {
                let mut file = made.bytes.clone();
                assert_eq!((asked.take_out)(&mut file, lot.number), 0);
                assert_eq!((asked.find)(&file, lot.number), Found::refused(46));
                others_read_the_same(&asked, &made, &file, lot.number);
                let end = made.contents.end() - lot.length();
                assert!(file[end..] == made.bytes[end..]);
            }
        }
    }
}

/// Two lots taken out in either order, as far as the file is used then.
#[test]
fn the_order_of_taking_out_does_not_count() {
    for mut made in made(64, |_| ()) {
        let lots = &made.contents.lots;
        let first = made.random.below(lots.len() - 1);
        let second = made.random.within(first + 1, lots.len() - 1);
        let (first, second) = (lots[first], lots[second]);
        let end = made.contents.end() - first.length() - second.length();
        for asked in EACH {
            let [one, other] = [[first, second], [second, first]].map(|order| {
                let mut file = made.bytes.clone();
                let codes = order.map(|lot| (asked.take_out)(&mut file, lot.number));
                assert_eq!(codes, [0, 0]);
                file
            });
            assert!(one[..end] == other[..end]);
        }
    }
}

/// Of a file without room, any of its lots makes room for one as long as itself, and for no longer.
#[test]
fn what_is_freed_serves_the_next_lot() {
    for mut made in made(64, |contents| contents.room = 50) {
        let new = made.contents.new_number(&mut made.random);
        let lot = made.random.one_of(&made.contents.lots);
        let (as_long, longer) = (tray(lot.length(), new), tray(lot.length() + 51, new));
        let too_long = if lot.documents < 2_600 { 45 } else { 25 };
        for asked in EACH {
            let mut file = made.bytes.clone();
            assert_eq!((asked.add)(&mut file, new, &as_long), 45);
            assert!(file == made.bytes);
            assert_eq!((asked.take_out)(&mut file, lot.number), 0);
            assert_eq!((asked.add)(&mut file, new, &longer), too_long);
            assert_eq!((asked.add)(&mut file, new, &as_long), 0);
            assert!(body(&asked, &file, new) == as_long);
            others_read_the_same(&asked, &made, &file, lot.number);
        }
    }
}

/// If its length were cut to 32 bits, no room would be left, or not even the table's. Only its
/// first pages are ever touched.
#[test]
fn a_slice_of_more_than_32_bits() {
    let mut file = vec![0; (1 << 32) + 650];
    for asked in EACH {
        assert_eq!((asked.add)(&mut file, 7, &[0x55; 102]), 0);
        assert_eq!((asked.add)(&mut file[..1 << 32], 8, &[0x66; 51]), 0);
        assert_eq!((asked.check)(&file), 0);
        assert_eq!(body(&asked, &file, 8), [0x66; 51]);
        assert_eq!((asked.take_out)(&mut file, 7), 0);
        assert_eq!(body(&asked, &file, 8), [0x66; 51]);
        assert_eq!(file[691..742], [0x55; 51]);
        assert_eq!((asked.take_out)(&mut file, 8), 0);
        assert_eq!(file[..640], [0; 640]);
    }
}
