//! Lot file questions of a seed, and those that every run asks.

use super::Script;
use crate::generate::lot_file::contents::{Contents, Lot};
use crate::generate::lot_file::{questions, SEEDS};
use crate::lot_file_script::{adding, file, finding, taking_out, Row, CHECK};
use crate::session::detail::DOCUMENT;

pub fn of_seed(seed: u64) -> Script {
    Script::new(&format!("lot file, seed {seed}"), questions(seed))
}

/// Those of as many seeds as a usual run takes.
pub fn generated() -> Vec<Script> {
    (0..SEEDS).map(of_seed).collect()
}

pub fn fixed() -> Vec<Script> {
    let texts = [
        ("named", NAMED.into()),
        ("numbers", numbers()),
        ("trays", trays()),
        ("room", room()),
        ("broken rules", broken_rules()),
        ("single bits", single_bits()),
        ("two alike", two_alike()),
        ("lengths", lengths()),
        ("order of codes", order_of_codes()),
        ("taken out in every order", taken_out_in_every_order()),
        ("full table", full_table()),
        ("greatest file", greatest_file()),
    ];
    let script = |(name, text)| Script::new(&format!("lot file, {name}"), text);
    texts.map(script).into()
}

/// What the papers name, the open points among it.
const NAMED: &str = "\
file 639 1
file 640 1
add 7 51 2
file 690 1 7 640 1
file 691 1 7 640 1
find 7
find 8
add 7 51 2
add 8 51 2
take 8
take 7
find 7
add 8 51 3
check
file 691 1 0 0 0 7 640 1
find 7
take 7
add 7 51 2
file 742 1 7 640 1 8 691 1
take 7
add 7 51 2
file 133240 1 7 640 2600
file 133291 1 7 640 2601
";

/// One after the other on the same slice.
fn all_calls(number: u32) -> String {
    finding(number) + &adding(number, DOCUMENT, 2) + &taking_out(number) + CHECK
}

const NUMBERS: [u32; 24] = [
    0,
    1,
    2,
    6,
    7,
    8,
    255,
    256,
    257,
    263,
    1_792,
    9_998,
    9_999,
    10_000,
    10_001,
    32_775,
    65_535,
    65_536,
    65_537,
    65_543,
    75_535,
    1 << 31,
    (1 << 31) + 7,
    u32::MAX,
];

/// With some lots, with none, and with a full table.
fn numbers() -> String {
    let mut text = String::new();
    for lots in [&[7, 9_999, 1][..], &[256, 7], &[]] {
        let contents = Contents::of(lots.iter().copied(), 2, 2 * DOCUMENT);
        for number in NUMBERS {
            text += &contents.file(number);
            text += &all_calls(number);
        }
    }
    for number in NUMBERS {
        text += &full(DOCUMENT).file(1);
        text += &all_calls(number);
    }
    text
}

const LENGTHS: [usize; 16] = [
    0, 1, 50, 51, 52, 101, 102, 103, 132_549, 132_599, 132_600, 132_601, 132_650, 132_651, 132_652,
    3_342_387,
];

/// With room for every lot and for none, the number new or not. The last is one document once its
/// count is cut to 16 bits.
fn trays() -> String {
    let mut text = String::new();
    for room in [140_000, 0] {
        let contents = Contents::of([7], 1, room);
        for length in LENGTHS {
            text += &contents.file(length as u32);
            text += &adding(7, length, 2);
            text += &adding(8, length, 3);
            text += CHECK;
        }
    }
    text
}

/// A few bytes more and less than the lot needs, behind no lot and behind some.
fn room() -> String {
    let mut text = String::new();
    for held in [0, 1, 3, 63] {
        for documents in [1, 2, 200, 2_600] {
            let needed = DOCUMENT * documents;
            for room in [0, needed - DOCUMENT, needed - 1, needed, needed + 1] {
                text += &Contents::of(1..=held, 1, room).file(1);
                text += &adding(9_999, needed, 2);
                text += &adding(9_998, DOCUMENT, 3);
                text += &taking_out(1);
                text += &adding(9_997, needed, 4);
            }
        }
    }
    text
}

/// Three good rows, and behind the last body as much as two documents need.
const GOOD: [Row; 3] = [[7, 640, 2], [9_999, 742, 1], [1, 793, 3]];
const GOOD_LENGTH: usize = 1_048;

/// Another row in each place in turn; each body and those behind it moved by a byte; an unused row
/// before each and behind the last. Some of these slices are good.
fn broken_rules() -> String {
    let mut text = String::new();
    for at in 0..=GOOD.len() {
        for row in instead_of(at) {
            let mut rows = GOOD.to_vec();
            rows.truncate(at);
            rows.push(row);
            rows.extend(GOOD.iter().skip(at + 1));
            text += &asked_of_all(GOOD_LENGTH, &rows);
        }
        let (mut up, mut down, mut with_unused) = (GOOD, GOOD, GOOD.to_vec());
        up[at.min(2)..].iter_mut().for_each(|row| row[1] += 1);
        down[at.min(2)..].iter_mut().for_each(|row| row[1] -= 1);
        with_unused.insert(at, UNUSED);
        for rows in [&up[..], &down, &with_unused] {
            text += &asked_of_all(GOOD_LENGTH + 1, rows);
        }
    }
    text + &behind_the_used_rows()
}

const UNUSED: Row = [0; 3];

/// In the place of a good row, or behind the last: partly zero, with a number out of range or of
/// another row, too many documents, and another start.
fn instead_of(at: usize) -> Vec<Row> {
    let [number, start, documents] = *GOOD.get(at).unwrap_or(&[8, 946, 1]);
    let mut rows = vec![
        [number, start, documents],
        UNUSED,
        [0, start, documents],
        [number, 0, documents],
        [number, start, 0],
        [0, 0, documents],
        [0, start, 0],
        [number, 0, 0],
    ];
    let numbers = [10_000, 10_001, 65_535, 9_998, 7, 9_999, 1];
    let counts = [1, 2, 3, 4, 5, 2_600, 2_601, 65_537, 1 << 24, u32::MAX];
    let near = [1, 51, 102, 640].map(|by| [start - by, start + by]);
    let far = [start.swap_bytes(), 65_536 + start, u32::MAX];
    let starts = [near.as_flattened(), &far].concat();
    rows.extend(numbers.map(|number| [number, start, documents]));
    rows.extend(counts.map(|documents| [number, start, documents]));
    rows.extend(starts.iter().map(|&start| [number, start, documents]));
    rows
}

/// Something in a later row, with unused ones before it.
fn behind_the_used_rows() -> String {
    let mut text = String::new();
    for at in [4, 5, 62, 63] {
        for row in [[8, 946, 1], [8, 0, 0], [0, 946, 0], [0, 0, 1], [7, 640, 2]] {
            let mut rows = GOOD.to_vec();
            rows.resize(at, UNUSED);
            rows.push(row);
            text += &asked_of_all(GOOD_LENGTH, &rows);
        }
    }
    text
}

/// Each call on the slice as it was made.
fn asked_of_all(length: usize, rows: &[Row]) -> String {
    let made = file(length, 1, rows);
    let calls = [
        finding(7),
        adding(8, DOCUMENT, 2),
        taking_out(7),
        CHECK.into(),
    ];
    calls.map(|call| made.clone() + &call).concat()
}

/// Every bit of the three rows and of the first unused one.
fn single_bits() -> String {
    let mut text = String::new();
    for at in 0..=GOOD.len() {
        for (field, bits) in [(0, 16), (1, 32), (2, 32)] {
            for bit in 0..bits {
                let mut rows = [&GOOD[..], &[UNUSED]].concat();
                rows[at][field] ^= 1 << bit;
                text += &file(GOOD_LENGTH, 1, &rows);
                text += &finding(1);
            }
        }
    }
    text
}

/// How many lots there are, and which two of them have the same number.
const ALIKE: [(u32, usize, usize); 12] = [
    (2, 0, 1),
    (3, 0, 1),
    (3, 0, 2),
    (3, 1, 2),
    (5, 0, 4),
    (5, 1, 3),
    (64, 0, 1),
    (64, 0, 32),
    (64, 0, 63),
    (64, 31, 32),
    (64, 31, 63),
    (64, 62, 63),
];

fn two_alike() -> String {
    let mut text = String::new();
    for (count, earlier, later) in ALIKE {
        let mut contents = Contents::of(1..=count, 1, DOCUMENT);
        contents.lots[later].number = contents.lots[earlier].number;
        text += &contents.file(1);
        text += &all_calls(contents.lots[earlier].number);
        text += &all_calls(9_999);
    }
    text
}

/// The slice cut to many lengths, with rows and without.
fn lengths() -> String {
    let mut text = String::new();
    let short = [0, 1, 9, 10, 11, 30, 638, 639, 640, 641, 690, 691, 692];
    let about_the_end = 940..=GOOD_LENGTH;
    for length in short.into_iter().chain(about_the_end) {
        for rows in [&GOOD[..], &GOOD[..1], &[]] {
            text += &file(length, 1, rows);
            text += &adding(8, DOCUMENT, 2);
            text += &finding(7);
            text += &taking_out(7);
        }
    }
    text
}

/// Every choice of a bad slice, a bad number or one of a lot, a bad tray, a full table and too
/// little room.
fn order_of_codes() -> String {
    let mut text = String::new();
    for used in [1, 63, 64] {
        for room in [0, DOCUMENT - 1, DOCUMENT, 3 * DOCUMENT] {
            let good = Contents::of(1..=used, 1, room);
            let mut bad = good.clone();
            bad.lots[0].number = 10_000;
            text += &with_all_choices(&good);
            text += &with_all_choices(&bad);
        }
    }
    text
}

fn with_all_choices(contents: &Contents) -> String {
    let mut text = String::new();
    for number in [0, 10_000, 65_537, 1, 9_000] {
        for length in [0, 50, 51, 52, 102, 132_600, 132_651] {
            text += &contents.file(1);
            text += &adding(number, length, 2);
        }
        text += &contents.file(1);
        text += &finding(number);
        text += &taking_out(number);
    }
    text
}

/// Four lots, each order of them; after each one another takes its room. Where the order has a lot
/// twice, it is absent then.
fn taken_out_in_every_order() -> String {
    let lots = [(7, 2), (9_999, 1), (300, 5), (1, 3)];
    let lots = lots.map(|(number, documents)| Lot { number, documents });
    let contents = Contents {
        lots: lots.into(),
        room: 30,
    };
    let mut text = String::new();
    for order in 0..64 {
        let places = [order % 4, order / 4 % 4, order / 16 % 4];
        text += &contents.file(1);
        for (at, place) in places.into_iter().enumerate() {
            text += &taking_out(lots[place].number);
            text += &adding(2 + at as u32, lots[place].length(), 2);
        }
        text += &of_each(&[1, 2, 3, 4, 7, 300, 9_999], finding);
    }
    text
}

/// 64 lots, 7 among them.
fn full(room: usize) -> Contents {
    let numbers = [7].into_iter().chain((1..64).map(|at| 100 * at));
    Contents::of(numbers, 2, room)
}

/// Found; taken out from the front, each time with another lot behind the last; taken out from the
/// back and from within.
fn full_table() -> String {
    let mut text = String::new();
    for room in [0, DOCUMENT, 1_000] {
        let contents = full(room);
        let numbers: Vec<u32> = contents.lots.iter().map(|lot| lot.number).collect();
        text += &contents.file(1);
        text += &of_each(&numbers, finding);
        text += &of_each(&[7, 8, 0], |number| adding(number, DOCUMENT, 2));
        text += &of_each(&[9, 10_000], taking_out);
        for (at, number) in numbers.iter().enumerate() {
            text += &taking_out(*number);
            text += &adding(8 + at as u32, 2 * DOCUMENT, 3);
            text += &adding(9_000, DOCUMENT, 4);
        }
        let back: Vec<u32> = numbers.iter().rev().copied().collect();
        let within: Vec<u32> = (0..64).map(|at| numbers[at * 37 % 64]).collect();
        for order in [back, within] {
            text += &contents.file(2);
            text += &of_each(&order, taking_out);
            text += CHECK;
        }
    }
    text
}

fn of_each(numbers: &[u32], question: fn(u32) -> String) -> String {
    numbers.iter().map(|&number| question(number)).collect()
}

/// 64 lots of 2,600 documents; then one byte less, and one document more in the last lot.
fn greatest_file() -> String {
    let contents = Contents::of(1..=64, 2_600, 0);
    let most = contents.lots[0].length();
    let mut longer = contents.rows();
    longer[63][2] = 2_601;
    let mut text = contents.file(1);
    text += &of_each(&[64, 1, 65], finding);
    text += &adding(65, DOCUMENT, 2);
    text += &taking_out(2);
    text += &adding(65, most + DOCUMENT, 2);
    text += &adding(65, most, 2);
    text += &of_each(&[65, 64], finding);
    text += &taking_out(65);
    text += &file(contents.length() - 1, 1, &contents.rows());
    text += &file(contents.length() + DOCUMENT, 1, &longer);
    text
}
