//! The line's evening against that of the reference, and with trays that are not all good.

use reference::exchange::{of_two, trays, FilledTrays, FULL};
use reference::line::{self, Evening};
use reference::session::detail::DetailCheck;

const DOCUMENT: usize = 51;
const DRAWEE: usize = 31;
const NOMINAL: usize = 25;

fn of_line(near: &FilledTrays, far: &FilledTrays) -> Evening {
    line::exchange(near.both(), far.both())
}

/// With so many presentations and returns of each end.
fn compare(near: [usize; 2], far: [usize; 2]) {
    let near = trays(1, near[0], near[1], 72);
    let far = trays(2, far[0], far[1], 81);
    let expected = of_two(DetailCheck::PLAIN, &near, &far);
    assert_eq!(of_line(&near, &far), expected);
}

/// What is proved of every evening.
fn settled(evening: &Evening) {
    let (near, far) = (&evening.near_side, &evening.far_side);
    assert_eq!(near.received, far.presented);
    assert_eq!(far.received, near.presented);
    assert_eq!([near.awaited, far.awaited], [0, 0]);
}

#[test]
fn evenings_of_every_size() {
    let sizes = [
        [0, 0],
        [1, 0],
        [0, 1],
        [199, 0],
        [200, 201],
        [2_599, 0],
        [2_600, 0],
        [2_500, 101],
        [2_600, 2_601],
    ];
    for near in sizes {
        for far in sizes {
            compare(near, far);
        }
    }
}

#[test]
fn a_full_evening() {
    compare([FULL / 2, FULL / 2], [FULL, 0]);
}

/// The 64 lots are taken, and the rest stays.
#[test]
fn one_document_too_many() {
    let near = trays(1, FULL, 1, 72);
    let far = trays(2, 0, 0, 81);
    let evening = of_line(&near, &far);
    assert_eq!(evening.code, 0);
    settled(&evening);
    let taken = (
        evening.near_side.presented.lots,
        evening.near_side.presented.documents,
    );
    assert_eq!(taken, (64, FULL as u64));
}

#[test]
fn no_whole_documents() {
    let bytes = [0; 2 * DOCUMENT];
    let expected = Evening {
        code: 25,
        ..Evening::default()
    };
    for length in [1, 50, 52, 101] {
        for place in 0..4 {
            let mut lent: [&[u8]; 4] = [&[]; 4];
            lent[place] = &bytes[..length];
            let [presentations, returns, others, other_returns] = lent;
            let evening = line::exchange([presentations, returns], [others, other_returns]);
            assert_eq!(evening, expected);
        }
    }
}

/// The presenter finds a bad amount or a nominal of zero, the receiver a strange drawee. The parts
/// before are taken.
#[test]
fn a_bad_document_stays() {
    for at in [0, 199, 200, 2_599, 2_600, 3_333] {
        for (field, bytes) in [
            (NOMINAL, &[0xAA; 2][..]),
            (NOMINAL, &[0x00; 6]),
            (DRAWEE, &[0x99; 2]),
        ] {
            let mut near = trays(1, 4_000, 0, 72);
            let far = trays(2, 300, 300, 81);
            let bad = &mut near.presentations[at * DOCUMENT..][..DOCUMENT];
            bad[field..][..bytes.len()].copy_from_slice(bytes);
            let evening = of_line(&near, &far);
            assert_eq!(evening.code, 0);
            settled(&evening);
            assert_eq!(
                evening.near_side.presented.documents,
                (at / 200 * 200) as u64
            );
            assert_eq!(evening.far_side.presented.documents, 600);
        }
    }
}
