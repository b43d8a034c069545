//! Tray calls over lengths and cursors at and next to all limits.

use std::fmt::Write;

const LENGTHS: [usize; 6] = [0, 50, 51, 102, 10_200, 10_251];
/// The last but one has 50 as the lower 64 bits of its product with 51.
const CURSORS: [usize; 7] = [0, 1, 2, 200, 201, 361_700_864_190_383_366, usize::MAX];

pub fn text() -> Vec<u8> {
    let mut text = String::new();
    for presentations in LENGTHS {
        for returns in LENGTHS {
            for first in CURSORS {
                for second in CURSORS {
                    let _ = writeln!(text, "{presentations} {returns} {first} {second}");
                }
            }
        }
    }
    text.into_bytes()
}
