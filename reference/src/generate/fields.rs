//! The fields of every layout with the values at and next to their limits.

use super::message::packed;
use crate::packed;
use crate::random::Random;

/// So much more would be the same number in 8 bits.
pub const PAST_8_BITS: u64 = 1 << 8;
/// So much more would be the same number in 16 bits.
pub const PAST_16_BITS: u64 = 1 << 16;

/// A packed field at the paper's position; ends of amounts stand in the tables once more.
pub struct Field {
    first: usize,
    length: usize,
    edges: &'static [u64],
}

const fn field(first: usize, length: usize, edges: &'static [u64]) -> Field {
    Field {
        first,
        length,
        edges,
    }
}

const FREE: Field = field(1, 1, &[0, 1, 99]);
const FIFTY_ONE: Field = field(2, 1, &[33, 50, 51, 52]);
const OPERATION: Field = field(
    3,
    1,
    &[
        0, 1, 2, 30, 31, 40, 45, 80, 81, 86, 87, 88, 90, 91, 97, 98, 99,
    ],
);
const DAYS: &[u64] = &[0, 1, 14, 28, 29, 30, 31, 32];
const MONTHS: &[u64] = &[0, 1, 2, 3, 4, 12, 13];
const ENTITIES: &[u64] = &[0, 1, 72, 81, 9999];

#[rustfmt::skip]
pub const ENVELOPE: [Field; 7] = [
    field(1, 1, &[0, 1, 2, 3]), field(2, 1, DAYS), field(3, 1, MONTHS), field(4, 1, &[0, 28, 99]),
    field(5, 2, ENTITIES), field(7, 2, ENTITIES), field(9, 4, &[0, 1, 2, 99_999_999]),
];

#[rustfmt::skip]
pub const HEADER: [Field; 15] = [
    FREE, FIFTY_ONE, OPERATION,
    field(4, 1, &[0, 23, 24, 99]), field(5, 1, &[0, 59, 60, 99]), field(6, 1, &[0, 59, 60, 99]),
    field(7, 1, &[0, 59, 60, 99]), field(8, 1, DAYS), field(9, 1, MONTHS),
    field(10, 1, &[0, 28, 99]), field(11, 2, ENTITIES), field(13, 2, ENTITIES),
    field(15, 2, &[0, 1, 9999]),
    field(17, 2, &[0, 1, 9999]), field(19, 1, &[0, 1, 99]),
];

const NONE_OR_ONE: &[u64] = &[0, 1];

#[rustfmt::skip]
pub const LOT_TOTAL: [Field; 9] = [
    FREE, FIFTY_ONE, OPERATION, field(4, 2, &[0, 1, 9999]), field(6, 3, &[0, 1, 2600, 2601]),
    field(9, 8, NONE_OR_ONE), field(17, 6, NONE_OR_ONE),
    field(16, 1, NONE_OR_ONE), field(22, 1, NONE_OR_ONE),
];

#[rustfmt::skip]
pub const SESSION_TOTAL: [Field; 9] = [
    FREE, FIFTY_ONE, OPERATION, field(4, 2, &[0, 1, 64, 65]), field(6, 4, NONE_OR_ONE),
    field(10, 9, NONE_OR_ONE), field(19, 7, NONE_OR_ONE),
    field(18, 1, NONE_OR_ONE), field(25, 1, NONE_OR_ONE),
];

#[rustfmt::skip]
pub const REPLY: [Field; 4] = [
    FREE, FIFTY_ONE, field(3, 1, &[0, 1, 80, 85, 86, 87, 88, 90, 96, 97, 98]),
    field(4, 1, &[0, 1, 2, 3, 4, 5, 6, 7, 8, 9, 10, 11, 12, 13, 43, 44, 45, 99]),
];

pub const GROUP: [Field; 4] = [FREE, FIFTY_ONE, OPERATION, field(4, 1, &[0, 1, 2, 3, 4, 5])];

#[rustfmt::skip]
pub const DOCUMENT: [Field; 23] = [
    field(5, 5, NONE_OR_ONE), field(10, 2, &[0, 1, 99, 100, 7999, 8000, 8001, 8099, 8100, 9999]),
    field(12, 4, NONE_OR_ONE), field(16, 1, DAYS), field(17, 1, MONTHS),
    field(18, 2, ENTITIES), field(20, 2, ENTITIES), field(22, 1, &[0, 1, 2, 51, 52, 53]),
    field(23, 2, ENTITIES), field(25, 1, &[0, 1, 2, 51, 52, 53]), field(26, 2, ENTITIES),
    field(28, 2, ENTITIES), field(30, 6, &[0, 1, 999_999_999_999]), field(36, 2, ENTITIES),
    field(38, 2, ENTITIES), field(40, 5, NONE_OR_ONE), field(45, 1, &[0, 1, 2, 3, 10, 99]),
    field(46, 2, &[0, 1, 2, 48, 49, 50, 51, 98, 99, 100, 101, 149, 9999]),
    field(48, 4, &[0, 1, 99_999_999]), field(52, 4, NONE_OR_ONE),
    field(30, 1, NONE_OR_ONE), field(35, 1, NONE_OR_ONE), field(51, 1, NONE_OR_ONE),
];

/// Gives one of the fields another value; position 1 stands at `origin` of the bytes.
pub fn change(random: &mut Random, bytes: &mut [u8], origin: isize, fields: &[Field]) {
    let field = &fields[random.below(fields.len())];
    let first = (origin + field.first as isize - 1) as usize;
    let Some(place) = bytes.get_mut(first..first + field.length) else {
        return;
    };
    let value = packed::value(place);
    match random.below(16) {
        0..=6 => place.copy_from_slice(&packed(random.one_of(field.edges), field.length)),
        7..=10 => non_digit(random, place),
        11 => place.copy_from_slice(&packed(value + 1, field.length)),
        12 => place.copy_from_slice(&packed(value.wrapping_sub(1), field.length)),
        13 => place.fill(random.one_of(&[0x00, 0x99, 0xFF])),
        14 => random.digits(place),
        _ => place.reverse(),
    }
}

/// The packed number becomes so much more.
pub fn raise(place: &mut [u8], by: u64) {
    packed::write(packed::value(place) + by, place);
}

/// One half of one byte becomes more than 9.
fn non_digit(random: &mut Random, place: &mut [u8]) {
    let at = random.below(place.len());
    let half = random.within(10, 15) as u8;
    place[at] = match random.below(2) {
        0 => place[at] & 0xF0 | half,
        _ => place[at] & 0x0F | half << 4,
    };
}
