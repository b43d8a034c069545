//! What the tuned and the column-wise check have in common: all but the pass over the documents.

use crate::session::rules::Rules;
use crate::Checked;

/// At the end of a group there are one to four.
pub type Document = [u8; 51];

/// The length of a full group.
pub const GROUP: usize = 208;
/// The length of a full group's documents.
pub const PART: usize = 204;
/// Groups whose digits can be summed in bytes: 7 groups of 4 documents, and 28 * 9 is below 256.
pub const STRETCH: usize = 7;

/// What a pass over the documents of a well shaped body finds.
pub struct Found {
    pub fields_hold: bool,
    pub amounts_are_digits: bool,
    pub all_drawn_on_own: bool,
    pub a_nominal_is_zero: bool,
    pub nominal: u64,
    pub commission: u64,
}

/// Of a body, with own as it stands in a document.
pub type Pass = fn(&[u8], [u8; 2]) -> Found;

pub fn check(
    rules: Rules,
    body: &[u8],
    own: u16,
    represented: &[u16],
    presented: Pass,
    returns: Pass,
) -> Checked {
    if own > 9999 || represented.len() > 8 || represented.iter().any(|&entity| entity > 9999) {
        return Checked::refused(24);
    }
    let code = shape(body);
    if code != 0 {
        return Checked::refused(code);
    }
    let is_return = body[2] == 0x40;
    let pass = if is_return { returns } else { presented };
    let found = pass(body, packed(own));
    let checked = field_codes(&found, body.len() / 52);
    if checked.code == 0
        && !is_return
        && !found.all_drawn_on_own
        && !all_drawn_here(body, own, represented)
    {
        return Checked::refused(6);
    }
    last_code(rules, &found, checked)
}

/// The codes 01 and 03, and the totals where there is none.
pub fn field_codes(found: &Found, documents: usize) -> Checked {
    if !found.fields_hold {
        return Checked::refused(1);
    }
    if !found.amounts_are_digits {
        return Checked::refused(3);
    }
    Checked {
        code: 0,
        documents: documents as u64,
        nominal: found.nominal,
        commission: found.commission,
    }
}

/// 44 where no code came before it.
pub fn last_code(rules: Rules, found: &Found, checked: Checked) -> Checked {
    if checked.code == 0 && rules.knows_44 && found.a_nominal_is_zero {
        return Checked::refused(44);
    }
    checked
}

/// 1 or 9, or 0 for a body of well made groups of one operation.
fn shape(body: &[u8]) -> u8 {
    let (full, rest) = body.as_chunks::<GROUP>();
    if body.is_empty() || body.len() > 50 * GROUP || !last_group_fits(rest) {
        return 1;
    }
    let expected = u32::from_le_bytes([0, 0x51, body[2], 4]);
    let mut difference = full
        .iter()
        .fold(0, |all, group| all | (head(group) ^ expected));
    if !rest.is_empty() {
        difference |= (head(rest) ^ expected) & 0x00FF_FFFF;
    }
    let is_operation = |operation| operation == 0x30 || operation == 0x40;
    match difference.to_le_bytes() {
        [_, 0, 0, 0] if is_operation(body[2]) => 0,
        [_, 0, _, 0] if body.chunks(GROUP).all(|group| is_operation(group[2])) => 9,
        _ => 1,
    }
}

fn last_group_fits(group: &[u8]) -> bool {
    match group {
        [] => true,
        [_, _, _, count @ 1..=4, documents @ ..] => documents.len() == 51 * usize::from(*count),
        _ => false,
    }
}

fn head(group: &[u8]) -> u32 {
    u32::from_le_bytes([group[0], group[1], group[2], group[3]])
}

pub fn packed(entity: u16) -> [u8; 2] {
    let pair = |number: u16| (number / 10 * 16 + number % 10) as u8;
    [pair(entity / 100), pair(entity % 100)]
}

/// Bit k of a byte's entry tells that the k-th entity has this byte.
fn all_drawn_here(body: &[u8], own: u16, represented: &[u16]) -> bool {
    let mut bits = [[0_u16; 256]; 2];
    for (k, &entity) in [own].iter().chain(represented).enumerate() {
        let [first, second] = packed(entity);
        bits[0][usize::from(first)] |= 1 << k;
        bits[1][usize::from(second)] |= 1 << k;
    }
    let drawn_here = |document: &Document| {
        bits[0][usize::from(document[31])] & bits[1][usize::from(document[32])] != 0
    };
    let (full, rest) = body.as_chunks::<GROUP>();
    let mut groups = full.iter().map(|group| group.as_rchunks().1);
    groups.all(|four| four.iter().all(drawn_here)) && rest.as_rchunks().1.iter().all(drawn_here)
}

/// By a byte's value.
struct Tables {
    /// For the first byte of an identification, the bits of both that must be 0.
    identification: [u32; 256],
    /// A day and a month have no bit in common where the month has that day.
    day: [u32; 256],
    month: [u32; 256],
    /// Not 0 for a bad second byte of a reason.
    reason: [u32; 256],
}

static TABLES: Tables = tables();

const fn tables() -> Tables {
    let mut tables = Tables {
        identification: [0x00FF; 256],
        day: [0b1111; 256],
        month: [0b1111; 256],
        reason: [0; 256],
    };
    tables.identification[0x00] = 0xFF00;
    tables.identification[0x80] = 0x0000;
    tables.reason[0x00] = 1;
    tables.reason[0x50] = 1;
    let mut number = 1;
    while number <= 31 {
        let byte = number / 10 * 16 + number % 10;
        tables.day[byte] = match number {
            31 => 0b0111,
            30 => 0b0011,
            _ => 0b0001,
        };
        if number <= 12 {
            tables.month[byte] = match number {
                2 => 0b1110,
                4 | 6 | 9 | 11 => 0b1100,
                _ => 0b1000,
            };
        }
        number += 1;
    }
    tables
}

/// Not 0 for a bad identification or day, or a bad second byte of a return's reason.
#[inline(always)]
pub fn wrong<const RETURNS: bool>(document: &Document) -> u32 {
    let byte = |at: usize| usize::from(document[at]);
    let identification = u32::from(u16::from_le_bytes([document[5], document[6]]));
    let reason = if RETURNS { TABLES.reason[byte(42)] } else { 0 };
    identification & TABLES.identification[byte(5)]
        | TABLES.day[byte(11)] & TABLES.month[byte(12)]
        | reason
}

/// The sums of nominal and commission, kept byte by byte and unpacked only at the end.
#[derive(Default)]
pub struct Amounts {
    /// Since the last settling; the eight bytes around an amount are added as one number.
    whole: [u64; 2],
    /// Settled sums of the bytes 0, 2, 4 and 6, with 16 bits for each, and of the others.
    even: [u64; 2],
    odd: [u64; 2],
}

impl Amounts {
    #[inline(always)]
    pub fn words(bytes: &[u8]) -> [u64; 2] {
        [word(bytes, 24), word(bytes, 40)]
    }

    #[inline(always)]
    pub fn add(&mut self, words: [u64; 2]) {
        for (whole, word) in self.whole.iter_mut().zip(words) {
            *whole = whole.wrapping_add(word);
        }
    }

    /// Less the sums of the low digits, the whole is 16 times those of the high ones, each in
    /// its byte. Non-digits and the key spill over upwards only, never into a good amount.
    #[inline(always)]
    pub fn settle(&mut self, low: [u64; 2]) {
        const EVEN: u64 = 0x00FF_00FF_00FF_00FF;
        for (k, low) in low.into_iter().enumerate() {
            let high = self.whole[k].wrapping_sub(low) >> 4;
            self.even[k] += (high & EVEN) * 10 + (low & EVEN);
            self.odd[k] += ((high >> 8) & EVEN) * 10 + ((low >> 8) & EVEN);
        }
        self.whole = [0; 2];
    }

    pub fn nominal(&self) -> u64 {
        value(self.even[0], self.odd[0], 1)
    }

    pub fn commission(&self) -> u64 {
        value(self.even[1], self.odd[1], 3)
    }
}

/// The amount stands in the bytes from `first` to 6.
#[inline(always)]
fn value(even: u64, odd: u64, first: usize) -> u64 {
    (first..7).fold(0, |value, at| {
        let sums = if at % 2 == 0 { even } else { odd };
        value * 100 + ((sums >> (at / 2 * 16)) & 0xFFFF)
    })
}

#[inline(always)]
pub fn word(bytes: &[u8], at: usize) -> u64 {
    u64::from_le_bytes(bytes[at..at + 8].try_into().unwrap())
}
