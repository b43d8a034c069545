//! The detail check tuned for speed: one pass over the documents, eight bytes at a time.

use crate::frame::{self, word, wrong, Amounts, Document, Found, GROUP, PART, STRETCH};
use crate::session::rules::Rules;
use crate::Checked;

const LOW_DIGITS: u64 = 0x0F0F_0F0F_0F0F_0F0F;
const NINES: u64 = 0x9999_9999_9999_9999;
const EIGHTS: u64 = 0x8888_8888_8888_8888;

/// Where a document's words begin; both amounts lie at the upper end of one.
const WORDS: [usize; 6] = [0, 8, 15, 23, 31, 39];
/// The bits of the words that belong to no amount.
const FIELDS: [u64; 6] = [!0, !0, !0, 0xFFFF, !0, 0xFFFF_FFFF];
/// Added to half the excess of the third and the fourth word, sets a bit of each province above 52,
/// and the highest bit if the excess of the nominal is below zero.
const HALVES: [u64; 2] = [0x0000_1700_0017_0000, 0x8000];
/// The bits that are not set in the third word's excess, and then in its half, if own and the
/// provinces are good.
const OWN_AND_PROVINCES: u64 = 0x0000_80FF_FF80_0000;
const HALF_PROVINCES: u64 = 0x0000_4000_0040_0000;

/// By today's rules.
pub fn check(body: &[u8], own: u16, represented: &[u16]) -> Checked {
    check_by(Rules::TODAY, body, own, represented)
}

pub fn check_by(rules: Rules, body: &[u8], own: u16, represented: &[u16]) -> Checked {
    frame::check(rules, body, own, represented, pass::<false>, pass::<true>)
}

/// The presenter's check of whole documents under an operation, 30 or 40, as the plain one does it.
pub fn check_to_send(rules: Rules, documents: &[u8], operation: u8, receiving: u16) -> Checked {
    let pass = if operation == 0x40 {
        look::<true, PART>
    } else {
        look::<false, PART>
    };
    let found = pass(documents, frame::packed(receiving));
    let checked = frame::field_codes(&found, documents.len() / 51);
    frame::last_code(rules, &found, checked)
}

fn pass<const RETURNS: bool>(body: &[u8], own: [u8; 2]) -> Found {
    look::<RETURNS, GROUP>(body, own)
}

/// Over pieces that end with four documents, and then the documents of a last, shorter piece.
fn look<const RETURNS: bool, const SIZE: usize>(bytes: &[u8], own: [u8; 2]) -> Found {
    let own = u64::from(u16::from_le_bytes(own));
    let least = [0x0000_0100_0001_0000 | own << 24, 0x1_0000, own, 0x0100];
    let (full, rest) = bytes.as_chunks::<SIZE>();
    let mut seen = Seen::default();
    seen.take_all::<RETURNS, SIZE>(full, &least);
    seen.take_all::<RETURNS, 51>(rest.as_rchunks().1, &least);
    seen.found::<RETURNS>()
}

/// What is kept of the documents taken so far; a bit once set stays.
#[derive(Default)]
struct Seen {
    /// The highest bit of a half byte tells that it was above 9. It may be set for a 9 higher up
    /// in the word as well, but from an amount no further than to its end.
    non_digits: [u64; 6],
    /// From the third word on, the excess over the least that own, the provinces, the nominal and
    /// the truncation can be. A nominal's bytes stand the other way round here, but zero is less
    /// than the least either way.
    excess: [u64; 4],
    /// Of the third and the fourth word, half the excess with `HALVES` added. Half of any digits
    /// leaves the highest bit to a nominal of zero.
    halves: [u64; 2],
    low_sums: [u64; 2],
    amounts: Amounts,
    wrong: u32,
}

impl Seen {
    /// Of full groups or single documents. It stays a function of its own: what is kept then
    /// ends in memory, and this makes the compiler join neighbouring words in vectors.
    #[inline(never)]
    fn take_all<const RETURNS: bool, const SIZE: usize>(
        &mut self,
        pieces: &[[u8; SIZE]],
        least: &[u64; 4],
    ) {
        for stretch in pieces.chunks(STRETCH) {
            for piece in stretch {
                for document in piece.as_rchunks().1 {
                    self.take::<RETURNS>(document, least);
                }
            }
            self.amounts.settle(self.low_sums);
            self.low_sums = [0; 2];
        }
    }

    #[inline(always)]
    fn take<const RETURNS: bool>(&mut self, document: &Document, least: &[u64; 4]) {
        self.wrong |= wrong::<RETURNS>(document);
        let amounts = Amounts::words(document);
        self.amounts.add(amounts);
        for (sum, word) in self.low_sums.iter_mut().zip(amounts) {
            *sum = sum.wrapping_add(word & LOW_DIGITS);
        }
        let words = WORDS.map(|at| word(document, at));
        for (non_digits, word) in self.non_digits.iter_mut().zip(words) {
            *non_digits |= word & NINES.wrapping_sub(word);
        }
        for k in 0..4 {
            let excess = words[k + 2].wrapping_sub(least[k]);
            self.excess[k] |= excess;
            if k < 2 {
                self.halves[k] |= (excess >> 1).wrapping_add(HALVES[k]);
            }
        }
    }

    fn found<const RETURNS: bool>(&self) -> Found {
        let non_digits = self.non_digits.map(|bits| bits & EIGHTS);
        let bad_fields = non_digits
            .iter()
            .zip(FIELDS)
            .any(|(bits, field)| bits & field != 0);
        let reason = if RETURNS { 0x00FF_0000 } else { 0 };
        Found {
            fields_hold: !bad_fields
                && self.wrong == 0
                && self.excess[0] & OWN_AND_PROVINCES == 0
                && self.halves[0] & HALF_PROVINCES == 0
                && self.excess[3] & (reason | 0xFE00) == 0,
            amounts_are_digits: non_digits == [0; 6],
            all_drawn_on_own: self.excess[2] & 0xFFFF == 0,
            a_nominal_is_zero: self.halves[1] >> 63 != 0,
            nominal: self.amounts.nominal(),
            commission: self.amounts.commission(),
        }
    }
}
