//! The commission of one presented document.

use super::keys::{self, Key, MOST_COMMISSION};
use super::rounding::rounded;

/// Rates are counted in so many parts of the nominal.
pub const PARTS: u64 = 10_000;
/// What the twelve digits of a document can state.
pub const MOST_NOMINAL: u64 = 999_999_999_999;

/// The commission is 0 unless the code is 0.
#[repr(C)]
#[derive(Clone, Copy, Debug, PartialEq, Eq)]
pub struct Commissioned {
    pub code: u8,
    pub commission: u64,
}

impl Commissioned {
    pub const fn refused(code: u8) -> Commissioned {
        let commission = 0;
        Commissioned { code, commission }
    }
}

/// 42 for a bad tariff, 01 for an amount that a document cannot state, 41 for an unknown key.
pub fn commission(tariff: &[u32], key: u32, nominal: u64, typed: u64) -> Commissioned {
    let Some(keys) = keys::read(tariff) else {
        return Commissioned::refused(42);
    };
    if nominal > MOST_NOMINAL || typed > u64::from(MOST_COMMISSION) {
        return Commissioned::refused(1);
    }
    match by_key(&keys, key, nominal, typed) {
        None => Commissioned::refused(41),
        Some(commission) => Commissioned {
            code: 0,
            commission,
        },
    }
}

/// None for an unknown key.
pub fn by_key(keys: &[Key], number: u32, nominal: u64, typed: u64) -> Option<u64> {
    if number == 0 {
        return Some(typed);
    }
    let key = keys.iter().find(|key| key.number == number)?;
    Some(worked_out(key, nominal))
}

/// The nominal has at most twelve digits and the rate five, so that the product fits.
fn worked_out(key: &Key, nominal: u64) -> u64 {
    let commission = rounded(nominal * u64::from(key.rate), PARTS);
    commission
        .max(u64::from(key.least))
        .min(u64::from(key.greatest))
}
