//! The check digit of a document's number.

const DIVISOR: u64 = 7;

/// Never above 6.
pub fn document_digit(number: u64) -> u8 {
    (number % DIVISOR) as u8
}
