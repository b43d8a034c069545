//! How a quotient becomes a whole number.

/// The nearest whole number, an exact half going up.
pub fn rounded(dividend: u64, divisor: u64) -> u64 {
    let (whole, rest) = (dividend / divisor, dividend % divisor);
    if 2 * rest >= divisor {
        whole + 1
    } else {
        whole
    }
}
