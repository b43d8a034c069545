//! The check digit of an entity with its branch, and of an account.

/// Of the places from the units up.
const WEIGHTS: [u64; 10] = [6, 3, 7, 9, 10, 5, 8, 4, 2, 1];
const DIVISOR: u64 = 11;

/// Of a number that has no more digits than there are weights.
pub fn weighted_digit(number: u64) -> u8 {
    match DIVISOR - remainder(number) {
        10 => 1,
        11 => 0,
        digit => digit as u8,
    }
}

fn remainder(number: u64) -> u64 {
    let weighted = digits(number).into_iter().zip(WEIGHTS);
    let products = weighted.map(|(digit, weight)| digit * weight);
    products.sum::<u64>() % DIVISOR
}

/// From the units up.
fn digits(number: u64) -> Vec<u64> {
    let text = number.to_string();
    let signs = text.bytes().rev();
    signs.map(|sign| u64::from(sign - b'0')).collect()
}
