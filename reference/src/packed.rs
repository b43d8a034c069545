//! Packed numbers: two decimal digits a byte, the high half first.

pub fn are_digits(bytes: &[u8]) -> bool {
    bytes.iter().all(|&byte| byte >> 4 <= 9 && byte & 15 <= 9)
}

/// The number that the bytes stand for; without a meaning if they are no digits.
pub fn value(bytes: &[u8]) -> u64 {
    bytes.iter().fold(0, |value, &byte| {
        value * 100 + u64::from(byte >> 4) * 10 + u64::from(byte & 15)
    })
}

/// Of at most nine bytes, so that the number fits.
pub fn read(bytes: &[u8]) -> Option<u64> {
    are_digits(bytes).then(|| value(bytes))
}

/// Fills the field; the number has no more digits than fit.
pub fn write(number: u64, field: &mut [u8]) {
    let mut rest = number;
    for byte in field.iter_mut().rev() {
        *byte = (rest / 10 % 10 * 16 + rest % 10) as u8;
        rest /= 100;
    }
}
