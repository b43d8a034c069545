//! The words of a line. Only spaces part words, so a tab or a carriage return belongs to a word
//! and makes it unreadable.

use super::written::Written;

/// Also the room where none is given.
pub const MOST_ROOM: usize = 10_412;
const MOST_DIGITS: usize = 20;

pub struct Words<'a> {
    rest: Vec<&'a [u8]>,
}

impl<'a> Words<'a> {
    pub fn of(line: &'a [u8]) -> Words<'a> {
        let words = line.split(|&byte| byte == b' ');
        let mut rest: Vec<&[u8]> = words.filter(|word| !word.is_empty()).collect();
        rest.reverse();
        Words { rest }
    }

    pub fn next(&mut self) -> Option<&'a [u8]> {
        self.rest.pop()
    }

    pub fn are_used_up(&self) -> bool {
        self.rest.is_empty()
    }

    pub fn number_of_8_bits(&mut self) -> Option<u8> {
        let number = number(self.next()?)?;
        Some(number.min(u64::from(u8::MAX)) as u8)
    }

    pub fn number_of_16_bits(&mut self) -> Option<u16> {
        let number = number(self.next()?)?;
        Some(number.min(u64::from(u16::MAX)) as u16)
    }

    pub fn number_of_32_bits(&mut self) -> Option<u32> {
        let number = number(self.next()?)?;
        Some(number.min(u64::from(u32::MAX)) as u32)
    }

    /// May be left out.
    pub fn room(&mut self) -> Option<usize> {
        match self.next() {
            None => Some(MOST_ROOM),
            Some(word) => {
                let room = usize::try_from(number(word)?).ok()?;
                (room <= MOST_ROOM).then_some(room)
            }
        }
    }

    pub fn hex(&mut self) -> Option<Vec<u8>> {
        hex(self.next()?)
    }

    /// Given in hexadecimal, or a copy of what a call wrote.
    pub fn hex_or_copy(&mut self, written: &Written) -> Option<Vec<u8>> {
        let word = self.next()?;
        match word.strip_prefix(b"@") {
            Some(digits) => written.copy(number(digits)?),
            None => hex(word),
        }
    }
}

/// Leading zeros count as digits.
fn number(word: &[u8]) -> Option<u64> {
    let is_number = word.len() <= MOST_DIGITS && word.iter().all(u8::is_ascii_digit);
    // Fails for no digits at all and from 2^64 on.
    let parsed = std::str::from_utf8(word).ok()?.parse();
    parsed.ok().filter(|_| is_number)
}

fn hex(word: &[u8]) -> Option<Vec<u8>> {
    if word == b"-" {
        return Some(Vec::new());
    }
    let (pairs, odd) = word.as_chunks::<2>();
    let bytes = pairs.iter().map(hex_byte).collect();
    if odd.is_empty() {
        bytes
    } else {
        None
    }
}

fn hex_byte(&[high, low]: &[u8; 2]) -> Option<u8> {
    let digit = |byte: u8| char::from(byte).to_digit(16);
    Some((digit(high)? * 16 + digit(low)?) as u8)
}
