//! Bytes lent to a call, between others that must stay, and what the call has changed in them.

use crate::hex;
use std::ops::Range;

/// Before the lent bytes and behind them.
const AROUND: [u8; 13] = [0xEE; 13];
/// A longer stretch is said by its digest.
const SHOWN: usize = 20;
/// Compared as a whole at first, which is quicker.
const PIECE: usize = 1_024;

#[derive(Clone)]
pub struct Lent(Vec<u8>);

impl Lent {
    pub fn new(bytes: &[u8]) -> Lent {
        Lent([&AROUND[..], bytes, &AROUND].concat())
    }

    fn place(&self) -> Range<usize> {
        AROUND.len()..self.0.len() - AROUND.len()
    }

    pub fn bytes(&self) -> &[u8] {
        &self.0[self.place()]
    }

    pub fn bytes_mut(&mut self) -> &mut [u8] {
        let place = self.place();
        &mut self.0[place]
    }

    /// What differs from an earlier state, or `-`: in the first bytes, as many as the head has, and
    /// in all behind them the stretch from the first to the last byte that differ, as
    /// `FIRST..END=BYTES`, with a digest in place of many bytes; and `outside` where another byte
    /// than the lent ones differs.
    pub fn changes(&self, earlier: &Lent, head: usize) -> String {
        let (before, after) = (earlier.bytes(), self.bytes());
        let head = head.min(after.len());
        let parts = [0..head, head..after.len()];
        let stretches = parts.into_iter().filter_map(|part| {
            let stretch = stretch(&before[part.clone()], &after[part.clone()])?;
            let (first, end) = (part.start + stretch.start, part.start + stretch.end);
            Some(format!("{first}..{end}={}", said(&after[first..end])))
        });
        let outside = !self.has_all_around();
        let words: Vec<String> = stretches.chain(outside.then(|| "outside".into())).collect();
        match words.is_empty() {
            true => "-".into(),
            false => words.join(" "),
        }
    }

    fn has_all_around(&self) -> bool {
        self.0.starts_with(&AROUND) && self.0.ends_with(&AROUND)
    }
}

/// From the first byte that differs to the last.
fn stretch(before: &[u8], after: &[u8]) -> Option<Range<usize>> {
    let pieces = || before.chunks(PIECE).zip(after.chunks(PIECE));
    let differ = |(one, other): (&[u8], &[u8])| one != other;
    let first = pieces().position(differ)? * PIECE;
    let last = pieces().rposition(differ)? * PIECE;
    let bytes = |from: usize| before[from..].iter().zip(&after[from..]).take(PIECE);
    let first = first + bytes(first).position(|(one, other)| one != other)?;
    let last = last + bytes(last).rposition(|(one, other)| one != other)?;
    Some(first..last + 1)
}

fn said(bytes: &[u8]) -> String {
    match bytes.len() {
        ..=SHOWN => hex::write(bytes),
        _ => format!("{:016x}", digest(bytes)),
    }
}

/// Each word changes all that comes of it, so that another byte, or one elsewhere, shows.
fn digest(bytes: &[u8]) -> u64 {
    let (words, rest) = bytes.as_chunks::<8>();
    let words = words.iter().map(|word| u64::from_be_bytes(*word));
    let rest = rest.iter().map(|&byte| u64::from(byte));
    words.chain(rest).fold(bytes.len() as u64, |digest, word| {
        (digest ^ word)
            .wrapping_mul(0x9E37_79B9_7F4A_7C15)
            .rotate_left(29)
    })
}

#[cfg(test)]
mod tests {
    use super::*;

    /// With the byte at each of these places changed, counted from the first around the lent ones.
    fn changes(length: usize, places: &[usize]) -> String {
        let before = Lent::new(&vec![0x33; length]);
        let mut after = before.clone();
        places.iter().for_each(|&place| after.0[place] = 0x44);
        after.changes(&before, 4)
    }

    #[test]
    fn changes_are_said_by_their_places() {
        assert_eq!(changes(9, &[]), "-");
        assert_eq!(changes(9, &[13]), "0..1=44");
        assert_eq!(changes(9, &[14, 16]), "1..4=443344");
        assert_eq!(changes(9, &[16, 17]), "3..4=44 4..5=44");
        assert_eq!(changes(9, &[17, 21]), "4..9=4433333344");
        assert_eq!(changes(2, &[14]), "1..2=44");
        assert_eq!(
            changes(5_000, &[4_000, 5_012]),
            changes(5_000, &[5_012, 4_000])
        );
        assert!(changes(5_000, &[4_000, 5_012]).starts_with("3987..5000="));
    }

    #[test]
    fn bytes_around_count() {
        for place in [0, 12, 22, 34] {
            assert_eq!(changes(9, &[place]), "outside");
        }
        assert_eq!(changes(9, &[13, 34]), "0..1=44 outside");
    }

    #[test]
    fn every_byte_counts_in_a_digest() {
        let bytes: Vec<u8> = (0..83).collect();
        for at in 0..bytes.len() {
            let mut other = bytes.clone();
            other[at] ^= 0x80;
            assert_ne!(digest(&other), digest(&bytes), "{at}");
        }
        assert_ne!(digest(&[0; 40]), digest(&[0; 41]));
        let turned: Vec<u8> = [&bytes[8..], &bytes[..8]].concat();
        assert_ne!(digest(&turned), digest(&bytes));
    }
}
