//! The keys of a tariff, read from the numbers in which it is lent.

/// How many numbers a key takes, in the order of the fields of `Key`.
pub const NUMBERS: usize = 4;
pub const MOST_KEYS: usize = 20;
pub const LAST_NUMBER: u32 = 9_999;
/// Takes the whole nominal.
pub const MOST_RATE: u32 = 10_000;
/// What the eight digits of a document can state.
pub const MOST_COMMISSION: u32 = 99_999_999;

#[derive(Clone, Copy, Debug, PartialEq, Eq)]
pub struct Key {
    pub number: u32,
    pub rate: u32,
    pub least: u32,
    pub greatest: u32,
}

/// None for a bad tariff.
pub fn read(tariff: &[u32]) -> Option<Vec<Key>> {
    let (keys, left_over) = tariff.as_chunks::<NUMBERS>();
    let keys: Vec<Key> = keys.iter().map(Key::of).collect();
    let good = left_over.is_empty()
        && keys.len() <= MOST_KEYS
        && keys.iter().all(Key::is_good)
        && no_number_stands_twice(&keys);
    good.then_some(keys)
}

impl Key {
    fn of(&[number, rate, least, greatest]: &[u32; NUMBERS]) -> Key {
        Key {
            number,
            rate,
            least,
            greatest,
        }
    }

    /// As they are lent.
    pub fn numbers(&self) -> [u32; NUMBERS] {
        [self.number, self.rate, self.least, self.greatest]
    }

    fn is_good(&self) -> bool {
        (1..=LAST_NUMBER).contains(&self.number)
            && self.rate <= MOST_RATE
            && self.least <= self.greatest
            && self.greatest <= MOST_COMMISSION
    }
}

fn no_number_stands_twice(keys: &[Key]) -> bool {
    let stands_before = |at: usize| keys[..at].iter().any(|key| key.number == keys[at].number);
    !(0..keys.len()).any(stands_before)
}
