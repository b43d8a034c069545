//! A small source of seeded random numbers; a seed gives the same sequence for ever.

/// The two digits of a number below 100 in one byte.
pub fn packed(value: u8) -> u8 {
    value / 10 * 16 + value % 10
}

/// A xorshift generator.
pub struct Random(u64);

impl Random {
    /// Multiplied by an odd number, neighbouring seeds give unlike sequences; 0 would stay 0.
    pub fn new(seed: u64) -> Random {
        let mut random = Random(seed.wrapping_add(1).wrapping_mul(0x9E37_79B9_7F4A_7C15) | 1);
        random.draw();
        random
    }

    fn draw(&mut self) -> u64 {
        self.0 ^= self.0 << 13;
        self.0 ^= self.0 >> 7;
        self.0 ^= self.0 << 17;
        self.0.wrapping_mul(0x2545_F491_4F6C_DD1D)
    }

    pub fn below(&mut self, limit: usize) -> usize {
        ((self.draw() >> 32) as usize * limit) >> 32
    }

    pub fn once_in(&mut self, times: usize) -> bool {
        self.below(times) == 0
    }

    pub fn one_of<T: Copy>(&mut self, items: &[T]) -> T {
        items[self.below(items.len())]
    }

    pub fn byte(&mut self) -> u8 {
        self.below(256) as u8
    }

    pub fn entity(&mut self) -> u16 {
        match self.below(8) {
            0 => self.one_of(&[0, 1, 72, 73, 99, 100, 9999]),
            _ => self.below(10_000) as u16,
        }
    }

    /// A packed byte of a number from `first` to `last`, one of the two ends more often.
    pub fn packed(&mut self, first: u8, last: u8) -> u8 {
        let value = match self.below(8) {
            0 => first,
            1 => last,
            _ => first + self.below(usize::from(last - first) + 1) as u8,
        };
        packed(value)
    }

    /// Any digits, now and then all the same byte.
    pub fn digits(&mut self, field: &mut [u8]) {
        if self.once_in(16) {
            field.fill(self.one_of(&[0x00, 0x09, 0x90, 0x99]));
        } else {
            field.fill_with(|| packed(self.below(100) as u8));
        }
    }

    /// From `first` to `last`, both included.
    pub fn within(&mut self, first: usize, last: usize) -> usize {
        first + self.below(last - first + 1)
    }

    /// With so many digits, zeros in front among them.
    pub fn number(&mut self, digits: usize) -> u64 {
        (0..digits).fold(0, |number, _| 10 * number + self.below(10) as u64)
    }

    pub fn bytes(&mut self, count: usize) -> Vec<u8> {
        (0..count).map(|_| self.byte()).collect()
    }

    /// With eight bytes of each draw, which is quicker.
    pub fn fill(&mut self, bytes: &mut [u8]) {
        for piece in bytes.chunks_mut(8) {
            let drawn = self.draw().to_be_bytes();
            piece.copy_from_slice(&drawn[..piece.len()]);
        }
    }
}
