//! The bytes that unrefused calls wrote at either end, numbered from 1.

/// All that is remembered together fits in this.
const MEMORY: usize = 1 << 20;

/// What did not fit keeps its number and has no bytes.
#[derive(Default)]
pub struct Written {
    kept: Vec<Option<Vec<u8>>>,
    used: usize,
}

impl Written {
    /// Gives the number of the new bytes.
    pub fn add(&mut self, bytes: &[u8]) -> usize {
        let fits = bytes.len() <= MEMORY - self.used;
        if fits {
            self.used += bytes.len();
        }
        self.kept.push(fits.then(|| bytes.to_vec()));
        self.kept.len()
    }

    /// None for what is unknown or was not kept.
    pub fn copy(&self, number: u64) -> Option<Vec<u8>> {
        let at = usize::try_from(number).ok()?.checked_sub(1)?;
        self.kept.get(at)?.clone()
    }
}
