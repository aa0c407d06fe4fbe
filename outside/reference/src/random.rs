//! The pseudo-random bytes of the vectors and the tests.

/// The state of the pseudo-random row, below 2^31.
pub struct Random(pub u64);

impl Random {
    /// Takes one step, and answers the byte of the new state.
    pub fn byte(&mut self) -> u8 {
        self.0 = (self.0 * 1103515245 + 12345) % 2147483648;
        (self.0 / 65536 % 256) as u8
    }

    /// The next `length` bytes, one step before each.
    pub fn bytes(&mut self, length: usize) -> Vec<u8> {
        (0..length).map(|_| self.byte()).collect()
    }
}
