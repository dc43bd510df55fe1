//! The numbers that determine a run, the same in each language.

/// A linear congruential generator (Knuth's MMIX), whose high bits are used.
pub struct Numbers(pub u64);

impl Numbers {
    /// The next number below `bound`, which is at most 2^31.
    pub fn below(&mut self, bound: u64) -> u64 {
        self.step();
        (self.0 >> 33) % bound
    }

    /// The next number of 32 bits.
    pub fn word(&mut self) -> u32 {
        self.step();
        (self.0 >> 32) as u32
    }

    fn step(&mut self) {
        self.0 = self
            .0
            .wrapping_mul(6364136223846793005)
            .wrapping_add(1442695040888963407);
    }
}

/// A checksum: order matters.
pub fn mixed(sum: u64, value: u64) -> u64 {
    (sum ^ value).wrapping_mul(1099511628211)
}

/// Another number for each number, which looks random (the end of MurmurHash3).
pub fn scattered(number: u32) -> u32 {
    let mixed = (number ^ (number >> 16)).wrapping_mul(2246822507);
    let mixed = (mixed ^ (mixed >> 13)).wrapping_mul(3266489909);
    mixed ^ (mixed >> 16)
}
