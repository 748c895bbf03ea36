//! Random numbers that a seed fixes (xorshift64*).

pub struct Random {
    state: u64,
}

impl Random {
    /// The numbers of a seed other than 0. Prints the seed, so that a test that fails shows it.
    pub fn new(seed: u64) -> Random {
        assert_ne!(seed, 0);
        println!("seed {seed:#x}");
        Random { state: seed }
    }

    /// The next number, of 64 bits.
    pub fn number(&mut self) -> u64 {
        self.state ^= self.state >> 12;
        self.state ^= self.state << 25;
        self.state ^= self.state >> 27;
        self.state.wrapping_mul(0x2545_f491_4f6c_dd1d)
    }

    /// A number from `low` to `high`, both included.
    pub fn between(&mut self, low: u64, high: u64) -> u64 {
        low + self.number() % (high - low + 1)
    }

    /// A number below 2^bits, at most 64, of a random bit count: small numbers are as likely as large ones.
    pub fn short(&mut self, bits: u32) -> u64 {
        match self.between(0, bits as u64) {
            0 => 0,
            used => self.number() >> (64 - used),
        }
    }

    /// A number below `count`, which is not 0.
    pub fn below(&mut self, count: usize) -> usize {
        self.between(0, count as u64 - 1) as usize
    }

    pub fn words(&mut self, count: usize) -> Vec<u32> {
        (0..count).map(|_| self.number() as u32).collect()
    }

    pub fn bytes(&mut self, count: usize) -> Vec<u8> {
        (0..count).map(|_| self.number() as u8).collect()
    }

    /// Puts a list into random order.
    pub fn shuffle<T>(&mut self, list: &mut [T]) {
        for i in (1..list.len()).rev() {
            list.swap(i, self.below(i + 1));
        }
    }
}
