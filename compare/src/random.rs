//! Numbers that look random and come again with the same seed.

/// A xorshift generator of 64 bits.
pub struct Random(u64);

impl Random {
    /// Starts from the seed in MOGTRIZ_SEED, or from a fixed one, and prints it.
    pub fn seeded() -> Random {
        let seed = match std::env::var("MOGTRIZ_SEED") {
            Ok(text) => text.parse().expect("MOGTRIZ_SEED is a number"),
            Err(_) => 20_251_114,
        };
        println!("seed {seed}");
        // zero is the one state that xorshift never leaves
        Random(u64::max(seed, 1))
    }

    pub fn number(&mut self) -> u64 {
        self.0 ^= self.0 << 13;
        self.0 ^= self.0 >> 7;
        self.0 ^= self.0 << 17;
        self.0
    }

    pub fn below(&mut self, end: usize) -> usize {
        (self.number() % end as u64) as usize
    }

    /// A number of any width up to 64 bits.
    pub fn wide(&mut self) -> usize {
        let width = self.below(64);
        (self.number() >> width) as usize
    }

    /// One of these.
    pub fn of<'a, T>(&mut self, choices: &'a [T]) -> &'a T {
        &choices[self.below(choices.len())]
    }

    /// Another generator, for use beside this one.
    pub fn beside(&mut self) -> Random {
        Random(u64::max(self.number(), 1))
    }

    pub fn bytes(&mut self, count: usize) -> Vec<u8> {
        (0..count).map(|_| (self.number() >> 32) as u8).collect()
    }
}
