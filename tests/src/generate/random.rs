//! A small generator of random numbers (splitmix64): the same seed, the same numbers.

#[derive(Clone)]
pub struct Random {
    state: u64,
}

impl Random {
    pub fn new(seed: u64) -> Random {
        Random { state: seed }
    }

    /// The numbers of one case of a run, from the run's seed.
    pub fn of_case(seed: u64, case: u64) -> Random {
        let mut random = Random::new(seed);
        let start = random.number() ^ case.wrapping_mul(0xD134_2543_DE82_EF95);
        Random::new(start)
    }

    pub fn number(&mut self) -> u64 {
        self.state = self.state.wrapping_add(0x9E37_79B9_7F4A_7C15);
        let mut z = self.state;
        z = (z ^ (z >> 30)).wrapping_mul(0xBF58_476D_1CE4_E5B9);
        z = (z ^ (z >> 27)).wrapping_mul(0x94D0_49BB_1331_11EB);
        z ^ (z >> 31)
    }

    /// 0 to most-1; `most` is not 0.
    pub fn below(&mut self, most: usize) -> usize {
        ((u128::from(self.number()) * most as u128) >> 64) as usize
    }

    /// From `low` to `high`, both included.
    pub fn within(&mut self, low: usize, high: usize) -> usize {
        low + self.below(high - low + 1)
    }

    /// True once in `n` times.
    pub fn once_in(&mut self, n: usize) -> bool {
        self.below(n) == 0
    }

    pub fn pick<T: Clone>(&mut self, from: &[T]) -> T {
        from[self.below(from.len())].clone()
    }

    pub fn bits(&mut self, count: usize) -> Vec<u8> {
        (0..count).map(|_| (self.number() >> 63) as u8).collect()
    }

    pub fn bytes(&mut self, count: usize) -> Vec<u8> {
        let mut bytes = Vec::with_capacity(count + 8);
        while bytes.len() < count {
            bytes.extend(self.number().to_le_bytes());
        }
        bytes.truncate(count);
        bytes
    }

    pub fn words(&mut self, count: usize) -> Vec<u16> {
        let bytes = self.bytes(2 * count);
        bytes.chunks(2).map(|pair| u16::from_le_bytes([pair[0], pair[1]])).collect()
    }

    /// Splits each secret bit into d random shares whose sum it is.
    pub fn sharing(&mut self, secrets: &[u8], d: usize) -> Vec<u8> {
        let mut shares = Vec::new();
        for secret in secrets {
            let mut row = self.bits(d - 1);
            row.push(row.iter().fold(*secret, |sum, share| sum ^ share));
            shares.extend(row);
        }
        shares
    }

    pub fn numbers(&mut self, count: usize) -> Vec<u32> {
        (0..count).map(|_| self.number() as u32).collect()
    }
}
