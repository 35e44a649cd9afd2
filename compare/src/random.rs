//! A small seeded source of numbers (splitmix64).

pub struct Random {
    state: u64,
}

impl Random {
    pub fn new(seed: u64) -> Self {
        Random { state: seed }
    }

    pub fn word(&mut self) -> u64 {
        self.state = self.state.wrapping_add(0x9e37_79b9_7f4a_7c15);
        let mut word = self.state;
        word = (word ^ (word >> 30)).wrapping_mul(0xbf58_476d_1ce4_e5b9);
        word = (word ^ (word >> 27)).wrapping_mul(0x94d0_49bb_1331_11eb);
        word ^ (word >> 31)
    }

    /// A number from 0 to `count` - 1; `count` is not 0.
    pub fn below(&mut self, count: usize) -> usize {
        ((self.word() as u128 * count as u128) >> 64) as usize
    }

    /// A number from `low` to `high`, both included.
    pub fn between(&mut self, low: usize, high: usize) -> usize {
        low + self.below(high - low + 1)
    }

    /// True in `part` of 100 cases.
    pub fn chance(&mut self, part: usize) -> bool {
        self.below(100) < part
    }

    pub fn byte(&mut self) -> u8 {
        self.word() as u8
    }

    pub fn pick<T: Copy>(&mut self, from: &[T]) -> T {
        from[self.below(from.len())]
    }

    /// A word of a random size: small ones, edges of powers of two and any.
    pub fn edge_word(&mut self) -> u64 {
        match self.below(4) {
            0 => self.below(10) as u64,
            1 => (1u64 << self.below(64)).wrapping_sub(self.below(3) as u64),
            2 => u64::MAX - self.below(3) as u64,
            _ => self.word() >> self.below(64),
        }
    }

    /// The bytes of a character other than zero in UTF-8: plain ones, those at a border, any.
    pub fn character(&mut self) -> Vec<u8> {
        const BORDERS: [u32; 14] = [
            0x1, 0x7f, 0x80, 0x7ff, 0x800, 0xfff, 0x1000, 0xd7ff, 0xe000, 0xfffe, 0xffff, 0x10000,
            0xfffff, 0x10ffff,
        ];
        let number = match self.below(4) {
            0 | 1 => self.between(0x20, 0x7e) as u32,
            2 => self.pick(&BORDERS),
            _ => self.between(1, 0x10ffff) as u32,
        };
        char::from_u32(number).unwrap_or('?').to_string().into_bytes()
    }

    pub fn bytes<const N: usize>(&mut self) -> [u8; N] {
        std::array::from_fn(|_| self.byte())
    }
}

#[cfg(test)]
mod tests {
    use super::*;

    #[test]
    fn same_seed_same_numbers() {
        let (mut one, mut other) = (Random::new(7), Random::new(7));
        assert!((0..100).all(|_| one.word() == other.word()));
        assert_ne!(Random::new(8).word(), Random::new(7).word());
    }

    #[test]
    fn stays_within() {
        let mut random = Random::new(1);
        let seen: Vec<usize> = (0..1000).map(|_| random.between(3, 6)).collect();
        assert!((3..=6).all(|number| seen.contains(&number)));
        assert!(seen.iter().all(|number| (3..=6).contains(number)));
    }
}
