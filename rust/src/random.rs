//! A small seeded generator (splitmix64): the same seed gives the same cases.

#[derive(Clone, Debug)]
pub struct Random {
    state: u64,
}

impl Random {
    pub fn new(seed: u64) -> Self {
        Random { state: seed }
    }

    pub fn draw(&mut self) -> u64 {
        self.state = self.state.wrapping_add(0x9E37_79B9_7F4A_7C15);
        let mut z = self.state;
        z = (z ^ (z >> 30)).wrapping_mul(0xBF58_476D_1CE4_E5B9);
        z = (z ^ (z >> 27)).wrapping_mul(0x94D0_49BB_1331_11EB);
        z ^ (z >> 31)
    }

    /// A number below `end`, which is not 0.
    pub fn below(&mut self, end: u64) -> u64 {
        assert!(end > 0, "no number is below 0");
        ((u128::from(self.draw()) * u128::from(end)) >> 64) as u64
    }

    /// A number from `first` to `last`, both included.
    pub fn range(&mut self, first: u64, last: u64) -> u64 {
        assert!(first <= last, "an empty range");
        match (last - first).checked_add(1) {
            Some(count) => first + self.below(count),
            None => self.draw(),
        }
    }

    /// As `range`, for 32-bit numbers.
    pub fn range32(&mut self, first: u32, last: u32) -> u32 {
        self.range(first.into(), last.into()) as u32
    }

    /// An index below `end`.
    pub fn index(&mut self, end: usize) -> usize {
        self.below(end as u64) as usize
    }

    /// True in one case of `of`.
    pub fn one_in(&mut self, of: u64) -> bool {
        self.below(of) == 0
    }

    pub fn byte(&mut self) -> u8 {
        (self.draw() >> 56) as u8
    }

    /// A number of up to `bits` bits with small numbers as likely as large ones.
    pub fn of_any_size(&mut self, bits: u32) -> u64 {
        let width = self.range(0, bits.into()) as u32;
        if width == 0 {
            0
        } else {
            self.draw() >> (64 - width)
        }
    }

    /// A pick from a list that is not empty.
    pub fn pick<T: Copy>(&mut self, list: &[T]) -> T {
        list[self.index(list.len())]
    }
}

#[cfg(test)]
mod tests {
    use super::Random;

    #[test]
    fn ranges_reach_both_ends_and_stay_inside() {
        let mut random = Random::new(1);
        let mut seen = [0u32; 7];
        for _ in 0..10_000 {
            seen[random.range(0, 6) as usize] += 1;
        }
        assert!(seen.iter().all(|&count| count > 1_000));
    }

    #[test]
    fn one_seed_gives_one_sequence() {
        let (mut left, mut right) = (Random::new(77), Random::new(77));
        assert!((0..100).all(|_| left.draw() == right.draw()));
        assert_ne!(Random::new(1).draw(), Random::new(2).draw());
    }
}
