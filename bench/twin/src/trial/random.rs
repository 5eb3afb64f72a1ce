//! SplitMix64: numbers that look random and can be had again.

#[derive(Clone, Debug)]
pub struct Random {
    state: u64,
}

impl Random {
    /// The numbers of one case of a seed.
    pub fn of_case(seed: u64, case: u64) -> Random {
        let mut random = Random { state: seed };
        random.state = random.next_number() ^ case.wrapping_mul(0x9e37_79b9_7f4a_7c15);
        random
    }

    pub fn next_number(&mut self) -> u64 {
        self.state = self.state.wrapping_add(0x9e37_79b9_7f4a_7c15);
        let mut mixed = self.state;
        mixed = (mixed ^ (mixed >> 30)).wrapping_mul(0xbf58_476d_1ce4_e5b9);
        mixed = (mixed ^ (mixed >> 27)).wrapping_mul(0x94d0_49bb_1331_11eb);
        mixed ^ (mixed >> 31)
    }

    pub fn byte(&mut self) -> u8 {
        self.next_number().to_le_bytes()[7]
    }

    /// A number below the limit; 0 where there is none.
    pub fn below(&mut self, limit: u32) -> u32 {
        let limit = u64::from(limit.max(1));
        // The upper half has the better bits, and below a limit of 32 bits the remainder's bias does not matter here.
        ((self.next_number() >> 32) % limit) as u32
    }

    /// A number from the first to the last, both included.
    pub fn within(&mut self, first: u32, last: u32) -> u32 {
        first + self.below(last - first + 1)
    }

    /// Yes, so many times out of a hundred.
    pub fn percent(&mut self, often: u32) -> bool {
        self.below(100) < often
    }

    /// One of several.
    pub fn pick<T: Copy>(&mut self, several: &[T]) -> T {
        several[self.below(several.len() as u32) as usize]
    }
}

#[cfg(test)]
mod tests {
    use super::*;

    #[test]
    fn numbers_can_be_had_again_and_stay_in_their_limits() {
        let mut one = Random::of_case(1, 2);
        let mut other = Random::of_case(1, 2);
        for _ in 0..1000 {
            assert_eq!(one.next_number(), other.next_number());
            assert!(one.below(7) < 7);
            assert!((3..=5).contains(&one.within(3, 5)));
            other.byte();
            other.byte();
        }
        assert_ne!(
            Random::of_case(1, 3).next_number(),
            Random::of_case(1, 2).next_number()
        );
    }
}
