//! A small generator of reproducible numbers (SplitMix64).

pub struct Generator {
    state: u64,
}

impl Generator {
    pub fn with_seed(seed: u64) -> Generator {
        Generator { state: seed }
    }

    fn next(&mut self) -> u64 {
        self.state = self.state.wrapping_add(0x9E37_79B9_7F4A_7C15);
        let mut mixed = self.state;
        mixed = (mixed ^ (mixed >> 30)).wrapping_mul(0xBF58_476D_1CE4_E5B9);
        mixed = (mixed ^ (mixed >> 27)).wrapping_mul(0x94D0_49BB_1331_11EB);
        mixed ^ (mixed >> 31)
    }

    /// A number from 0 to `limit` - 1; 0 if `limit` is 0.
    pub fn below(&mut self, limit: usize) -> usize {
        (self.next() % limit.max(1) as u64) as usize
    }

    pub fn byte(&mut self) -> u8 {
        self.next() as u8
    }

    pub fn sixteen_bits(&mut self) -> u16 {
        self.next() as u16
    }

    pub fn bytes(&mut self, length: usize) -> Vec<u8> {
        (0..length).map(|_| self.byte()).collect()
    }

    /// A number from `lowest` to `highest`; `lowest` if there is none.
    pub fn byte_from(&mut self, lowest: u8, highest: u8) -> u8 {
        let choices = usize::from(highest.saturating_sub(lowest)) + 1;
        lowest.saturating_add(self.below(choices) as u8)
    }

    /// The numbers from 0 to `length` - 1 in an arbitrary order.
    pub fn permutation(&mut self, length: usize) -> Vec<usize> {
        let mut numbers: Vec<usize> = (0..length).collect();
        for last in (1..length).rev() {
            numbers.swap(last, self.below(last + 1));
        }
        numbers
    }
}

#[cfg(test)]
mod tests {
    use super::*;

    #[test]
    fn the_first_numbers_of_splitmix64() {
        assert_eq!(Generator::with_seed(0).next(), 0xE220_A839_7B1D_CDAF);
        let mut generator = Generator::with_seed(1_234_567);
        assert_eq!(generator.next(), 6_457_827_717_110_365_317);
        assert_eq!(generator.next(), 3_203_168_211_198_807_973);
    }

    #[test]
    fn numbers_stay_in_their_range() {
        let mut generator = Generator::with_seed(1);
        for _ in 0..1000 {
            assert!(generator.below(7) < 7);
            assert!((16..=254).contains(&generator.byte_from(16, 254)));
        }
        assert_eq!(generator.below(0), 0);
        assert_eq!(generator.byte_from(255, 255), 255);
        assert_eq!(generator.byte_from(9, 3), 9);
    }

    #[test]
    fn a_permutation_holds_each_number_once() {
        let mut generator = Generator::with_seed(2);
        for length in [0, 1, 8, 64] {
            let mut numbers = generator.permutation(length);
            numbers.sort_unstable();
            assert!(numbers.into_iter().eq(0..length));
        }
    }
}
