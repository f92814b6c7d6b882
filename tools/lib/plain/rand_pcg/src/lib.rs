//! `Lcg64Xsh32`, a permuted congruential generator (O'Neill 2014).
use rand_core::utils::NextWord;

const MULTIPLIER: u64 = 6_364_136_223_846_793_005;

pub struct Pcg32 {
    state: u64,
    increment: u64,
}

impl Pcg32 {
    pub fn new(state: u64, stream: u64) -> Pcg32 {
        let increment = (stream << 1) | 1;
        let mut generator = Pcg32 {
            state: state.wrapping_add(increment),
            increment,
        };
        generator.step();
        generator
    }
    fn step(&mut self) {
        self.state = self
            .state
            .wrapping_mul(MULTIPLIER)
            .wrapping_add(self.increment);
    }
}

impl NextWord for Pcg32 {
    fn next_word(&mut self) -> u32 {
        let state = self.state;
        self.step();
        let rotation = (state >> 59) as u32;
        ((((state >> 18) ^ state) >> 27) as u32).rotate_right(rotation)
    }
}
