//! The words that waits are drawn from.

/// A permuted congruential generator of 128 bits.
pub struct Pcg {
    state: u128,
    increment: u128,
}

impl Pcg {
    /// The generator that a number starts.
    pub fn new(mut start: u64) -> Pcg {
        let mut seed = [0u8; 32];
        for chunk in seed.chunks_mut(4) {
            start = start
                .wrapping_mul(6_364_136_223_846_793_005)
                .wrapping_add(11_634_580_027_462_260_723);
            let mixed = (((start >> 18) ^ start) >> 27) as u32;
            chunk.copy_from_slice(&mixed.rotate_right((start >> 59) as u32).to_le_bytes());
        }
        let (state, increment) = seed.split_at(16);
        let state = u128::from_le_bytes(state.try_into().unwrap());
        let increment = u128::from_le_bytes(increment.try_into().unwrap()) | 1;
        let mut pcg = Pcg {
            state: state.wrapping_add(increment),
            increment,
        };
        pcg.word();
        pcg
    }

    /// The next word.
    pub fn word(&mut self) -> u64 {
        self.state = self
            .state
            .wrapping_mul(0x2360_ED05_1FC6_5DA4_4385_DF64_9FCC_F645)
            .wrapping_add(self.increment);
        let turn = (self.state >> 122) as u32;
        (((self.state >> 64) as u64) ^ (self.state as u64)).rotate_right(turn)
    }

    /// A wait between two ends, both included.
    pub fn wait(&mut self, low: u64, high: u64) -> u64 {
        low + self.word() % (high - low + 1)
    }
}
