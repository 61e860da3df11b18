//! The words of choice: the 32-bit outputs of the permuted congruential generator with 64 bits of state (M. E. O'Neill,
//! "PCG", 2014: the output function XSH RR), seeded from one number as the Rust crates rand_core and rand_pcg define it.

const MULTIPLIER: u64 = 6_364_136_223_846_793_005;
/// The increment of the generator that spreads a seed of one number over the bytes of the state.
const SEED_INCREMENT: u64 = 11_634_580_027_462_260_723;

pub struct Pcg {
    state: u64,
    increment: u64,
}

/// XSH RR: the high bits are folded in, and the result is turned by the topmost bits.
fn output(state: u64) -> u32 {
    let folded = (((state >> 18) ^ state) >> 27) as u32;
    folded.rotate_right((state >> 59) as u32)
}

impl Pcg {
    /// The generator of a state and a stream, as the published reference implementation seeds it.
    pub fn new(state: u64, stream: u64) -> Self {
        Self::from_state_and_increment(state, (stream << 1) | 1)
    }

    fn from_state_and_increment(state: u64, increment: u64) -> Self {
        let mut pcg = Pcg { state: state.wrapping_add(increment), increment };
        pcg.step();
        pcg
    }

    /// `Lcg64Xsh32::seed_from_u64`: four words of another generator are the bytes of the state and of the increment.
    pub fn from_seed(seed: u64) -> Self {
        let mut state = seed;
        let mut word = || {
            state = state.wrapping_mul(MULTIPLIER).wrapping_add(SEED_INCREMENT);
            u64::from(output(state))
        };
        let first = word() | word() << 32;
        let second = word() | word() << 32;
        Self::from_state_and_increment(first, second | 1)
    }

    fn step(&mut self) {
        self.state = self.state.wrapping_mul(MULTIPLIER).wrapping_add(self.increment);
    }

    pub fn next_u32(&mut self) -> u32 {
        let word = output(self.state);
        self.step();
        word
    }
}

/// What a run draws its choices from.
pub trait Choices {
    fn word(&mut self) -> u64;
}

impl Choices for Pcg {
    fn word(&mut self) -> u64 {
        u64::from(self.next_u32())
    }
}

/// The words of a list, and then 0 for ever.
pub struct Listed<'a>(pub &'a [u64]);

impl Choices for Listed<'_> {
    fn word(&mut self) -> u64 {
        let (first, rest) = self.0.split_first().unwrap_or((&0, &[]));
        self.0 = rest;
        *first
    }
}
