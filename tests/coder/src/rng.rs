//! A small generator of pseudorandom numbers with a fixed seed, so that vectors never change by
//! themselves: splitmix64 (Steele, Lea and Flood, 2014).

use crate::codeword::Messages;
use crate::profile::Profile;

pub struct Rng {
    state: u64,
}

impl Rng {
    pub fn new(seed: u64) -> Rng {
        Rng { state: seed }
    }

    /// The next 64 bits.
    fn next(&mut self) -> u64 {
        self.state = self.state.wrapping_add(0x9e37_79b9_7f4a_7c15);
        let mut bits = self.state;
        bits = (bits ^ (bits >> 30)).wrapping_mul(0xbf58_476d_1ce4_e5b9);
        bits = (bits ^ (bits >> 27)).wrapping_mul(0x94d0_49bb_1331_11eb);
        bits ^ (bits >> 31)
    }

    /// A number from 0 to limit − 1. The remainder favours low numbers by too little to matter.
    pub fn below(&mut self, limit: usize) -> usize {
        (self.next() % limit as u64) as usize
    }

    /// A number from 1 to limit.
    pub fn from_one_to(&mut self, limit: usize) -> usize {
        1 + self.below(limit)
    }

    /// True once in `times`.
    pub fn once_in(&mut self, times: usize) -> bool {
        self.below(times) == 0
    }

    /// One of the choices.
    pub fn pick<'a, T>(&mut self, choices: &'a [T]) -> &'a T {
        &choices[self.below(choices.len())]
    }

    /// A word of symbols below q.
    pub fn word(&mut self, q: u8, length: usize) -> Vec<u8> {
        (0..length).map(|_| self.below(usize::from(q)) as u8).collect()
    }

    /// Two messages of the profile.
    pub fn messages(&mut self, profile: &Profile) -> Messages {
        [(); 2].map(|()| self.word(profile.q, profile.k()))
    }

    /// Another level than this one.
    pub fn other_level(&mut self, q: u8, symbol: u8) -> u8 {
        let step = self.from_one_to(usize::from(q) - 1);
        ((usize::from(symbol) + step) % usize::from(q)) as u8
    }
}
