//! The four profiles (01, "The four profiles"), of boxes of either edition (02, T-03).

use crate::balance::balancing_value;
use crate::edition::Edition;
use crate::erasure::ERASURE;
use crate::refusal::{require, Refusal};

/// One row of the table, and the edition: with it, how a word is made. The columns q, r and n are given,
/// the others follow from them and are the same in both editions.
#[derive(Debug, Clone, Copy, PartialEq, Eq)]
pub struct Profile {
    /// The number that names the profile.
    pub number: u8,
    /// "q is the number of levels".
    pub q: u8,
    /// "r the check symbols of one half".
    pub r: usize,
    /// "n the length of one half".
    pub n: usize,
    /// T-03: 13 or 18.
    pub edition: Edition,
}

/// "The four profiles are fixed."
#[rustfmt::skip]
const fn table(edition: Edition) -> [Profile; 4] {
    [
        Profile { number: 1, q: 3, r: 3, n: 8, edition },
        Profile { number: 2, q: 3, r: 4, n: 26, edition },
        Profile { number: 3, q: 5, r: 3, n: 24, edition },
        Profile { number: 4, q: 7, r: 3, n: 48, edition },
    ]
}

/// Those of 01. T-03: "boxlines and sheets stay with edition 13."
pub static PROFILES: [Profile; 4] = table(Edition::Of2013);

/// Those of the new boxes.
pub static PROFILES_2018: [Profile; 4] = table(Edition::Of2018);

impl Profile {
    /// "1 if the profile is not 1 to 4", of edition 13.
    pub fn lookup(number: u8) -> Result<&'static Profile, Refusal> {
        Profile::of(Edition::Of2013, number)
    }

    /// The same of any edition.
    pub fn of(edition: Edition, number: u8) -> Result<&'static Profile, Refusal> {
        let mut profiles = edition.profiles().iter();
        profiles.find(|profile| profile.number == number).ok_or(Refusal::Profile)
    }

    /// The same profile in the other edition.
    pub fn in_other_edition(&self) -> Profile {
        Profile { edition: self.edition.other(), ..*self }
    }

    /// "k the length of a user word": the positions of a component that hold no check symbol.
    pub fn k(&self) -> usize {
        self.n - self.r
    }

    /// "m = 2n+1".
    pub fn m(&self) -> usize {
        2 * self.n + 1
    }

    /// "N = m+2 the symbols on the line".
    pub fn word_length(&self) -> usize {
        self.m() + 2
    }

    /// "Middle is m(q−1)/2."
    pub fn balancing_value(&self) -> u32 {
        balancing_value(self.q, self.m())
    }

    /// "δ is (q−1)/2 times (2−m), mod q."
    pub fn delta(&self) -> u8 {
        let q = i64::from(self.q);
        let product = (q - 1) / 2 * (2 - self.m() as i64);
        product.rem_euclid(q) as u8
    }

    /// "3 if a user symbol is not below q", 255 among them; and what 01 asks of a lawful word.
    pub fn require_levels(&self, word: &[u8]) -> Result<(), Refusal> {
        require(word.iter().all(|&symbol| symbol < self.q), Refusal::Symbol)
    }

    /// The symbols of a received word. T-01: "Number 3 is left for other values of q or more".
    pub fn require_received(&self, word: &[u8]) -> Result<(), Refusal> {
        let is_received = |&symbol: &u8| symbol < self.q || symbol == ERASURE;
        require(word.iter().all(is_received), Refusal::Symbol)
    }
}
