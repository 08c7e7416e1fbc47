//! The editions of boxes (02, T-03): what is different in a word of the 2018 edition stands in
//! `balance` and `codeword`, as cases of this.

use crate::profile::{Profile, PROFILES, PROFILES_2018};
use crate::refusal::Refusal;

/// "Write and read are told the edition, 13 or 18."
#[derive(Debug, Clone, Copy, PartialEq, Eq)]
pub enum Edition {
    /// 01's words.
    Of2013,
    /// "The new boxes follow source document 000, as we read it."
    Of2018,
}

pub const EDITIONS: [Edition; 2] = [Edition::Of2013, Edition::Of2018];

impl Edition {
    /// "12, edition neither 13 nor 18".
    pub fn lookup(number: u8) -> Result<Edition, Refusal> {
        match number {
            13 => Ok(Edition::Of2013),
            18 => Ok(Edition::Of2018),
            _ => Err(Refusal::Edition),
        }
    }

    /// The number that names the edition.
    pub fn number(self) -> u8 {
        match self {
            Edition::Of2013 => 13,
            Edition::Of2018 => 18,
        }
    }

    /// The other edition.
    pub fn other(self) -> Edition {
        match self {
            Edition::Of2013 => Edition::Of2018,
            Edition::Of2018 => Edition::Of2013,
        }
    }

    /// The four profiles, of boxes of this edition.
    pub fn profiles(self) -> &'static [Profile; 4] {
        match self {
            Edition::Of2013 => &PROFILES,
            Edition::Of2018 => &PROFILES_2018,
        }
    }
}

/// Every profile of 01's edition, then every profile of the other.
pub fn profiles_of_both() -> impl Iterator<Item = &'static Profile> {
    EDITIONS.into_iter().flat_map(Edition::profiles)
}
