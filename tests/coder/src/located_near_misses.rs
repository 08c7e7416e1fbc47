//! Received words that a near miss of a decoder by syndromes (02, T-09) gets wrong, by name. Each is looked for, as
//! the words of `near_misses` are.

use crate::edition::Edition;
use crate::located_slip::LocatedSlip;
use crate::located_words::{
    first_changed, last_changed, multiple_below, symbol_and_other_check, wrong_columns_named,
};
use crate::near_miss_located::decode;
use crate::near_miss_words::{off_balance, symbol_and_its_check};
use crate::near_misses::ATTEMPTS;
use crate::profile::Profile;
use crate::random_words::Build;
use crate::rng::Rng;
use crate::tried_words::one_of_w_changed;

/// A slip, in which profiles it does harm, how the words are built that tell it, and what they are called.
pub struct LocatedNearMiss {
    pub slip: LocatedSlip,
    harms: fn(&Profile) -> bool,
    build: Build,
    name: &'static str,
}

const fn corrected(slip: LocatedSlip, name: &'static str) -> LocatedNearMiss {
    LocatedNearMiss { slip, harms: |_| true, build: one_of_w_changed, name }
}

const fn word(slip: LocatedSlip, build: Build, name: &'static str) -> LocatedNearMiss {
    LocatedNearMiss { slip, harms: |_| true, build, name }
}

#[rustfmt::skip]
pub const LOCATED_NEAR_MISSES: [LocatedNearMiss; 21] = [
    corrected(LocatedSlip::FirstOnly, "the first syndrome names another position, or none"),
    corrected(LocatedSlip::SecondOnly, "the second syndrome names another position, or none"),
    LocatedNearMiss {
        harms: |profile| profile.edition == Edition::Of2018,
        ..corrected(LocatedSlip::SignNotTurned, "the error moves the syndromes the other way than in edition 13")
    },
    corrected(LocatedSlip::ErrorTurned, "the error is received minus sent"),
    corrected(LocatedSlip::ErrorSizeTaken, "the error is below 0"),
    word(LocatedSlip::LastForgotten, last_changed, "position m is wrong, which only a first syndrome of zeros names"),
    word(LocatedSlip::FirstForgotten, first_changed, "position 1 is wrong, which only a second syndrome of zeros names"),
    corrected(LocatedSlip::DividedByNegative, "a column is named by what the error adds, and not by its negative"),
    LocatedNearMiss {
        harms: |profile| profile.q > 3,
        ..corrected(LocatedSlip::NotInverted, "an error that is not its own inverse, as every one is for q = 3")
    },
    corrected(LocatedSlip::ParitiesExchanged, "a position of the half whose check sum disagrees"),
    corrected(LocatedSlip::NamedFromZero, "columns are counted from 1"),
    corrected(LocatedSlip::ColumnsFromZero, "columns are counted from 1, also in the test"),
    corrected(LocatedSlip::CandidateUntested, "the first position that is named is not the one"),
    word(LocatedSlip::CandidateUntested, wrong_columns_named, "unreadable, but both syndromes name a position"),
    corrected(LocatedSlip::OtherNotMoved, "the error moves both syndromes"),
    corrected(LocatedSlip::LastRowUntested, "the first position that is named leaves a wrong last row"),
    word(LocatedSlip::LastRowUntested, multiple_below, "unreadable, but only for the last row of a syndrome"),
    word(LocatedSlip::RangeUntested, |profile, rng| off_balance(profile, rng, false),
        "unreadable: the symbol at the position that is named cannot be wrong by as much"),
    word(LocatedSlip::CheckSumUntested, symbol_and_its_check,
        "unreadable: a check sum off by something other than the error mod q"),
    word(LocatedSlip::ExcessReduced, |profile, rng| off_balance(profile, rng, true),
        "unreadable: weight off by q or more, and one check sum off"),
    word(LocatedSlip::BothOffTaken, symbol_and_other_check, "unreadable: one symbol of w and the other half's check symbol wrong"),
];

/// Slips that do no harm in any profile: located_slip.rs says why.
pub const HARMLESS_SLIPS: [LocatedSlip; 3] =
    [LocatedSlip::SecondFirst, LocatedSlip::BothColumnsTaken, LocatedSlip::ExcessUntested];

/// The slips that do harm in a profile.
pub fn harmful_slips(profile: &Profile) -> Vec<LocatedSlip> {
    let near_misses = LOCATED_NEAR_MISSES.iter().filter(|near_miss| near_miss.harms(profile));
    let mut slips: Vec<LocatedSlip> = near_misses.map(|near_miss| near_miss.slip).collect();
    slips.dedup();
    slips
}

impl LocatedNearMiss {
    /// Whether the slip does harm in a profile.
    pub fn harms(&self, profile: &Profile) -> bool {
        (self.harms)(profile)
    }

    /// Words of the profile that the slip gets wrong; none where it does no harm.
    pub fn words(&self, profile: &Profile, count: usize, rng: &mut Rng) -> Vec<Vec<u8>> {
        let attempts = if self.harms(profile) { ATTEMPTS } else { 0 };
        let built = (0..attempts).filter_map(|_| (self.build)(profile, rng));
        built.filter(|word| is_told(profile, word, self.slip)).take(count).collect()
    }

    /// What its words are called.
    pub fn title(&self) -> String {
        format!("near miss {:?}: {}", self.slip, self.name)
    }
}

/// Whether the slip answers the word otherwise than a decoder without one.
pub fn is_told(profile: &Profile, word: &[u8], slip: LocatedSlip) -> bool {
    decode(profile, word, Some(slip)) != decode(profile, word, None)
}

#[cfg(test)]
mod tests;
