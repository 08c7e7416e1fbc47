//! Pairs that a near miss of an encoder by line rule 2 (02, T-06) gets wrong, by name. Each is looked for: pairs are
//! drawn in the way its row says until the slip makes another word of one of them.

use crate::calm_words::{calm, calm_from_second, wild, Draw};
use crate::codeword::Messages;
use crate::edition::Edition;
use crate::line_rule_slip::LineRuleSlip;
use crate::near_miss_peaks::encode;
use crate::profile::Profile;
use crate::rng::Rng;

/// A slip, in which profiles it does harm, how the pairs are drawn that tell it, and what they are called.
pub struct PairNearMiss {
    pub slip: LineRuleSlip,
    harms: fn(&Profile) -> bool,
    draw: Draw,
    name: &'static str,
}

const fn random(slip: LineRuleSlip, name: &'static str) -> PairNearMiss {
    PairNearMiss { slip, harms: |_| true, draw: |profile, rng| rng.messages(profile), name }
}

/// Slips that matter only where the swing at α is above those of w, or that at the first place above those after it,
/// and slips of δ. For three levels all other swings are then 0, which only the zero pair's are, and δ is 0.
const fn of_calm(slip: LineRuleSlip, draw: Draw, name: &'static str) -> PairNearMiss {
    PairNearMiss { slip, harms: |profile| profile.q > 3, draw, name }
}

/// Slips that matter only where a swing passes 127: it is m(q−1)/2 at most, which is 98 in profile 3.
const fn of_wild(slip: LineRuleSlip, name: &'static str) -> PairNearMiss {
    PairNearMiss { slip, harms: |profile| profile.number == 4, draw: wild, name }
}

#[rustfmt::skip]
pub const PAIR_NEAR_MISSES: [PairNearMiss; 30] = [
    random(LineRuleSlip::LargestPeak, "the least peak is not the largest"),
    random(LineRuleSlip::TiesByV, "least peak of two s, of which the higher has the lower v"),
    random(LineRuleSlip::TiesLast, "least peak of several choices, of which the first is taken"),
    random(LineRuleSlip::TiesHighestS, "least peak of two s, of which the lower is taken"),
    random(LineRuleSlip::TiesHighestV, "least peak of two v with one s, of which the lower is taken"),
    random(LineRuleSlip::TiesAsInOtherEdition, "least peak of two s, in whose order the complement has them otherwise"),
    random(LineRuleSlip::FirstSOnly, "the least peak is not that of the first s that balances"),
    random(LineRuleSlip::WordComplemented, "another word than the complement of the other edition's"),
    random(LineRuleSlip::UnbalancedTaken, "a choice that does not balance has a lower peak"),
    of_calm(LineRuleSlip::PeakOfW, calm, "calm word whose peak is at alpha"),
    of_calm(LineRuleSlip::PeakUpToM1, calm, "calm word whose peak is after w"),
    of_calm(LineRuleSlip::PeakWithoutAlpha, calm, "calm word whose peak is at alpha, and not at beta"),
    of_calm(LineRuleSlip::PeakFromSecond, calm_from_second, "calm word whose peak is at the first place"),
    of_calm(LineRuleSlip::AlphaWithoutDelta, calm, "calm word whose alpha has another swing without delta"),
    of_calm(LineRuleSlip::AlphaByPrintedDelta, calm, "calm word whose alpha has another swing by the printed delta"),
    of_calm(LineRuleSlip::AlphaOfComplement, calm, "calm word whose complement has an alpha of another swing"),
    random(LineRuleSlip::PeakAbove, "swing below 0 that counts"),
    random(LineRuleSlip::PeakBelow, "swing above 0 that counts"),
    random(LineRuleSlip::PeakBetween, "the highest and the lowest swing are not the least apart"),
    random(LineRuleSlip::PeakAddedUp, "the swings are not the least on the whole"),
    of_wild(LineRuleSlip::PeakInByte, "choice with a peak of 256 or more"),
    of_wild(LineRuleSlip::SwingInSignedByte, "choices with swings of 128 or more"),
    random(LineRuleSlip::SumNotDoubled, "another choice if the sum were not doubled"),
    random(LineRuleSlip::PlacesFromZero, "another choice if places were counted from 0"),
    random(LineRuleSlip::RaisedInOtherOrder, "another choice if the 1 raised the other part of w"),
    random(LineRuleSlip::OneAddedLate, "another choice if the 1 raised one symbol less, or more in edition 18"),
    random(LineRuleSlip::FirstVLeftOut, "the lowest v is taken: 1, or 0 in edition 18"),
    random(LineRuleSlip::LastVLeftOut, "the highest v is taken: m, or m-1 in edition 18"),
    PairNearMiss {
        harms: |profile| profile.edition == Edition::Of2013,
        ..random(LineRuleSlip::VAsInOtherEdition, "v = m is taken: harmless in edition 18")
    },
    random(LineRuleSlip::LastSLeftOut, "s = q-1 is taken"),
];

/// Slips that do no harm in any profile: line_rule_slip.rs says why.
pub const HARMLESS_SLIPS: [LineRuleSlip; 7] = [
    LineRuleSlip::PeakWithoutBeta,
    LineRuleSlip::PeakWithoutM,
    LineRuleSlip::BetaBeforeAlpha,
    LineRuleSlip::PeakFromZero,
    LineRuleSlip::SwingHalved,
    LineRuleSlip::SwingFromEnd,
    LineRuleSlip::OneVMore,
];

/// How many pairs are drawn before a slip is taken to do no harm in a profile.
const ATTEMPTS: usize = 100_000;

impl PairNearMiss {
    /// Whether the slip does harm in a profile.
    pub fn harms(&self, profile: &Profile) -> bool {
        (self.harms)(profile)
    }

    /// A pair of the kind that tells it.
    pub fn draw(&self, profile: &Profile, rng: &mut Rng) -> Messages {
        (self.draw)(profile, rng)
    }

    /// Whether the slip makes another word of the pair.
    pub fn gets_wrong(&self, profile: &Profile, messages: &Messages) -> bool {
        encode(profile, messages, Some(self.slip)) != encode(profile, messages, None)
    }

    /// Pairs that the slip gets wrong; none of a profile in which it does no harm.
    pub fn pairs(&self, profile: &Profile, count: usize, rng: &mut Rng) -> Vec<Messages> {
        let attempts = if self.harms(profile) { ATTEMPTS } else { 0 };
        let drawn = (0..attempts).map(|_| self.draw(profile, rng));
        drawn.filter(|messages| self.gets_wrong(profile, messages)).take(count).collect()
    }

    /// What its pairs are called.
    pub fn title(&self) -> String {
        format!("near miss {:?}: {}", self.slip, self.name)
    }
}

#[cfg(test)]
mod tests;
