//! A second encoder by line rule 2 (02, T-06: Calmer words on the pair), in which one step can be got wrong on
//! purpose. It makes no word before it has chosen: up to some place every w has the symbols of x integrated with
//! one s, and after it those with the next, so its running digital sum follows from those of two words, and its
//! peak from how high and how low they are before the place and after it (`summed`). Without a slip it must make
//! what the search in `line_rule` takes.

mod summed;

use crate::balance::{add, BalancingChoice};
use crate::codeword::{interleave, with_check_symbols, Messages};
use crate::edition::Edition;
use crate::line_rule_slip::LineRuleSlip;
use crate::near_miss_conversion::complemented;
use crate::near_miss_sums::components;
use crate::profile::Profile;

use summed::{Joined, Summed};

/// The word that the encoder makes of two messages by line rule 2 with this slip, or with none; none where it
/// finds no choice.
pub fn encode(
    profile: &Profile,
    messages: &Messages,
    slip: Option<LineRuleSlip>,
) -> Option<Vec<u8>> {
    if slip == Some(LineRuleSlip::WordComplemented) {
        let other = &profile.in_other_edition();
        return Some(complemented(other, &encode(other, messages, None)?));
    }
    let encoder = Encoder { profile, slip };
    let x = interleave(profile.edition, &components(profile, messages, None));
    let words: Vec<Summed> = (0..profile.q).map(|s| encoder.summed(s, &x)).collect();
    let made = encoder.choices().map(|choice| (choice, encoder.joined(choice, &words)));
    let (_, taken) = made
        .filter(|(_, joined)| encoder.is_looked_at(joined))
        .min_by_key(|(choice, joined)| encoder.order(*choice, encoder.peak(joined)))?;
    Some(with_check_symbols(profile, &taken.w()))
}

struct Encoder<'a> {
    profile: &'a Profile,
    slip: Option<LineRuleSlip>,
}

impl Encoder<'_> {
    fn slips(&self, slip: LineRuleSlip) -> bool {
        self.slip == Some(slip)
    }

    fn is_2018(&self) -> bool {
        self.profile.edition == Edition::Of2018
    }

    /// Every s, and "v from 1 to m" or, in 2018, "v runs from 0 to m−1".
    fn choices(&self) -> impl Iterator<Item = BalancingChoice> {
        let (q, m) = (self.profile.q, self.profile.m());
        let as_in_2018 = self.is_2018() != self.slips(LineRuleSlip::VAsInOtherEdition);
        let (mut low, mut high) = if as_in_2018 { (0, m - 1) } else { (1, m) };
        low += usize::from(self.slips(LineRuleSlip::FirstVLeftOut));
        high += usize::from(self.slips(LineRuleSlip::OneVMore));
        high -= usize::from(self.slips(LineRuleSlip::LastVLeftOut));
        let ss = 0..q - u8::from(self.slips(LineRuleSlip::LastSLeftOut));
        ss.flat_map(move |s| (low..=high).map(move |v| BalancingChoice { s, v }))
    }

    /// The w of a choice: the 1 raises it from place v on or, in 2018, up to there.
    fn joined<'a>(
        &self,
        BalancingChoice { s, v }: BalancingChoice,
        words: &'a [Summed],
    ) -> Joined<'a> {
        let next = add(self.profile.q, s, 1);
        let [plain, raised] = [s, next].map(|added| &words[usize::from(added)]);
        if self.is_2018() {
            return Joined { first: raised, last: plain, cut: v };
        }
        // With v = 0, which only a slip has, nothing is raised.
        let cut = v.checked_sub(1).unwrap_or(self.profile.m());
        Joined { first: plain, last: raised, cut }
    }

    /// "of all balancing choices".
    fn is_looked_at(&self, joined: &Joined) -> bool {
        let is_balanced = joined.weight() == self.profile.balancing_value();
        is_balanced || self.slips(LineRuleSlip::UnbalancedTaken)
    }

    /// What is least of the choice that is taken: "the least peak, then the lowest s, then the lowest v".
    fn order(&self, BalancingChoice { s, v }: BalancingChoice, peak: i32) -> [i32; 3] {
        let (q, s, v) = (i32::from(self.profile.q), i32::from(s), v as i32);
        match self.slip {
            Some(LineRuleSlip::LargestPeak) => [-peak, s, v],
            Some(LineRuleSlip::TiesByV) => [peak, v, s],
            Some(LineRuleSlip::TiesLast) => [peak, -s, -v],
            Some(LineRuleSlip::TiesHighestS) => [peak, -s, v],
            Some(LineRuleSlip::TiesHighestV) => [peak, s, -v],
            Some(LineRuleSlip::TiesAsInOtherEdition) => [peak, (2 * q - 2 - s) % q, v],
            Some(LineRuleSlip::FirstSOnly) => [s, peak, v],
            _ => [peak, s, v],
        }
    }
}

#[cfg(test)]
mod tests;
