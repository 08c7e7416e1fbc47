//! A decoder that finds the position of an error from the syndromes and tries none (02, T-09: A reader that
//! doesn't try places), in which one step can be got wrong on purpose. Without a slip it must answer as the
//! search does, the count aside.
//!
//! An error at an even position 2a adds a multiple of column a to the first syndrome, and takes it from the
//! second; at an odd one, 2a+1, it adds a multiple of column a to the second, and takes one of column a+1 from
//! the first. In a codeword one of the two syndromes is zero: so one of those received is such a multiple, and
//! names the position. That makes two candidates, of which at most one leaves the syndromes of a codeword.

use crate::balance::{add, subtract};
use crate::codeword::Messages;
use crate::component::column;
use crate::decode::{replaced, Decoded, Sent};
use crate::edition::Edition;
use crate::located_slip::LocatedSlip;
use crate::location::{syndromes, Handed};
use crate::near_miss::Decoder;
use crate::profile::Profile;
use crate::random_words::{checks_off, excess};
use crate::refusal::Refusal;
use crate::slip::Slip;
use crate::tried_words::Half;

/// What the decoder answers to a word of N symbols with this slip, or with none. Words of levels that are off
/// balance are its own; all others have no position to be found, and are left to the second decoder.
pub fn decode(
    profile: &Profile,
    word: &[u8],
    slip: Option<LocatedSlip>,
) -> Result<(Decoded, Messages), Refusal> {
    let is_off = |word: &[u8]| excess(profile, &word[..profile.m()]) != 0;
    let found = if profile.require_levels(word).is_ok() && is_off(word) {
        Locator { profile, slip }.correct(word)
    } else {
        Decoder { profile, slip: None }.find(word)?
    };
    found.ok_or(Refusal::Unreadable { tried: 0 })
}

/// The position of w that the step answers with this slip, or with none.
pub fn position(profile: &Profile, handed: &Handed, slip: Option<LocatedSlip>) -> Option<usize> {
    Locator { profile, slip }.position(handed)
}

/// Whether the syndromes are those of a codeword once this error is taken from the symbol at a position.
pub fn is_near_without(profile: &Profile, handed: &Handed, position: usize) -> bool {
    let locator = Locator { profile, slip: None };
    let gain = locator.gain(handed.error.into());
    locator.is_near(&locator.moved(&handed.syndromes, Candidate { named_by: 0, position }, gain))
}

/// A position, and the component whose syndrome names it: 0 or 1.
#[derive(Clone, Copy)]
struct Candidate {
    named_by: usize,
    position: usize,
}

struct Locator<'a> {
    profile: &'a Profile,
    slip: Option<LocatedSlip>,
}

impl Locator<'_> {
    fn slips(&self, slip: LocatedSlip) -> bool {
        self.slip == Some(slip)
    }

    /// The second decoder, whose steps are shared.
    fn decoder(&self) -> Decoder<'_> {
        let slip = self.slips(LocatedSlip::RangeUntested).then_some(Slip::RemovedModQ);
        Decoder { profile: self.profile, slip }
    }

    /// Corrects a symbol of w, which is off balance.
    fn correct(&self, word: &[u8]) -> Option<(Decoded, Messages)> {
        let w = &word[..self.profile.m()];
        let (half, error) = self.wrong_half(word)?;
        let handed = Handed { half, error: error as i16, syndromes: syndromes(self.profile, w) };
        let position = self.position(&handed)?;
        let symbol = self.decoder().remove(w[position - 1], error)?;
        let corrected = replaced(w, position, symbol);
        // What a slip took for a codeword may be none: its components then stay as they are.
        let as_they_are = Decoder { profile: self.profile, slip: Some(Slip::FirstInRange) };
        let messages = self.decoder().undo(&corrected).or_else(|| as_they_are.undo(&corrected))?;
        Some((Decoded::corrected(Sent { position, symbol }, w[position - 1]), messages))
    }

    /// The half whose check sum alone disagrees, by what the weight is off by, mod q; and how far the weight is
    /// off: that is the error.
    fn wrong_half(&self, word: &[u8]) -> Option<(Half, i64)> {
        let q = i64::from(self.profile.q);
        let excess = excess(self.profile, &word[..self.profile.m()]);
        let error = if self.slips(LocatedSlip::ExcessReduced) { excess % q } else { excess };
        if error.abs() >= q && !self.slips(LocatedSlip::ExcessUntested) {
            return None;
        }
        let [odd, even] = checks_off(self.profile, word);
        let halves = [(Half::Odd, odd, even), (Half::Even, even, odd)];
        let (half, ..) = halves.into_iter().find(|&(_, off, other)| {
            off != 0
                && (other == 0 || self.slips(LocatedSlip::BothOffTaken))
                && (off == self.decoder().reduce(error)
                    || self.slips(LocatedSlip::CheckSumUntested))
        })?;
        Some((half, error))
    }

    /// Of the two candidates the first that passes the test.
    fn position(&self, handed: &Handed) -> Option<usize> {
        let gain = self.gain(handed.error.into());
        let half = match (handed.half, self.slips(LocatedSlip::ParitiesExchanged)) {
            (Half::Odd, false) | (Half::Even, true) => Half::Odd,
            _ => Half::Even,
        };
        let components: &[usize] = match self.slip {
            Some(LocatedSlip::FirstOnly) => &[0],
            Some(LocatedSlip::SecondOnly) => &[1],
            Some(LocatedSlip::SecondFirst) => &[1, 0],
            _ => &[0, 1],
        };
        let candidates = components.iter().filter_map(|&named_by| {
            let column = self.named(half, named_by, gain, &handed.syndromes[named_by])?;
            let position = self.candidate(half, named_by, column)?;
            (position <= self.profile.m()).then_some(Candidate { named_by, position })
        });
        let passes = |candidate: &Candidate| {
            self.slips(LocatedSlip::CandidateUntested)
                || self.is_near(&self.moved(&handed.syndromes, *candidate, gain))
        };
        candidates.into_iter().find(passes).map(|candidate| candidate.position)
    }

    /// How much more a symbol of the first component is, mod q, for an error at the even position that goes with
    /// it: the error or, in edition 18, its negative.
    fn gain(&self, error: i64) -> u8 {
        let error = match self.slip {
            Some(LocatedSlip::ErrorTurned) => -error,
            Some(LocatedSlip::ErrorSizeTaken) => error.abs(),
            _ => error,
        };
        let is_turned = self.profile.edition == Edition::Of2018;
        let is_turned = is_turned && !self.slips(LocatedSlip::SignNotTurned);
        self.decoder().reduce(if is_turned { -error } else { error })
    }

    /// Whether what a position of this half gains is added to this component, and not taken from it.
    fn is_added(half: Half, component: usize) -> bool {
        matches!((half, component), (Half::Even, 0) | (Half::Odd, 1))
    }

    /// The number of the column that the syndrome is a multiple of, if it is one of the error's; 0 for a
    /// syndrome of zeros.
    fn named(&self, half: Half, component: usize, gain: u8, syndrome: &[u8]) -> Option<usize> {
        let q = self.profile.q;
        let is_negative =
            Self::is_added(half, component) == self.slips(LocatedSlip::DividedByNegative);
        let moved_by = if is_negative { subtract(q, 0, gain) } else { gain };
        let inverse = (1..q).find(|inverse| inverse * moved_by % q == 1)?;
        let factor = if self.slips(LocatedSlip::NotInverted) { moved_by } else { inverse };
        let digits = &syndrome[..syndrome.len() - 1];
        let divided: Vec<u8> = digits.iter().map(|digit| digit * factor % q).collect();
        let from_zero = matches!(
            self.slip,
            Some(LocatedSlip::NamedFromZero) | Some(LocatedSlip::ColumnsFromZero)
        );
        Some(self.decoder().number(&divided) + usize::from(from_zero))
    }

    /// The position of a half that meets this column of a component. There is one more odd position than there
    /// are columns: the last meets none of the first component, and the first none of the second.
    fn candidate(&self, half: Half, component: usize, column: usize) -> Option<usize> {
        match (half, component, column) {
            (Half::Even, _, 0) => None,
            (Half::Even, _, _) => Some(2 * column),
            (Half::Odd, 0, 0) => {
                (!self.slips(LocatedSlip::LastForgotten)).then_some(self.profile.m())
            }
            (Half::Odd, 0, _) => Some(2 * column - 1),
            (Half::Odd, _, 0) => (!self.slips(LocatedSlip::FirstForgotten)).then_some(1),
            (Half::Odd, _, _) => Some(2 * column + 1),
        }
    }

    /// The syndromes without what an error at this position added to one and took from the other.
    fn moved(&self, syndromes: &[Vec<u8>; 2], candidate: Candidate, gain: u8) -> [Vec<u8>; 2] {
        let Candidate { named_by, position } = candidate;
        let q = self.profile.q;
        [0, 1].map(|component| {
            // In x an error is added at its position, and taken at the next one.
            let is_added = (position + component) % 2 == 0;
            let met = if is_added { position / 2 } else { position.div_ceil(2) };
            let stays = self.slips(LocatedSlip::OtherNotMoved) && component != named_by;
            if !(1..=self.profile.n).contains(&met) || stays {
                return syndromes[component].clone();
            }
            let from_zero = usize::from(self.slips(LocatedSlip::ColumnsFromZero));
            let entries = column(self.profile, met - from_zero);
            let rows = syndromes[component].iter().zip(entries);
            let without = if is_added { subtract } else { add };
            rows.map(|(&row, entry)| without(q, row, gain * entry % q)).collect()
        })
    }

    /// Whether the syndromes are those of a codeword: one is zero, and the other is zero or a column.
    fn is_near(&self, syndromes: &[Vec<u8>; 2]) -> bool {
        let added = syndromes.each_ref().map(|syndrome| match self.slip {
            Some(LocatedSlip::LastRowUntested) => {
                Some(self.decoder().number(&syndrome[..syndrome.len() - 1]))
            }
            _ => self.decoder().added_at(syndrome),
        });
        match added {
            [Some(first), Some(second)] => {
                first == 0 || second == 0 || self.slips(LocatedSlip::BothColumnsTaken)
            }
            _ => false,
        }
    }
}

#[cfg(test)]
mod tests;
