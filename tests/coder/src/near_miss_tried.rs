//! What the second decoder answers of the positions tried (02, T-08). It tries none again: the count
//! follows from the weight, the check sums and the position that was corrected.

use crate::decode::{Decoded, Kind};
use crate::erasure::erased_positions;
use crate::near_miss::Decoder;
use crate::near_miss_erasures::with_zeros;
use crate::random_words::excess;
use crate::slip::Slip;

/// One half of w, whose check sum alone disagrees: its first position, 1 or 2, how far its check sum is
/// off, and how far the weight is.
struct WrongHalf {
    start: usize,
    off: u8,
    excess: i64,
}

impl Decoder<'_> {
    /// The count for a word that is decoded so, or unreadable.
    pub fn tried(&self, word: &[u8], decoded: Option<&Decoded>) -> usize {
        let erased = erased_positions(word);
        if !erased.is_empty() {
            return self.tried_of_erased(word, &erased);
        }
        let corrected = decoded.and_then(|decoded| match decoded.kind {
            Kind::Corrected(sent) => Some(sent.position),
            _ => None,
        });
        self.tried_of_levels(word, corrected.filter(|&position| position <= self.profile.m()))
    }

    fn tried_of_erased(&self, word: &[u8], erased: &[usize]) -> usize {
        match self.slip {
            Some(Slip::TriedErasures) => erased.len(),
            Some(Slip::TriedErasedAsZero) => self.tried_of_levels(&with_zeros(word, erased), None),
            _ => 0,
        }
    }

    /// The count for a word of levels in which this position of w was found, or none.
    fn tried_of_levels(&self, word: &[u8], found: Option<usize>) -> usize {
        let w = &word[..self.profile.m()];
        match (self.half(word), found) {
            (None, _) => 0,
            (Some(half), Some(position)) => self.tried_to(w, half, position),
            (Some(half), None) => self.tried_in_vain(w, half),
        }
    }

    /// The half to be tried, if there is one.
    fn half(&self, word: &[u8]) -> Option<WrongHalf> {
        let (w, received) = word.split_at(self.profile.m());
        let excess = excess(self.profile, w);
        if excess == 0 && !self.slips(Slip::TriedBalanced) {
            return None;
        }
        let (start, off) = match (self.check_sums_off(w, received), self.slip) {
            ([0, 0], slip) => (slip == Some(Slip::TriedNeitherOff)).then_some((1, 0)),
            ([odd, 0], _) => Some((1, odd)),
            ([0, even], _) => Some((2, even)),
            ([odd, _], slip) => (slip == Some(Slip::TriedBothOff)).then_some((1, odd)),
        }?;
        Some(WrongHalf { start, off, excess })
    }

    /// The count where a position is found.
    fn tried_to(&self, w: &[u8], half: WrongHalf, position: usize) -> usize {
        let before = (half.start..position).step_by(2);
        match self.slip {
            Some(Slip::TriedBeforeFound) => before.count(),
            Some(Slip::TriedWholeHalf) => self.size(&half),
            Some(Slip::TriedInBothHalves) => position,
            Some(Slip::TriedInRange) => before.filter(|&p| self.stays(w, &half, p)).count() + 1,
            Some(Slip::TriedFalling) => (position..=w.len()).step_by(2).count(),
            _ => position.div_ceil(2),
        }
    }

    /// The count where no position fits.
    fn tried_in_vain(&self, w: &[u8], half: WrongHalf) -> usize {
        let WrongHalf { start, off, excess } = half;
        match self.slip {
            Some(Slip::TriedInBothHalves) => w.len(),
            Some(Slip::TriedInRange) => {
                (start..=w.len()).step_by(2).filter(|&p| self.stays(w, &half, p)).count()
            }
            Some(Slip::TriedZeroUnreadable) => 0,
            Some(Slip::TriedOneLessOdd) if start == 1 => self.profile.n,
            Some(Slip::TriedOneMoreEven) if start == 2 => self.profile.n + 1,
            Some(Slip::TriedZeroOffByOther) if off != self.reduce(excess) => 0,
            Some(Slip::TriedZeroFromQ) if excess.abs() >= self.q() => 0,
            _ => self.size(&half),
        }
    }

    /// Whether the symbol at a position stays in range without the excess.
    fn stays(&self, w: &[u8], half: &WrongHalf, position: usize) -> bool {
        self.remove(w[position - 1], half.excess).is_some()
    }

    /// n + 1 odd positions, or n even ones.
    fn size(&self, half: &WrongHalf) -> usize {
        self.profile.n + 2 - half.start
    }
}
