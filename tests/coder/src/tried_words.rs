//! Random received words by what is tried in them (02, T-08): words that are corrected in w, and
//! unreadable ones of every cause. An attempt may give none.

use crate::codeword::{interleave, with_check_symbols};
use crate::decode::search;
use crate::erased_words::unlike_parity;
use crate::near_miss_words::symbol_and_its_check;
use crate::profile::Profile;
use crate::random_words::{
    balanced_noise, both_check_symbols, changed_at, checks_off, codeword, components, excess,
    off_by_q, positions,
};
use crate::rng::Rng;

/// The positions of w from 1 on, or from 2 on, and the check symbol that goes with them.
#[derive(Debug, Clone, Copy, PartialEq, Eq)]
pub enum Half {
    Odd,
    Even,
}

/// What the weight and the check sums of a received word say.
struct Sums {
    q: i64,
    excess: i64,
    off: [u8; 2],
}

impl Sums {
    fn of(profile: &Profile, word: &[u8]) -> Sums {
        let excess = excess(profile, &word[..profile.m()]);
        Sums { q: i64::from(profile.q), excess, off: checks_off(profile, word) }
    }

    fn is_balanced(&self) -> bool {
        self.excess == 0
    }

    /// Whether the check sum of this half disagrees, and the other does not.
    fn only_off(&self, half: Half) -> bool {
        match half {
            Half::Odd => self.off[0] != 0 && self.off[1] == 0,
            Half::Even => self.off[0] == 0 && self.off[1] != 0,
        }
    }

    /// Whether the check sum that disagrees alone is off by what the weight is off by, mod q.
    fn is_off_by_excess(&self) -> bool {
        i64::from(self.off[0] + self.off[1]) == self.excess.rem_euclid(self.q)
    }

    fn is_off_from_q(&self) -> bool {
        self.excess.abs() >= self.q
    }
}

/// The word, if it is unreadable and its sums are as asked for.
fn if_unreadable(
    profile: &Profile,
    word: Vec<u8>,
    is_asked_for: impl Fn(&Sums) -> bool,
) -> Option<Vec<u8>> {
    let sums = Sums::of(profile, &word);
    (is_asked_for(&sums) && search(profile, &word).is_none()).then_some(word)
}

/// A codeword with one symbol of w changed.
pub fn one_of_w_changed(profile: &Profile, rng: &mut Rng) -> Option<Vec<u8>> {
    let word = codeword(profile, rng);
    let position = rng.from_one_to(profile.m());
    Some(changed_at(profile, &word, &[position], rng))
}

/// A codeword with so many symbols of one half of w changed.
fn changed_in(profile: &Profile, half: Half, count: usize, rng: &mut Rng) -> Vec<u8> {
    let size = if half == Half::Odd { profile.n + 1 } else { profile.n };
    let after = if half == Half::Odd { 1 } else { 0 };
    let drawn = positions(size, count, rng);
    let drawn: Vec<usize> = drawn.into_iter().map(|place| 2 * place - after).collect();
    changed_at(profile, &codeword(profile, rng), &drawn, rng)
}

/// Weight off, and both check sums: an odd and an even symbol of w are wrong.
pub fn both_off(profile: &Profile, rng: &mut Rng) -> Option<Vec<u8>> {
    let drawn = unlike_parity(profile, rng);
    let word = changed_at(profile, &codeword(profile, rng), &drawn, rng);
    if_unreadable(profile, word, |sums| !sums.is_balanced() && !sums.off.contains(&0))
}

/// Weight off by q, and neither check sum.
pub fn neither_off_by_q(profile: &Profile, rng: &mut Rng) -> Option<Vec<u8>> {
    let x = interleave(profile.edition, &components(profile, rng));
    let word = with_check_symbols(profile, &off_by_q(profile, &x, rng)?);
    if_unreadable(profile, word, |sums| sums.is_off_from_q() && sums.off == [0, 0])
}

/// Weight off by less than q, and neither check sum: a symbol of w is wrong, and its check symbol by
/// as much.
pub fn neither_off(profile: &Profile, rng: &mut Rng) -> Option<Vec<u8>> {
    let word = symbol_and_its_check(profile, rng)?;
    if_unreadable(profile, word, |sums| !sums.is_balanced() && sums.off == [0, 0])
}

/// Weight off by less than q, and the check sum of this half alone, by something else.
pub fn off_by_other(profile: &Profile, rng: &mut Rng, half: Half) -> Option<Vec<u8>> {
    let word = symbol_and_its_check(profile, rng)?;
    if_unreadable(profile, word, |sums| {
        !sums.is_balanced()
            && !sums.is_off_from_q()
            && sums.only_off(half)
            && !sums.is_off_by_excess()
    })
}

/// Weight off by less than q, and the check sum of this half alone, by as much mod q; but no position
/// of it fits.
pub fn none_fits(profile: &Profile, rng: &mut Rng, half: Half) -> Option<Vec<u8>> {
    let word = changed_in(profile, half, 2, rng);
    if_unreadable(profile, word, |sums| {
        !sums.is_balanced()
            && !sums.is_off_from_q()
            && sums.only_off(half)
            && sums.is_off_by_excess()
    })
}

/// Weight off by q or more, and the check sum of this half alone, by as much mod q.
pub fn off_from_q(profile: &Profile, rng: &mut Rng, half: Half) -> Option<Vec<u8>> {
    let word = changed_in(profile, half, 3, rng);
    if_unreadable(profile, word, |sums| {
        sums.is_off_from_q() && sums.only_off(half) && sums.is_off_by_excess()
    })
}

/// Weight off by q or more, and the check sum of this half alone, by something else.
pub fn off_from_q_by_other(profile: &Profile, rng: &mut Rng, half: Half) -> Option<Vec<u8>> {
    let check = if half == Half::Odd { profile.m() + 1 } else { profile.m() + 2 };
    let word = changed_in(profile, half, 3, rng);
    let word = changed_at(profile, &word, &[check], rng);
    if_unreadable(profile, word, |sums| {
        sums.is_off_from_q() && sums.only_off(half) && !sums.is_off_by_excess()
    })
}

/// Balanced and with right check symbols, but far from every codeword.
pub fn balanced_far(profile: &Profile, rng: &mut Rng) -> Option<Vec<u8>> {
    let word = balanced_noise(profile, rng)?;
    if_unreadable(profile, word, |sums| sums.is_balanced() && sums.off == [0, 0])
}

/// Balanced, one check symbol wrong, and far from every codeword.
pub fn balanced_one_off(profile: &Profile, rng: &mut Rng) -> Option<Vec<u8>> {
    let check = profile.m() + rng.from_one_to(2);
    let word = balanced_noise(profile, rng)?;
    let word = changed_at(profile, &word, &[check], rng);
    if_unreadable(profile, word, |sums| {
        sums.is_balanced() && (sums.only_off(Half::Odd) || sums.only_off(Half::Even))
    })
}

/// Balanced, both check sums off: an odd symbol of w is too high and an even one too low, or the
/// other way round.
pub fn balanced_two_wrong(profile: &Profile, rng: &mut Rng) -> Option<Vec<u8>> {
    let drawn = unlike_parity(profile, rng);
    let word = changed_at(profile, &codeword(profile, rng), &drawn, rng);
    if_unreadable(profile, word, |sums| sums.is_balanced() && !sums.off.contains(&0))
}

/// Balanced, and both check symbols wrong.
pub fn balanced_both_checks(profile: &Profile, rng: &mut Rng) -> Option<Vec<u8>> {
    let word = both_check_symbols(profile, rng)?;
    if_unreadable(profile, word, |sums| sums.is_balanced() && !sums.off.contains(&0))
}
