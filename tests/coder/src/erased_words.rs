//! Random received words with erasures (02, T-01: marks).

use crate::decode::replaced;
use crate::erasure::erased_at;
use crate::profile::Profile;
use crate::random_words::{changed_at, codeword, positions};
use crate::rng::Rng;

/// A way to draw the positions that are erased.
pub type Draw = fn(&Profile, &mut Rng) -> Vec<usize>;

/// The word with `count` positions erased.
pub fn erased(word: &[u8], count: usize, rng: &mut Rng) -> Vec<u8> {
    erased_at(word, &positions(word.len(), count, rng))
}

/// A word with `erasures` positions erased, and another level at `changes` others.
pub fn erased_and_changed(
    profile: &Profile,
    word: &[u8],
    [erasures, changes]: [usize; 2],
    rng: &mut Rng,
) -> Vec<u8> {
    let positions = positions(word.len(), erasures + changes, rng);
    let (to_erase, to_change) = positions.split_at(erasures);
    erased_at(&changed_at(profile, word, to_change, rng), to_erase)
}

/// A codeword by any choice, received so.
pub fn with_erasures(profile: &Profile, counts: [usize; 2], rng: &mut Rng) -> Vec<u8> {
    let word = codeword(profile, rng);
    erased_and_changed(profile, &word, counts, rng)
}

/// A codeword by any choice, erased at positions that are drawn.
pub fn with_erasures_at(profile: &Profile, draw: Draw, rng: &mut Rng) -> Vec<u8> {
    let word = codeword(profile, rng);
    erased_at(&word, &draw(profile, rng))
}

/// One position of w.
pub fn one_of_w(profile: &Profile, rng: &mut Rng) -> Vec<usize> {
    positions(profile.m(), 1, rng)
}

/// Two positions of w, both odd or both even.
pub fn like_parity(profile: &Profile, rng: &mut Rng) -> Vec<usize> {
    two_of_w(profile, rng, |distance| distance % 2 == 0)
}

/// Two positions of w, one odd and one even.
pub fn unlike_parity(profile: &Profile, rng: &mut Rng) -> Vec<usize> {
    two_of_w(profile, rng, |distance| distance % 2 == 1)
}

/// Two positions of w at a distance that will do.
fn two_of_w(profile: &Profile, rng: &mut Rng, will_do: fn(usize) -> bool) -> Vec<usize> {
    loop {
        let pair = positions(profile.m(), 2, rng);
        if will_do(pair[0].abs_diff(pair[1])) {
            return pair;
        }
    }
}

/// Both check symbols.
pub fn both_checks(profile: &Profile, _: &mut Rng) -> Vec<usize> {
    vec![profile.m() + 1, profile.m() + 2]
}

/// One check symbol.
pub fn one_check(profile: &Profile, rng: &mut Rng) -> Vec<usize> {
    vec![profile.m() + rng.from_one_to(2)]
}

/// One position of w, and one check symbol.
pub fn one_of_w_and_one_check(profile: &Profile, rng: &mut Rng) -> Vec<usize> {
    [one_of_w(profile, rng), one_check(profile, rng)].concat()
}

/// A word with one check symbol erased, and another level at the other.
pub fn one_check_erased(profile: &Profile, word: &[u8], rng: &mut Rng) -> Vec<u8> {
    let checks = both_checks(profile, rng);
    let erased = rng.below(2);
    let changed = changed_at(profile, word, &[checks[1 - erased]], rng);
    erased_at(&changed, &[checks[erased]])
}

/// A word with one symbol of w erased, and another level at one check symbol.
pub fn one_check_changed(profile: &Profile, word: &[u8], rng: &mut Rng) -> Vec<u8> {
    let changed = changed_at(profile, word, &one_check(profile, rng), rng);
    erased_at(&changed, &one_of_w(profile, rng))
}

/// A word with `count` symbols erased, and another one out of range: q to 9.
pub fn spoiled_and_erased(profile: &Profile, word: &[u8], count: usize, rng: &mut Rng) -> Vec<u8> {
    let positions = positions(word.len(), count + 1, rng);
    let spoiled = profile.q + rng.below(usize::from(10 - profile.q)) as u8;
    erased_at(&replaced(word, positions[count], spoiled), &positions[..count])
}
