//! Pairs whose words are calm, of small running digital sum (02, T-06: swing), and pairs whose words are wild.
//! Random pairs have no word that is calm enough for its check symbols to count, which they do where the peak
//! over w alone is below q−1, and none that is wild enough to pass a byte.

use crate::codeword::{components_of, Messages};
use crate::component::message_in;
use crate::profile::Profile;
use crate::rng::Rng;

/// Draws a pair of a profile.
pub type Draw = fn(&Profile, &mut Rng) -> Messages;

/// The pair in the components of this w. Its check symbols are others as a rule, so that no word of the pair is
/// this one, but in one try of some hundred one is nearly.
fn messages_in(profile: &Profile, w: &[u8]) -> Messages {
    components_of(profile, w).map(|component| message_in(profile, &component))
}

/// A pair of a w whose running digital sum stays below q−1 in size or, for three levels, within 2.
pub fn calm(profile: &Profile, rng: &mut Rng) -> Messages {
    let highest = usize::from(profile.q) - 1;
    let limit = 2 * rng.from_one_to((highest / 2 - 1).max(1)) as i32;
    messages_in(profile, &calm_w(profile, [limit; 2], rng))
}

/// The same, but that the first symbol is the lowest or the highest level.
pub fn calm_from_second(profile: &Profile, rng: &mut Rng) -> Messages {
    let highest = i32::from(profile.q) - 1;
    let w = calm_w(profile, [highest, highest - 2], rng);
    messages_in(profile, &w)
}

/// A balanced w whose running digital sum is of this size at most at its first place, and of that at all others.
/// At the first place it is the largest that is allowed where the others' limit is lower.
fn calm_w(profile: &Profile, [at_first, limit]: [i32; 2], rng: &mut Rng) -> Vec<u8> {
    let (q, m) = (profile.q, profile.m());
    let highest = i32::from(q) - 1;
    let mut sum = 0;
    let mut w = Vec::new();
    for place in 1..=m {
        // The symbols that are left must be able to take it back to 0.
        let most = if place == 1 { at_first } else { limit }.min((m - place) as i32 * highest);
        let least = if place == 1 && at_first > limit { at_first } else { 0 };
        let after = |level: u8| sum + 2 * i32::from(level) - highest;
        let levels: Vec<u8> =
            (0..q).filter(|&level| (least..=most).contains(&after(level).abs())).collect();
        let level = *rng.pick(&levels);
        sum = after(level);
        w.push(level);
    }
    w
}

/// A pair of a w of few runs of one level each, of which half begin high and end low.
pub fn wild(profile: &Profile, rng: &mut Rng) -> Messages {
    let runs = 1 + rng.from_one_to(4);
    let mut levels = rng.word(profile.q, runs);
    if rng.once_in(2) {
        (levels[0], levels[runs - 1]) = (profile.q - 1, 0);
    }
    let mut ends: Vec<usize> = (1..runs).map(|_| rng.below(profile.m())).collect();
    ends.sort_unstable();
    let run_of = |index: usize| ends.iter().filter(|&&end| end <= index).count();
    let w: Vec<u8> = (0..profile.m()).map(|index| levels[run_of(index)]).collect();
    messages_in(profile, &w)
}
