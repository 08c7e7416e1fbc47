//! Random received words by what their syndromes say (02, T-09): words with a given error at a given position,
//! and unreadable ones whose syndromes name a position that does not fit, or none. An attempt may give none.

use std::iter::repeat_with;

use crate::balance::{choices, subtract};
use crate::codeword::{components_of, interleave, with_check_symbols};
use crate::component::{column, component_with_syndrome, in_code};
use crate::decode::{replaced, search};
use crate::edition::Edition;
use crate::near_miss_words::{more_than_one_added, one_added_to_both, position_zero};
use crate::profile::Profile;
use crate::random_words::{changed_at, codeword, excess, of_both, Build};
use crate::rng::Rng;
use crate::tried_words::Half;

/// Where 1 was added to make a codeword: the component that is not in code, if one is not.
#[derive(Debug, Clone, Copy, PartialEq, Eq)]
pub enum Added {
    First,
    Second,
    Nowhere,
}

pub const ADDED: [Added; 3] = [Added::First, Added::Second, Added::Nowhere];

/// Where 1 was added to make this codeword.
pub fn added_to(profile: &Profile, codeword: &[u8]) -> Added {
    let components = components_of(profile, &codeword[..profile.m()]);
    match components.each_ref().map(|component| in_code(profile, component)) {
        [false, _] => Added::First,
        [_, false] => Added::Second,
        _ => Added::Nowhere,
    }
}

/// A codeword with 1 added there.
fn codeword_with(profile: &Profile, added: Added, rng: &mut Rng) -> Vec<u8> {
    let mut drawn = repeat_with(|| match added {
        Added::Nowhere => of_both(profile, rng),
        _ => Some(codeword(profile, rng)).filter(|word| added_to(profile, word) == added),
    });
    drawn.find_map(|word| word).expect("there is no end of words")
}

/// Every error, from −(q−1) to q−1, but 0.
pub fn errors(profile: &Profile) -> Vec<i16> {
    let highest = i16::from(profile.q) - 1;
    (-highest..=highest).filter(|&error| error != 0).collect()
}

/// Whether a symbol can be wrong by as much. Where 1 was added to neither component, whose symbols then sum to 0,
/// the first and the last symbol of w are the same, and always (q−1)/2; every other one is sent as every level.
fn occurs(profile: &Profile, added: Added, position: usize, error: i16) -> bool {
    let is_fixed = added == Added::Nowhere && [1, profile.m()].contains(&position);
    !is_fixed || error.unsigned_abs() <= u16::from(profile.q / 2)
}

/// How many codewords are drawn before one is used again.
const ENOUGH: usize = 40;

/// Codewords of a profile, drawn as they are wanted: a new one takes long, where 1 is to be added nowhere.
pub struct Codewords<'a> {
    profile: &'a Profile,
    drawn: [Vec<Vec<u8>>; ADDED.len()],
}

impl Codewords<'_> {
    pub fn of(profile: &Profile) -> Codewords<'_> {
        Codewords { profile, drawn: Default::default() }
    }

    /// A codeword with 1 added there, received with this error at a position; none where it cannot occur.
    pub fn with_error(
        &mut self,
        added: Added,
        position: usize,
        error: i16,
        rng: &mut Rng,
    ) -> Option<Vec<u8>> {
        if !occurs(self.profile, added, position, error) {
            return None;
        }
        let received = |word: &Vec<u8>| {
            let level = u8::try_from(i16::from(word[position - 1]) + error).ok()?;
            (level < self.profile.q).then(|| replaced(word, position, level))
        };
        let drawn = &mut self.drawn[added as usize];
        loop {
            let fitting: Vec<Vec<u8>> = drawn.iter().filter_map(received).collect();
            if drawn.len() >= ENOUGH && !fitting.is_empty() {
                return Some(rng.pick(&fitting).clone());
            }
            drawn.push(codeword_with(self.profile, added, rng));
        }
    }

    /// The same with 1 added anywhere.
    pub fn with_any_error(&mut self, position: usize, error: i16, rng: &mut Rng) -> Vec<u8> {
        let mut received = repeat_with(|| {
            let added = *rng.pick(&ADDED);
            self.with_error(added, position, error, rng)
        });
        received.find_map(|word| word).expect("every error occurs at every position")
    }
}

/// A codeword with the first symbol of w changed.
pub fn first_changed(profile: &Profile, rng: &mut Rng) -> Option<Vec<u8>> {
    Some(changed_at(profile, &codeword(profile, rng), &[1], rng))
}

/// A codeword with the last symbol of w changed.
pub fn last_changed(profile: &Profile, rng: &mut Rng) -> Option<Vec<u8>> {
    Some(changed_at(profile, &codeword(profile, rng), &[profile.m()], rng))
}

/// A codeword with one symbol of w changed, and the check symbol of the other parity.
pub fn symbol_and_other_check(profile: &Profile, rng: &mut Rng) -> Option<Vec<u8>> {
    let position = rng.from_one_to(profile.m());
    let other = if position % 2 == 1 { profile.m() + 2 } else { profile.m() + 1 };
    Some(changed_at(profile, &codeword(profile, rng), &[position, other], rng))
}

/// A word that only its components give away as no codeword, with one symbol of w changed, if no codeword is
/// near.
fn none_below(profile: &Profile, rng: &mut Rng, build: Build) -> Option<Vec<u8>> {
    let word = build(profile, rng)?;
    let position = rng.from_one_to(profile.m());
    let received = changed_at(profile, &word, &[position], rng);
    Some(received).filter(|received| search(profile, received).is_none())
}

/// Without the error a syndrome is zeros with a last 1, which names place 0.
pub fn position_zero_below(profile: &Profile, rng: &mut Rng) -> Option<Vec<u8>> {
    none_below(profile, rng, position_zero)
}

/// Without the error both syndromes are columns.
pub fn two_columns_below(profile: &Profile, rng: &mut Rng) -> Option<Vec<u8>> {
    none_below(profile, rng, one_added_to_both)
}

/// Without the error a syndrome is a column 2 to q−1 times.
pub fn multiple_below(profile: &Profile, rng: &mut Rng) -> Option<Vec<u8>> {
    none_below(profile, rng, more_than_one_added)
}

/// Draws both syndromes, told how often an error adds a column to each of them, mod q.
type Draw = fn(&Profile, [u8; 2], &mut Rng) -> [Vec<u8>; 2];

/// An unreadable word with syndromes that are drawn, whose weight is off by less than q, as is one check sum by
/// as much mod q.
fn with_syndromes(profile: &Profile, rng: &mut Rng, draw: Draw) -> Option<Vec<u8>> {
    let Profile { q, edition, .. } = *profile;
    let error = *rng.pick(&errors(profile));
    let half = *rng.pick(&[Half::Odd, Half::Even]);
    let [gain, loss] = [error, -error].map(|number| number.rem_euclid(q.into()) as u8);
    let is_added_to_first = (half == Half::Even) == (edition == Edition::Of2013);
    let times = if is_added_to_first { [gain, loss] } else { [loss, gain] };
    let components = draw(profile, times, rng)
        .map(|drawn| component_with_syndrome(profile, &rng.word(q, profile.k()), &drawn));
    let x = interleave(edition, &components);
    let mut words = choices(edition, q, x.len())
        .filter(|choice| choice.adds_nothing(edition))
        .map(|choice| choice.apply(edition, q, &x));
    let w = words.find(|w| excess(profile, w) == error.into())?;
    let word = with_check_symbols(profile, &w);
    let check = if half == Half::Odd { profile.m() + 1 } else { profile.m() + 2 };
    let received = replaced(&word, check, subtract(q, word[check - 1], gain));
    Some(received).filter(|received| search(profile, received).is_none())
}

/// Neither syndrome is as many times a column as the error adds one.
pub fn no_column_named(profile: &Profile, rng: &mut Rng) -> Option<Vec<u8>> {
    with_syndromes(profile, rng, |profile, times, rng| {
        times.map(|times| {
            let last = rng.other_level(profile.q, times);
            [rng.word(profile.q, profile.r - 1), vec![last]].concat()
        })
    })
}

/// Both syndromes are zeros but for the last row: they name place 0, or an end of w.
pub fn position_zero_named(profile: &Profile, rng: &mut Rng) -> Option<Vec<u8>> {
    with_syndromes(profile, rng, |profile, _, rng| {
        [(); 2].map(|()| [vec![0; profile.r - 1], vec![rng.other_level(profile.q, 0)]].concat())
    })
}

/// Both syndromes name a position, but neither leaves those of a codeword.
pub fn wrong_columns_named(profile: &Profile, rng: &mut Rng) -> Option<Vec<u8>> {
    with_syndromes(profile, rng, |profile, times, rng| {
        times.map(|times| {
            let entries = column(profile, rng.from_one_to(profile.n));
            entries.iter().map(|entry| entry * times % profile.q).collect()
        })
    })
}

#[cfg(test)]
mod tests {
    use crate::decode::{Decoded, Kind, Sent};
    use crate::edition::profiles_of_both;
    use crate::random_words::checks_off;

    use super::*;

    /// A word with an error is read with that error, at that position, and as the codeword with 1 added there.
    #[test]
    fn an_error_is_where_it_was_asked_for() {
        let rng = &mut Rng::new(1);
        for profile in profiles_of_both() {
            let mut codewords = Codewords::of(profile);
            for added in ADDED {
                for error in errors(profile) {
                    let position = rng.from_one_to(profile.m());
                    let Some(word) = codewords.with_error(added, position, error, rng) else {
                        assert!(!occurs(profile, added, position, error));
                        continue;
                    };
                    let (decoded, _) = search(profile, &word).unwrap();
                    assert_eq!(added_to(profile, &decoded.codeword(&word)), added);
                    let symbol = decoded.codeword(&word)[position - 1];
                    let kind = Kind::Corrected(Sent { position, symbol });
                    assert_eq!(decoded, Decoded { kind, error });
                }
            }
        }
    }

    /// Both ends of w are (q−1)/2 in every codeword that has 1 added nowhere, so that no larger error occurs there.
    #[test]
    fn the_ends_of_w_are_fixed_where_1_was_added_nowhere() {
        let rng = &mut Rng::new(3);
        for profile in profiles_of_both().flat_map(|profile| [profile; 10]) {
            let half = profile.q / 2;
            let word = codeword_with(profile, Added::Nowhere, rng);
            for position in [1, profile.m()] {
                assert_eq!(word[position - 1], half);
                for error in errors(profile) {
                    let level = i16::from(half) + error;
                    let is_level = (0..profile.q.into()).contains(&level);
                    assert_eq!(occurs(profile, Added::Nowhere, position, error), is_level);
                }
            }
        }
    }

    /// Words that were built for their syndromes are unreadable for nothing else: the weight is off by less than
    /// q, and one check sum alone by as much.
    #[test]
    fn only_the_syndromes_make_a_word_unreadable() {
        let rng = &mut Rng::new(2);
        let builds: [Build; 6] = [
            position_zero_below,
            two_columns_below,
            multiple_below,
            no_column_named,
            position_zero_named,
            wrong_columns_named,
        ];
        for profile in profiles_of_both() {
            let q = i64::from(profile.q);
            for build in builds {
                let built = repeat_with(|| build(profile, rng)).flatten();
                for word in built.take(20).collect::<Vec<_>>() {
                    let excess = excess(profile, &word[..profile.m()]);
                    let off = checks_off(profile, &word);
                    assert!(excess != 0 && excess.abs() < q && off.contains(&0));
                    assert_eq!(i64::from(off[0] + off[1]), excess.rem_euclid(q));
                    assert_eq!(search(profile, &word), None);
                }
            }
        }
    }
}
