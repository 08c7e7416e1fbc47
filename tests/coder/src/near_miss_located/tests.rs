//! That the decoder by syndromes answers as the search does, and that two candidates are enough for its step.

use crate::codeword::Messages;
use crate::decode::{decode_word, Answer};
use crate::edition::profiles_of_both;
use crate::erased_words::with_erasures;
use crate::fillings::digits;
use crate::located_near_misses::HARMLESS_SLIPS;
use crate::located_words::errors;
use crate::location::located;
use crate::random_words::{balanced_noise, with_changes};
use crate::rng::Rng;

use super::*;

fn without_count(
    answer: Result<(Answer, Messages), Refusal>,
) -> Result<(Decoded, Messages), Refusal> {
    let answer = answer.map(|(Answer { decoded, .. }, messages)| (decoded, messages));
    answer.map_err(Refusal::without_count)
}

/// On codewords with up to three symbols changed, with up to three erased, and on noise, balanced and not; and
/// the step answers the position of every word that is corrected in w.
#[test]
fn the_search_agrees_with_the_syndromes() {
    let rng = &mut Rng::new(1);
    for profile in profiles_of_both() {
        for count in 0..300 {
            let words = [
                Some(with_changes(profile, count % 4, rng)),
                Some(with_erasures(profile, [count % 4, count / 4 % 2], rng)),
                Some(rng.word(profile.q, profile.word_length())),
                balanced_noise(profile, rng),
            ];
            for word in words.into_iter().flatten() {
                let right = without_count(decode_word(profile, &word));
                assert_eq!(decode(profile, &word, None), right, "{profile:?}, {word:?}");
                if let Some((handed, sent)) = located(profile, &word) {
                    assert_eq!(position(profile, &handed, None), Some(sent.position));
                }
            }
        }
    }
}

/// All that the step can be handed in profile 1, and some of it in the others.
fn handed(profile: &Profile, rng: &mut Rng) -> Vec<Handed> {
    let r = profile.r;
    let syndrome_count = usize::from(profile.q).pow(r as u32);
    let pairs: Vec<[usize; 2]> = match profile.number {
        1 => (0..syndrome_count * syndrome_count)
            .map(|pair| [pair / syndrome_count, pair % syndrome_count])
            .collect(),
        _ => (0..400).map(|_| [(); 2].map(|()| rng.below(syndrome_count))).collect(),
    };
    let columns = (0..400).map(|_| {
        let near = rng.below(2);
        let mut pair = [rng.below(syndrome_count); 2];
        pair[near] = 0;
        pair
    });
    let pairs: Vec<[usize; 2]> = pairs.into_iter().chain(columns).collect();
    let halves = [Half::Odd, Half::Even];
    let kinds: Vec<(Half, i16)> = halves
        .into_iter()
        .flat_map(|half| errors(profile).into_iter().map(move |e| (half, e)))
        .collect();
    let all = pairs.iter().flat_map(|pair| {
        let syndromes = pair.map(|number| digits(profile.q, r, number));
        kinds.iter().map(move |&(half, error)| Handed { half, error, syndromes: syndromes.clone() })
    });
    all.collect()
}

/// Whatever the syndromes are, at most one position of a half leaves those of a codeword, and a candidate is
/// that one. So it does not matter which is tested first, nor whether two columns pass.
#[test]
fn two_candidates_are_enough() {
    let rng = &mut Rng::new(2);
    for profile in profiles_of_both() {
        for handed in handed(profile, rng) {
            let start = if handed.half == Half::Odd { 1 } else { 2 };
            let positions = (start..=profile.m()).step_by(2);
            let near: Vec<usize> =
                positions.filter(|&p| is_near_without(profile, &handed, p)).collect();
            assert!(near.len() <= 1, "{profile:?}, {handed:?}: {near:?}");
            let right = near.first().copied();
            assert_eq!(position(profile, &handed, None), right, "{profile:?}, {handed:?}");
            for slip in HARMLESS_SLIPS {
                assert_eq!(position(profile, &handed, Some(slip)), right, "{slip:?}");
            }
        }
    }
}
