//! That every slip is told where it does harm, and does none elsewhere.

use crate::codeword::{all_messages, codewords};
use crate::edition::profiles_of_both;
use crate::encode::encoded_word;
use crate::line_rule::LineRule;
use crate::peak::running_digital_sums;

use super::*;

/// Every slip has pairs in every profile in which it does harm that tell it from the right encoder, which is what
/// the search and the second encoder without a slip agree on.
#[test]
fn every_slip_is_told() {
    let rng = &mut Rng::new(1);
    for profile in profiles_of_both() {
        for near_miss in &PAIR_NEAR_MISSES {
            let pairs = near_miss.pairs(profile, 2, rng);
            let expected = if near_miss.harms(profile) { 2 } else { 0 };
            assert_eq!(pairs.len(), expected, "{:?}, {profile:?}", near_miss.slip);
            for messages in pairs {
                let searched = encoded_word(profile, LineRule::Two, &messages);
                assert_eq!(encode(profile, &messages, None), Some(searched));
            }
        }
    }
}

/// In the other profiles no pair tells it that is drawn in the way that tells it elsewhere; in profile 1 none of a
/// ninth of all pairs.
#[test]
fn elsewhere_a_slip_does_no_harm() {
    let rng = &mut Rng::new(2);
    for profile in profiles_of_both() {
        for near_miss in PAIR_NEAR_MISSES.iter().filter(|near_miss| !near_miss.harms(profile)) {
            let is_told = match profile.number {
                1 => all_messages(profile)
                    .step_by(9)
                    .any(|pair| near_miss.gets_wrong(profile, &pair)),
                _ => (0..3000)
                    .map(|_| near_miss.draw(profile, rng))
                    .any(|pair| near_miss.gets_wrong(profile, &pair)),
            };
            assert!(!is_told, "{:?}, {profile:?}", near_miss.slip);
        }
    }
}

/// For three levels every swing is even, and those at the first place and at α are 2 at most. So one of them counts
/// only where all swings between are 0. Only the zero pair has such a w, and it has no other word.
#[test]
fn for_three_levels_only_the_zero_pair_has_a_calmer_w() {
    for profile in profiles_of_both().filter(|profile| profile.q == 3) {
        let rng = &mut Rng::new(3);
        let zeros = [(); 2].map(|()| vec![0; profile.k()]);
        let pairs: Vec<Messages> = match profile.number {
            1 => all_messages(profile).step_by(4).collect(),
            _ => (0..2000).map(|_| calm(profile, rng)).chain([zeros.clone()]).collect(),
        };
        for messages in pairs {
            let words = codewords(profile, &messages);
            let is_calmer = words.iter().any(|(_, word)| {
                let swings = running_digital_sums(profile.q, &word[..profile.m()]);
                swings[1..].iter().all(|&swing| swing == 0)
            });
            assert_eq!(is_calmer, messages == zeros);
            assert!(messages != zeros || words.len() == 1);
        }
    }
}
