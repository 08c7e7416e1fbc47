//! That every slip of a converter is told, and what some of them make.

use crate::codeword::{codewords, messages_of};
use crate::edition::profiles_of_both;
use crate::near_miss_conversion::complemented;
use crate::random_words::balanced_noise;

use super::*;

/// Every slip has calls with words of every profile that tell it from the right converter, which is what
/// the search and the second converter without a slip agree on.
#[test]
fn every_slip_is_told() {
    let rng = &mut Rng::new(1);
    for profile in profiles_of_both() {
        for near_miss in CONVERTER_NEAR_MISSES.iter().chain(&NUMBER_NEAR_MISSES) {
            let calls = near_miss.calls(profile, 3, rng);
            assert_eq!(calls.len(), 3, "{:?}, {profile:?}", near_miss.slip);
            for call in calls {
                assert_eq!(call.slipped_answer(None), call.answer(), "{call:?}");
            }
        }
    }
}

/// Without a slip the second converter answers noise as the search does, too.
#[test]
fn without_a_slip_the_answer_is_the_searchs() {
    let rng = &mut Rng::new(2);
    for profile in profiles_of_both() {
        for word in (0..100).filter_map(|_| balanced_noise(profile, rng)) {
            let call = Call::of(profile, word);
            assert_eq!(call.slipped_answer(None), call.answer(), "{call:?}");
        }
    }
}

/// The complement is a codeword of the pair in the other edition, which some pairs' encoder makes: only the
/// choice can be wrong.
#[test]
fn the_complement_is_a_codeword_of_the_pair() {
    let rng = &mut Rng::new(3);
    for profile in profiles_of_both() {
        let other = &profile.in_other_edition();
        for messages in (0..20).map(|_| rng.messages(profile)) {
            for (_, word) in codewords(profile, &messages) {
                let complement = complemented(profile, &word);
                assert_eq!(messages_of(other, &complement).as_ref(), Some(&messages));
            }
        }
    }
}
