//! That the second encoder makes what the search takes, and that some slips do no harm.

use crate::calm_words::{calm, calm_from_second, wild, Draw};
use crate::codeword::all_messages;
use crate::edition::profiles_of_both;
use crate::encode::encoded_word;
use crate::line_rule::LineRule;
use crate::near_miss_pairs::HARMLESS_SLIPS;
use crate::profile::PROFILES_2018;
use crate::rng::Rng;

use super::*;

/// Some pairs of profile 1; of the others random pairs, and pairs of calm and of wild words.
fn pairs(profile: &Profile) -> Vec<Messages> {
    let rng = &mut Rng::new(1);
    if profile.number == 1 {
        return all_messages(profile).step_by(11).collect();
    }
    let random: Draw = |profile, rng| rng.messages(profile);
    let draws = [random, calm, calm_from_second, wild];
    (0..600).map(|count| draws[count % draws.len()](profile, rng)).collect()
}

#[test]
fn without_a_slip_the_word_is_the_one_that_the_search_takes() {
    for profile in profiles_of_both() {
        for messages in pairs(profile) {
            let searched = Some(encoded_word(profile, LineRule::Two, &messages));
            assert_eq!(encode(profile, &messages, None), searched);
        }
    }
}

#[test]
fn some_slips_make_the_same_words() {
    for profile in profiles_of_both() {
        for messages in pairs(profile) {
            let right = encode(profile, &messages, None);
            for slip in HARMLESS_SLIPS {
                assert_eq!(encode(profile, &messages, Some(slip)), right, "{slip:?}");
            }
        }
    }
}

/// With v = m the word is that of the next s with v = 0, which stands next in the order. With v from 1 to m only
/// the word of s = 0 and v = 0 moves, which no profile balances.
#[test]
fn v_may_run_as_in_2013() {
    let slip = Some(LineRuleSlip::VAsInOtherEdition);
    for profile in &PROFILES_2018 {
        for messages in pairs(profile) {
            assert_eq!(encode(profile, &messages, slip), encode(profile, &messages, None));
        }
    }
}
