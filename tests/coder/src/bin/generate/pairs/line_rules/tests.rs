//! That the pairs tell encoders by line rule 2 with a slip from the right one, and calls that name a line rule.

use coder::line_rule_slip::LineRuleSlip;
use coder::near_miss_pairs::HARMLESS_SLIPS;
use coder::near_miss_peaks::encode;
use coder::near_miss_rules::{call, EARLY_SLIPS, RULE_SLIPS};

use super::*;
use crate::pairs::tests::{encoded, Stored, STORED};

/// The pairs by rule 2 tell every slip in every profile of both editions in which it does harm. Without a slip, and
/// with one that does no harm, every word is that which the search makes.
#[test]
fn every_slip_is_told() {
    for profile in profiles_of_both() {
        let pairs = encoded(profile, LineRule::Two);
        let is_told = |slip: Option<LineRuleSlip>| {
            let makes = |pair| encode(profile, pair, slip);
            pairs.iter().any(|(pair, word)| makes(pair).as_ref() != Some(word))
        };
        assert!(!is_told(None), "{profile:?}");
        for near_miss in &PAIR_NEAR_MISSES {
            let slip = near_miss.slip;
            assert_eq!(is_told(Some(slip)), near_miss.harms(profile), "{slip:?}, {profile:?}");
        }
        for slip in HARMLESS_SLIPS {
            assert!(!is_told(Some(slip)), "{slip:?}, {profile:?}");
        }
    }
}

/// Whether a call with this slip is answered otherwise than it should be.
fn gets_wrong(slip: LineRuleSlip, stored: &Stored) -> bool {
    let answer = call(slip, stored.told, |told| stored.answer(told));
    answer.unwrap_or_else(|refusal| refusal.to_string()) != stored.expected
}

/// The calls of every profile of both editions tell every slip of the rule's number and of its place in the order,
/// and those that name no edition or no profile tell the other two. Refusals stand last, so they are tried first.
#[test]
fn every_slip_of_a_call_is_told() {
    for profile in profiles_of_both() {
        let named = [profile.edition.number(), profile.number];
        for slip in RULE_SLIPS {
            let mut calls = STORED.iter().rev().filter(|stored| stored.told[..2] == named);
            assert!(calls.any(|stored| gets_wrong(slip, stored)), "{slip:?}, {profile:?}");
        }
    }
    for slip in EARLY_SLIPS {
        assert!(STORED.iter().rev().any(|stored| gets_wrong(slip, stored)), "{slip:?}");
    }
}

/// Every answer is met under both rules, and with every other rule: the word, and every number.
#[test]
fn every_answer_is_met() {
    for profile in profiles_of_both() {
        let named = [profile.edition.number(), profile.number];
        let of_profile = || STORED.iter().filter(|stored| stored.told[..2] == named);
        for rule in [1, 2] {
            let mut answers = of_profile().filter(|stored| stored.told[2] == rule);
            let length = profile.word_length();
            assert!(answers.any(|stored| stored.expected.len() == length), "{profile:?}");
        }
        for refusal in ["R 2", "R 3", "R 14"] {
            let mut answers = of_profile();
            assert!(answers.any(|stored| stored.expected == refusal), "{refusal}, {profile:?}");
        }
    }
}

/// Both rules make one word of some pairs by rule 2, and two of others.
#[test]
fn the_rules_agree_for_some_pairs_only() {
    for profile in profiles_of_both() {
        let words = encoded(profile, LineRule::Two);
        let is_of_both = |(pair, word): &(&Messages, Vec<u8>)| {
            coder::encode::encoded_word(profile, LineRule::One, pair) == *word
        };
        let agreeing = words.iter().filter(|pair| is_of_both(pair)).count();
        assert!(agreeing > 20 && agreeing < words.len() - 20, "{profile:?}: {agreeing}");
    }
}
