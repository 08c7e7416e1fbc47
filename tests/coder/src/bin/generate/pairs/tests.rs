//! That the pairs tell encoders with a slip from the right one.

use std::sync::LazyLock;

use coder::edition::profiles_of_both;
use coder::near_miss_editions::{self, CALL_SLIPS, ENCODER_SLIPS, HARMLESS_SLIPS};
use coder::near_miss_sums::{self, SUM_SLIPS};
use coder::profile::{PROFILES, PROFILES_2018};
use coder::refusal::Refusal;
use coder::text::symbols;

use super::*;

/// A call, and the line that answers it.
pub struct Stored {
    pub told: Told,
    pub messages: Messages,
    length: usize,
    pub expected: String,
}

impl Stored {
    /// What the call answers if it is told this.
    pub fn answer(&self, [edition, profile, rule]: Told) -> Result<String, Refusal> {
        let [first, second] = &self.messages;
        let mut output = vec![FILLER; self.length];
        encode(edition, profile, rule, first, second, &mut output).map(|()| digits(&output))
    }
}

/// Every call that is stored.
pub static STORED: LazyLock<Vec<Stored>> = LazyLock::new(|| {
    let file = make();
    let [input, expected] =
        [&file.input, &file.expected].map(|bytes| std::str::from_utf8(bytes).unwrap());
    let cases = input.lines().zip(expected.lines());
    cases.map(|(case, expected)| stored(case, expected)).collect()
});

fn stored(case: &str, expected: &str) -> Stored {
    let fields: Vec<&str> = case.split(' ').collect();
    Stored {
        told: [fields[0], fields[1], fields[2]].map(|field| field.parse().unwrap()),
        messages: [fields[3], fields[4]].map(symbols),
        length: fields[5].parse().unwrap(),
        expected: expected.to_string(),
    }
}

/// The pairs of a profile that are encoded by a line rule, each with its word.
pub fn encoded(profile: &Profile, rule: LineRule) -> Vec<(&'static Messages, Vec<u8>)> {
    let told = [profile.edition.number(), profile.number, rule.number()];
    let calls = STORED.iter().filter(|call| call.told == told && !call.expected.starts_with('R'));
    calls.map(|call| (&call.messages, symbols(&call.expected))).collect()
}

/// The zero pair is balanced by s = 0 and v = 1, which both orders try first.
#[test]
fn the_order_of_trying_matters_to_some_pairs() {
    let depends = |pair: [&str; 2]| depends_on_order(&PROFILES[0], &pair.map(symbols));
    assert!(!depends(["00000", "00000"]));
    assert!(depends(["20000", "12002"]));
}

/// The pairs tell an encoder with a slip of T-05 from the right one, in every profile in which the
/// slip does harm. Without a slip its sums make every word that the search makes.
#[test]
fn every_slip_of_the_sums_is_told() {
    for profile in profiles_of_both() {
        let pairs = encoded(profile, LineRule::One);
        let is_told = |slip| {
            let mut pairs = pairs.iter();
            pairs.any(|(pair, word)| near_miss_sums::encode(profile, pair, slip) != *word)
        };
        assert!(!is_told(None), "profile {}", profile.number);
        for (slip, harmed) in SUM_SLIPS {
            let does_harm = harmed.contains(&profile.number);
            assert_eq!(is_told(Some(slip)), does_harm, "{slip:?}, profile {}", profile.number);
        }
    }
}

/// The pairs tell an encoder with a slip of T-03 from the right one, in every profile, but for those that
/// do no harm.
#[test]
fn every_slip_of_the_edition_is_told() {
    for profile in &PROFILES_2018 {
        let pairs = encoded(profile, LineRule::One);
        let is_told = |slip| {
            let makes = |pair| near_miss_editions::encode(profile, pair, slip);
            pairs.iter().any(|(pair, word)| makes(pair).as_ref() != Some(word))
        };
        assert!(!is_told(None), "profile {}", profile.number);
        for slip in ENCODER_SLIPS {
            assert!(is_told(Some(slip)), "{slip:?}, profile {}", profile.number);
        }
        for slip in HARMLESS_SLIPS {
            assert!(!is_told(Some(slip)), "{slip:?}, profile {}", profile.number);
        }
    }
}

/// The pairs tell every order of refusals in which the edition stands at another place.
#[test]
fn every_slip_of_a_call_is_told() {
    for slip in CALL_SLIPS {
        let is_told = STORED.iter().any(|call| {
            let [edition, profile, rule] = call.told;
            let right = |edition| call.answer([edition, profile, rule]);
            let answer = near_miss_editions::call(slip, edition, profile, right);
            answer.unwrap_or_else(|refusal| refusal.to_string()) != call.expected
        });
        assert!(is_told, "{slip:?}");
    }
}
