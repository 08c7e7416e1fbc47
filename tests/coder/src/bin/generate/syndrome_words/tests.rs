//! That the words tell decoders by syndromes with a slip from the right one.

use coder::edition::profiles_of_both;
use coder::located_near_misses::{harmful_slips, HARMLESS_SLIPS};
use coder::located_slip::LocatedSlip;
use coder::near_miss_editions::{self, CALL_SLIPS};
use coder::near_miss_located;

use crate::words::stored::{stored, Stored};

use super::*;

/// The line that answers a word of the right length, with a slip or with none.
fn slipped_answer(profile: &Profile, word: &[u8], slip: Option<LocatedSlip>) -> String {
    match near_miss_located::decode(profile, word, slip) {
        Ok((decoded, [first, second])) => decoded.answer(&first, &second),
        Err(refusal) => refusal.to_string(),
    }
}

/// Every slip gets a word wrong, in every profile and edition in which it does harm, and no other does;
/// without one all are right.
#[test]
fn every_slip_is_told() {
    let stored = stored(&make());
    for profile in profiles_of_both() {
        let cases: Vec<&Stored> =
            stored.iter().filter(|case| case.is_right_call(profile)).collect();
        let is_told = |slip| {
            cases.iter().any(|case| slipped_answer(profile, &case.word, slip) != case.expected)
        };
        assert!(!is_told(None), "{profile:?}");
        for slip in harmful_slips(profile) {
            assert!(is_told(Some(slip)), "{slip:?}, {profile:?}");
        }
        for slip in HARMLESS_SLIPS {
            assert!(!is_told(Some(slip)), "{slip:?}, {profile:?}");
        }
    }
}

/// The words tell every order of refusals in which the edition stands at another place.
#[test]
fn every_slip_of_a_call_is_told() {
    let stored = stored(&make());
    for slip in CALL_SLIPS {
        let is_told = stored.iter().any(|case| {
            let [edition, profile] = case.told;
            let right = |edition| answer([edition, profile], &case.word, case.lengths);
            let answer = near_miss_editions::call(slip, edition, profile, right);
            answer.unwrap_or_else(|refusal| refusal.to_string()) != case.expected
        });
        assert!(is_told, "{slip:?}");
    }
}

/// Every kind and every number is met in every profile of both editions, without a count.
#[test]
fn every_answer_is_met() {
    let stored = stored(&make());
    for profile in profiles_of_both() {
        let told = [profile.edition.number(), profile.number];
        let answers: Vec<&str> = stored
            .iter()
            .filter(|case| case.told == told)
            .map(|case| case.expected.as_str())
            .collect();
        for refusal in ["R 2", "R 3", "R 11", "R 4"] {
            assert!(answers.contains(&refusal), "{refusal}, {profile:?}");
        }
        for (kind, fields) in [("C ", 6), ("M ", 6), ("F ", 6), ("F ", 8)] {
            let is_such =
                |answer: &&str| answer.starts_with(kind) && answer.split(' ').count() == fields;
            assert!(answers.iter().any(is_such), "{kind}, {profile:?}");
        }
    }
    for refusal in ["R 1", "R 12"] {
        assert!(stored.iter().any(|case| case.expected == refusal), "{refusal}");
    }
}
