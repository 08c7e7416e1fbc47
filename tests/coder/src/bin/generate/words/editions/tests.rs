//! That the words tell decoders with a slip of T-03 from the right one.

use coder::decode::decode;
use coder::near_miss::{self, Slip};
use coder::near_miss_editions::{self, CALL_SLIPS};
use coder::refusal::{Refusal, FILLER};

use super::super::stored::{stored, Stored};
use super::super::{answer_of, make};
use super::*;

/// The line that answers a word of the right length, with a slip or with none.
fn slipped_answer(profile: &Profile, word: &[u8], slip: Option<Slip>) -> String {
    match near_miss::decode(profile, word, slip) {
        Ok((answer, [first, second])) => answer_of(Ok(answer), [&first, &second]),
        Err(refusal) => answer_of(Err(refusal), [&[], &[]]),
    }
}

/// Every slip of a decoder of T-03 gets a word wrong, in every profile; without one all are right.
#[test]
fn every_slip_of_the_edition_is_told() {
    let stored = stored(&make());
    for profile in &PROFILES_2018 {
        let cases: Vec<&Stored> =
            stored.iter().filter(|case| case.is_right_call(profile)).collect();
        let is_told = |slip| {
            let is_wrong =
                |case: &&Stored| slipped_answer(profile, &case.word, slip) != case.expected;
            cases.iter().any(is_wrong)
        };
        assert!(!is_told(None), "profile {}", profile.number);
        for near_miss in &EDITION_NEAR_MISSES {
            let slip = near_miss.slip;
            assert!(is_told(Some(slip)), "{slip:?}, profile {}", profile.number);
        }
    }
}

/// The words tell every order of refusals in which the edition stands at another place.
#[test]
fn every_slip_of_a_call_is_told() {
    let stored = stored(&make());
    for slip in CALL_SLIPS {
        let mut unknown = stored.iter().filter(|case| Edition::lookup(case.told[0]).is_err());
        let is_told =
            unknown.any(|Stored { told: [edition, profile], word, lengths, expected }| {
                let right = |edition| -> Result<String, Refusal> {
                    let [mut first, mut second] = lengths.map(|length| vec![FILLER; length]);
                    let answer = decode(edition, *profile, word, &mut first, &mut second)?;
                    Ok(answer_of(Ok(answer), [&first, &second]))
                };
                let answer = near_miss_editions::call(slip, *edition, *profile, right);
                answer.unwrap_or_else(|refusal| refusal.to_string()) != *expected
            });
        assert!(is_told, "{slip:?}");
    }
}
