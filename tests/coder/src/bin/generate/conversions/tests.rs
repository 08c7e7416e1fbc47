//! That the conversions tell converters with a slip from the right one.

use coder::edition::profiles_of_both;
use coder::near_miss::Slip;
use coder::near_miss_conversion::LINE_RULE_SLIPS;

use super::*;

/// A call, and the line that answers it.
type Stored = (Call, String);

fn stored() -> Vec<Stored> {
    let file = make();
    let [input, expected] =
        [&file.input, &file.expected].map(|bytes| std::str::from_utf8(bytes).unwrap());
    let cases = input.lines().zip(expected.lines());
    cases.map(|(case, expected)| (call_of(case), expected.to_string())).collect()
}

/// The call that a line stands for.
fn call_of(case: &str) -> Call {
    let fields: Vec<&str> = case.split(' ').collect();
    let [edition, profile] = [fields[0], fields[1]].map(|field| field.parse().unwrap());
    Call { edition, profile, word: symbols(fields[2]), length: fields[3].parse().unwrap() }
}

/// Those that name this profile and its edition.
fn of_profile<'a>(stored: &'a [Stored], profile: &'a Profile) -> impl Iterator<Item = &'a Stored> {
    let told = (profile.edition.number(), profile.number);
    stored.iter().filter(move |(call, _)| (call.edition, call.profile) == told)
}

/// Without a slip the second converter answers every call as it is stored; with a slip it gets one wrong, of
/// every profile in both editions, or, with a slip of a number, of any.
#[test]
fn every_slip_is_told() {
    let stored = stored();
    for (call, expected) in &stored {
        assert_eq!(&call.slipped_answer(None), expected, "{call:?}");
    }
    for profile in profiles_of_both() {
        let slips = CONVERTER_NEAR_MISSES.iter().map(|near_miss| near_miss.slip);
        for slip in slips.chain(LINE_RULE_SLIPS) {
            assert!(is_told(slip, of_profile(&stored, profile)), "{slip:?}, {profile:?}");
        }
    }
    for CallNearMiss { slip, .. } in &NUMBER_NEAR_MISSES {
        assert!(is_told(*slip, stored.iter()), "{slip:?}");
    }
}

/// Whether a converter with this slip gets one of the calls wrong.
fn is_told<'a>(slip: Slip, mut stored: impl Iterator<Item = &'a Stored>) -> bool {
    stored.any(|(call, expected)| &call.slipped_answer(Some(slip)) != expected)
}

/// Every answer is met in every profile of both editions: the word of the other edition, and every number.
#[test]
fn every_answer_is_met() {
    let stored = stored();
    for profile in profiles_of_both() {
        let answers = || of_profile(&stored, profile).map(|(_, answer)| answer.as_str());
        for refusal in ["R 2", "R 3", "R 11", "R 4", "R 13"] {
            assert!(answers().any(|answer| answer == refusal), "{refusal}, {profile:?}");
        }
        assert!(answers().any(|answer| answer.len() == profile.word_length()), "{profile:?}");
    }
    for refusal in ["R 1", "R 12"] {
        assert!(stored.iter().any(|(_, answer)| answer == refusal), "{refusal}");
    }
}
