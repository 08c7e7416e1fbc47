//! What T-04 says of the converter, and what follows from it, tried on samples.

use coder::codeword::{all_messages, codewords, Messages};
use coder::convert::convert;
use coder::decode::{within_one, Kind};
use coder::edition::profiles_of_both;
use coder::encode::encoded_word;
use coder::erasure::erased_at;
use coder::line_rule::LineRule;
use coder::near_miss_conversion::complemented;
use coder::profile::Profile;
use coder::random_words::codeword;
use coder::refusal::{Refusal, FILLER};
use coder::rng::Rng;

/// Some pairs of profile 1, and random ones of the others.
fn pairs(profile: &Profile) -> Vec<Messages> {
    let rng = &mut Rng::new(1);
    match profile.number {
        1 => all_messages(profile).step_by(23).collect(),
        _ => (0..20).map(|_| rng.messages(profile)).collect(),
    }
}

/// The word that converting makes of a word of the profile, or the refusal, which leaves the output as it was.
fn converted(profile: &Profile, word: &[u8]) -> Result<Vec<u8>, Refusal> {
    let mut output = vec![FILLER; profile.word_length()];
    let answer = convert(profile.edition.number(), profile.number, word, &mut output);
    assert!(answer.is_ok() || output.iter().all(|&byte| byte == FILLER));
    answer.map(|()| output)
}

/// "gives the word the other edition's writer makes for the same pair", whatever choice made the word taken.
/// "Converting there and back gives the writer's own word for that pair".
#[test]
fn there_and_back_is_the_encoders_word() {
    for profile in profiles_of_both() {
        let other = &profile.in_other_edition();
        for messages in pairs(profile) {
            let own = encoded_word(profile, LineRule::One, &messages);
            for (_, word) in codewords(profile, &messages) {
                let there = converted(profile, &word);
                assert_eq!(there, Ok(encoded_word(other, LineRule::One, &messages)));
                assert_eq!(converted(other, &there.unwrap()).as_ref(), Ok(&own));
            }
        }
    }
}

/// "which may differ from the first if another firm's writer made that one".
#[test]
fn there_and_back_may_differ_from_the_first() {
    for profile in profiles_of_both() {
        let comes_back_otherwise = |messages: &Messages| {
            let words = codewords(profile, messages).into_iter().map(|(_, word)| word);
            words.skip(1).any(|word| {
                let there = converted(profile, &word).unwrap();
                converted(&profile.in_other_edition(), &there) != Ok(word)
            })
        };
        assert!(pairs(profile).iter().any(comes_back_otherwise), "{profile:?}");
    }
}

/// "It must not pass a doubtful word on": no codeword with a symbol changed, in w or at a check symbol.
#[test]
fn no_corrected_word_is_passed_on() {
    let rng = &mut Rng::new(2);
    for profile in profiles_of_both() {
        let sent = codeword(profile, rng);
        for (decoded, word) in within_one(profile, &sent) {
            let answer = converted(profile, &word);
            assert_eq!(answer.is_ok(), decoded.kind == Kind::Clean);
            assert!(answer.is_ok() || answer == Err(Refusal::NotClean));
        }
    }
}

/// Nor one with one or two symbols erased.
#[test]
fn no_filled_word_is_passed_on() {
    let rng = &mut Rng::new(3);
    for profile in profiles_of_both() {
        let sent = codeword(profile, rng);
        let length = sent.len();
        for one in 1..=length {
            let other = rng.from_one_to(length);
            for erased in [vec![one], vec![one, other]] {
                let word = erased_at(&sent, &erased);
                assert_eq!(converted(profile, &word), Err(Refusal::NotClean));
            }
        }
    }
}

/// The complement of an encoder's word is the word of the other edition for the zero pair, but not for every
/// pair: a converter has to look for the choice.
#[test]
fn the_complement_is_not_always_the_word() {
    for profile in profiles_of_both() {
        let is_complement = |messages: &Messages| {
            let own = encoded_word(profile, LineRule::One, messages);
            converted(profile, &own) == Ok(complemented(profile, &own))
        };
        assert!(is_complement(&[(); 2].map(|()| vec![0; profile.k()])), "{profile:?}");
        assert!(!pairs(profile).iter().all(is_complement), "{profile:?}");
    }
}
