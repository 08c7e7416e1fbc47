//! What T-01 says of words with erasures (marks), tried on samples.

use coder::codeword::{all_messages, codewords, Messages};
use coder::decode::{decode, decode_word, Answer, Decoded, Kind, Sent};
use coder::edition::{profiles_of_both, EDITIONS};
use coder::erased_words::{erased, erased_and_changed};
use coder::erasure::erased_at;
use coder::near_miss;
use coder::profile::Profile;
use coder::random_words::codeword;
use coder::refusal::Refusal;
use coder::rng::Rng;

/// What decoding answers to a codeword with these positions erased, in rising order, is what was
/// sent there, 0 for T-02's number and for T-08's, and its pair. "The outputs then hold its first and
/// second user word".
fn assert_filled(profile: &Profile, messages: &Messages, codeword: &[u8], positions: &[usize]) {
    let received = erased_at(codeword, positions);
    let [mut first, mut second] = [0, 255].map(|filler| vec![filler; profile.k()]);
    let edition = profile.edition.number();
    let decoded = decode(edition, profile.number, &received, &mut first, &mut second);
    let mut sent =
        positions.iter().map(|&position| Sent { position, symbol: codeword[position - 1] });
    let kind = Kind::Filled(sent.next().unwrap(), sent.next());
    let expected = Answer { decoded: Decoded { kind, error: 0 }, tried: 0 };
    assert_eq!((decoded, &[first, second]), (Ok(expected), messages));
}

/// Every seventh pair of profile 1 with each position erased, and by turns with two.
#[test]
fn every_pair_of_profile_1_is_filled() {
    for edition in EDITIONS {
        let profile = &edition.profiles()[0];
        let length = profile.word_length();
        for (count, messages) in all_messages(profile).enumerate().step_by(7) {
            let words = codewords(profile, &messages);
            let (_, word) = &words[count % words.len()];
            for position in 1..=length {
                assert_filled(profile, &messages, word, &[position]);
            }
            let (one, other) = (1 + count % length, 1 + count / length % length);
            if one != other {
                assert_filled(profile, &messages, word, &[one.min(other), one.max(other)]);
            }
        }
    }
}

/// Whatever choice made a codeword, it is filled wherever one or two of its symbols are erased.
#[test]
fn every_pair_of_positions_is_filled() {
    let rng = &mut Rng::new(4);
    for profile in profiles_of_both() {
        let messages = rng.messages(profile);
        let words = codewords(profile, &messages);
        let (_, word) = rng.pick(&words);
        for other in 1..=word.len() {
            assert_filled(profile, &messages, word, &[other]);
            for one in 1..other {
                assert_filled(profile, &messages, word, &[one, other]);
            }
        }
    }
}

/// With one erasure and one other symbol wrong no codeword agrees, since any two differ in three
/// positions or more: "in a marked word no unmarked symbol is ever mended".
#[test]
fn one_erasure_and_a_wrong_symbol_are_refused() {
    let rng = &mut Rng::new(5);
    for profile in profiles_of_both().flat_map(|profile| [profile; 20]) {
        let word = codeword(profile, rng);
        for _ in 0..50 {
            let received = erased_and_changed(profile, &word, [1, 1], rng);
            assert_eq!(decode_word(profile, &received), Err(Refusal::Unreadable { tried: 0 }));
        }
    }
}

/// Filling by what the weight and the check sums want finds what trying everything finds.
#[test]
fn the_search_agrees_with_what_the_sums_want() {
    let rng = &mut Rng::new(6);
    for profile in profiles_of_both() {
        for count in 0..200 {
            let codeword = codeword(profile, rng);
            let noise = rng.word(profile.q, profile.word_length());
            let counts = [1 + count % 3, count / 3 % 3];
            for word in [
                erased_and_changed(profile, &codeword, counts, rng),
                erased(&noise, 1 + count % 3, rng),
            ] {
                let expected = decode_word(profile, &word);
                assert_eq!(near_miss::decode(profile, &word, None), expected);
            }
        }
    }
}
