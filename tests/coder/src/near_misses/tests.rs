//! That every slip is told, by words that are as they are called.

use crate::codeword::{components_of, Messages};
use crate::component::syndrome;
use crate::decode::{Answer, Decoded, Kind};
use crate::edition::profiles_of_both;
use crate::profile::PROFILES;
use crate::random_words::{checks_off, excess};
use crate::refusal::Refusal;

use super::*;

/// Every slip has words in every profile that tell it from the right decoder, which is what
/// the search and 002's steps without a slip agree on; and the words are as they are called.
#[test]
fn every_slip_is_told() {
    let rng = &mut Rng::new(1);
    for profile in profiles_of_both() {
        for near_miss in every_near_miss(profile.edition) {
            let words = near_miss.words(profile, 3, rng);
            let harmless = near_miss.slip == Slip::PrintedDelta && profile.q == 3;
            assert_eq!(words.len(), if harmless { 0 } else { 3 }, "{}", near_miss.name);
            for word in words {
                let right = decode_word(profile, &word);
                assert_eq!(near_miss::decode(profile, &word, None), right);
                assert!(is_as_called(profile, near_miss.slip, &word), "{}", near_miss.name);
            }
        }
    }
}

/// Whether the weight and the check sums are off as the word's name says, where it says so.
fn is_as_called(profile: &Profile, slip: Slip, word: &[u8]) -> bool {
    let (excess, q) = (excess(profile, &word[..profile.m()]), i64::from(profile.q));
    let off = checks_off(profile, word);
    let one_off = off.contains(&0) && off != [0, 0];
    match slip {
        Slip::ExcessReduced => excess.abs() >= q && one_off,
        Slip::CheckSumOffByAny => {
            excess != 0 && off.contains(&0) && i64::from(off[0] + off[1]) != excess.rem_euclid(q)
        }
        Slip::BalanceIsClean => excess == 0 && !off.contains(&0),
        _ => true,
    }
}

/// A slip of T-02 gets the error wrong and nothing else, and its words are as they are called.
#[test]
fn a_slip_of_the_error_leaves_the_rest() {
    let rng = &mut Rng::new(2);
    for near_miss in &ERROR_NEAR_MISSES {
        let NearMiss { slip, name, .. } = near_miss;
        for profile in &PROFILES {
            for word in near_miss.words(profile, 20, rng) {
                let (right, messages) = decode_word(profile, &word).unwrap();
                let (wrong, read) = near_miss::decode(profile, &word, Some(*slip)).unwrap();
                assert_eq!((wrong.decoded.kind, read), (right.decoded.kind, messages));
                assert_eq!(wrong.tried, right.tried);
                assert!(has_error_as_called(profile, *slip, right.decoded), "{name}");
            }
        }
    }
}

/// Whether the right answer's position and error are as the name of the slip's words says.
fn has_error_as_called(profile: &Profile, slip: Slip, right: Decoded) -> bool {
    match (slip, right.kind) {
        (Slip::FilledCarriesError, kind) => matches!(kind, Kind::Filled(_, Some(_))),
        (Slip::ErrorSizeAlone | Slip::ErrorReduced | Slip::ErrorByteUnsigned, _) => right.error < 0,
        (Slip::CheckErrorZero | Slip::CheckErrorIsSumOff, Kind::Corrected(sent)) => {
            sent.position > profile.m()
        }
        _ => right.error != 0,
    }
}

/// An answer without its count, and the count.
fn apart(
    answer: Result<(Answer, Messages), Refusal>,
) -> (Result<(Decoded, Messages), u8>, Option<usize>) {
    match answer {
        Ok((Answer { decoded, tried }, messages)) => (Ok((decoded, messages)), Some(tried)),
        Err(Refusal::Unreadable { tried }) => (Err(4), Some(tried)),
        Err(refusal) => (Err(refusal.number()), None),
    }
}

/// A slip of T-08 gets the count wrong and nothing else, wherever it does.
#[test]
fn a_slip_of_the_count_leaves_the_rest() {
    let rng = &mut Rng::new(3);
    for near_miss in &TRIED_NEAR_MISSES {
        for profile in &PROFILES {
            for word in near_miss.words(profile, 10, rng) {
                let (right, count) = apart(decode_word(profile, &word));
                let slipped = near_miss::decode(profile, &word, Some(near_miss.slip));
                let (wrong, slipped_count) = apart(slipped);
                assert_eq!(wrong, right, "{}", near_miss.name);
                assert_ne!(slipped_count, count, "{}", near_miss.name);
            }
        }
    }
}

/// The known word names position 0: it is balanced, one component is in code, and the other
/// has a syndrome of zeros with a last 1.
#[test]
fn the_known_word_of_position_zero_is_refused() {
    let profile = &PROFILES[0];
    let w = symbols(POSITION_ZERO_W);
    assert_eq!(excess(profile, &w), 0);
    let mut syndromes = components_of(profile, &w).map(|c| syndrome(profile, &c));
    syndromes.sort();
    assert_eq!(syndromes, [[0, 0, 0], [0, 0, 1]]);
    let word = with_check_symbols(profile, &w);
    assert_eq!(decode_word(profile, &word), Err(Refusal::Unreadable { tried: 0 }));
}
