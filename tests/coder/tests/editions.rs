//! What T-03 says of the 2018 edition, and what follows from it, tried on samples.

use coder::balance::{choices, difference, integrate, subtract, BalancingChoice};
use coder::codeword::{codewords, components_of, interleave, Messages};
use coder::component::encode_component;
use coder::decode::{decode_word, Decoded};
use coder::edition::{Edition, EDITIONS};
use coder::profile::{Profile, PROFILES, PROFILES_2018};
use coder::refusal::Refusal;
use coder::rng::Rng;

/// "wm = xm and wi = w(i+1) + xi mod q", which differencing undoes.
#[test]
fn integration_runs_from_the_end() {
    assert_eq!(integrate(Edition::Of2018, 5, &[4, 2, 1, 0, 3]), [0, 1, 4, 3, 3]);
    let rng = &mut Rng::new(1);
    for edition in EDITIONS {
        for profile in edition.profiles() {
            let x = rng.word(profile.q, profile.m());
            assert_eq!(difference(edition, profile.q, &integrate(edition, profile.q, &x)), x);
        }
    }
}

/// "b1 is at place 1 of x and b′1 at place 2", and the added zero "stands last".
#[test]
fn the_added_zero_stands_last() {
    let components = [vec![1, 2, 3], vec![4, 5, 6]];
    assert_eq!(interleave(Edition::Of2018, &components), [1, 4, 2, 5, 3, 6, 0]);
    assert_eq!(interleave(Edition::Of2013, &components), [0, 1, 4, 2, 5, 3, 6]);
}

/// "v runs from 0 to m−1 .. and s is tried before v as now."
#[test]
fn choices_begin_with_v_of_0() {
    let choices: Vec<(u8, usize)> =
        choices(Edition::Of2018, 2, 3).map(|choice| (choice.s, choice.v)).collect();
    assert_eq!(choices, [(0, 0), (0, 1), (0, 2), (1, 0), (1, 1), (1, 2)]);
}

/// "1 is added at xv (nowhere when v is 0), s is added at xm".
#[test]
fn s_is_added_last() {
    let apply = |s, v| BalancingChoice { s, v }.apply(Edition::Of2018, 5, &[0, 0, 0, 0]);
    assert_eq!(apply(3, 0), [3, 3, 3, 3]);
    assert_eq!(apply(3, 1), [4, 3, 3, 3]);
    assert_eq!(apply(4, 3), [0, 0, 0, 4]);
}

/// The same w has, in one edition, the negatives of the components that it has in the other.
#[test]
fn components_are_the_negatives_of_the_other_editions() {
    let rng = &mut Rng::new(2);
    for (profile, other) in PROFILES.iter().zip(&PROFILES_2018) {
        let w = rng.word(profile.q, profile.m());
        let negated = components_of(profile, &w)
            .map(|c| c.iter().map(|&symbol| subtract(profile.q, 0, symbol)).collect::<Vec<u8>>());
        assert_eq!(components_of(other, &w), negated);
    }
}

/// The messages whose components are the negatives of theirs.
fn negated(profile: &Profile, messages: &Messages) -> Messages {
    messages.each_ref().map(|m| m.iter().map(|&symbol| subtract(profile.q, 0, symbol)).collect())
}

/// A codeword of one edition is one of the other exactly if 1 was added to neither component, and then
/// it is read as another pair there, unless that is all zeros; if not, it is refused with 4.
#[test]
fn a_word_does_not_tell_its_edition() {
    let rng = &mut Rng::new(3);
    for edition in EDITIONS {
        for profile in edition.profiles() {
            let reader = profile.in_other_edition();
            for messages in (0..20).map(|_| rng.messages(profile)) {
                for (choice, word) in codewords(profile, &messages) {
                    let read =
                        decode_word(&reader, &word).map(|(answer, pair)| (answer.decoded, pair));
                    let expected = if choice.adds_nothing(edition) {
                        Ok((Decoded::CLEAN, negated(profile, &messages)))
                    } else {
                        Err(Refusal::Unreadable { tried: 0 })
                    };
                    assert_eq!(read, expected);
                }
            }
        }
    }
}

/// "Halves .. do not change."
#[test]
fn halves_do_not_change() {
    let rng = &mut Rng::new(4);
    for (profile, other) in PROFILES.iter().zip(&PROFILES_2018) {
        let message = rng.word(profile.q, profile.k());
        assert_eq!(encode_component(profile, &message), encode_component(other, &message));
    }
}
