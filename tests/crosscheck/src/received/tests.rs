//! That the received words tell what can be got wrong, and what is right of their conversion.

use coder::located_near_misses::{harmful_slips, is_told};
use coder::near_miss::{self, Slip};
use coder::near_miss_calls::Call;
use coder::near_misses::every_near_miss;

use crate::wrong_converters::{every_slip_but, retain_untold, OF_ARGUMENTS};

use super::*;

/// A fiftieth of what is received tells each converter with a slip (02, T-04) from the right one, but for
/// those of its arguments, which `refusals` tells.
#[test]
fn every_slip_of_a_converter_is_told() {
    for profile in profiles_of_both() {
        let rng = &mut Rng::new(1);
        let mut untold = every_slip_but(&OF_ARGUMENTS);
        for _ in 0..PAIRS / 50 {
            let codewords = codewords(profile, &rng.messages(profile));
            for word in received_words(profile, &codewords, rng) {
                retain_untold(&mut untold, &Call::of(profile, word));
            }
        }
        assert!(untold.is_empty(), "{profile:?}: {untold:?}");
    }
}

/// What follows from one search for both operations is what the separate converter answers.
#[test]
fn a_word_is_converted_as_the_separate_coder_does() {
    for profile in profiles_of_both() {
        let rng = &mut Rng::new(2);
        for _ in 0..PAIRS / 100 {
            let pair = Pair::new(profile, rng.messages(profile));
            let codewords = codewords(profile, &pair.messages);
            for word in received_words(profile, &codewords, rng) {
                let mut out = vec![0; profile.word_length()];
                let [edition, number] = [profile.edition.number(), profile.number];
                let answer = coder::convert::convert(edition, number, &word, &mut out);
                assert_eq!(pair.convert(decode_word(profile, &word)), answer.map(|()| out));
            }
        }
    }
}

/// A fiftieth of what is received tells each decoder with a slip from the right one, but for
/// 002's printed δ, which is right for q = 3.
#[test]
fn every_slip_of_a_decoder_is_told() {
    for profile in profiles_of_both() {
        let rng = &mut Rng::new(1);
        let near_misses = every_near_miss(profile.edition);
        let mut untold: Vec<Slip> = near_misses.map(|near_miss| near_miss.slip).collect();
        for _ in 0..PAIRS / 50 {
            let codewords = codewords(profile, &rng.messages(profile));
            for word in received_words(profile, &codewords, rng) {
                let right = near_miss::decode(profile, &word, None);
                untold.retain(|&slip| near_miss::decode(profile, &word, Some(slip)) == right);
            }
        }
        let harmless: &[Slip] = if profile.q == 3 { &[Slip::PrintedDelta] } else { &[] };
        assert_eq!(untold, harmless, "{profile:?}");
    }
}

/// A fiftieth of what is received tells each decoder by syndromes with a slip (02, T-09) from the right one, in
/// every profile in which it does harm.
#[test]
fn every_slip_of_a_decoder_by_syndromes_is_told() {
    for profile in profiles_of_both() {
        let rng = &mut Rng::new(1);
        let mut untold = harmful_slips(profile);
        for _ in 0..PAIRS / 50 {
            let codewords = codewords(profile, &rng.messages(profile));
            for word in received_words(profile, &codewords, rng) {
                untold.retain(|&slip| !is_told(profile, &word, slip));
            }
        }
        assert!(untold.is_empty(), "{profile:?}: {untold:?}");
    }
}
