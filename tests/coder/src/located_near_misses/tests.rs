//! That every slip is told where it does harm, by words that are as they are called, and does none elsewhere.

use crate::decode::decode_word;
use crate::edition::profiles_of_both;
use crate::random_words::balanced_noise;
use crate::syndrome_decode::without_count;
use crate::tried_words::{off_from_q, Half};

use super::*;

/// What the search answers, its count aside.
fn searched(profile: &Profile, word: &[u8]) -> Option<crate::decode::Decoded> {
    let answer = decode_word(profile, word);
    without_count(answer.map(|(answer, _)| answer)).ok()
}

/// Every slip has words in every profile in which it does harm that tell it from the right decoder, which is
/// what the search and the decoder by syndromes without a slip agree on. They are unreadable where that is what
/// they are called.
#[test]
fn every_slip_is_told() {
    let rng = &mut Rng::new(1);
    for profile in profiles_of_both() {
        for near_miss in &LOCATED_NEAR_MISSES {
            let words = near_miss.words(profile, 3, rng);
            let expected = if near_miss.harms(profile) { 3 } else { 0 };
            assert_eq!(words.len(), expected, "{:?}, {profile:?}", near_miss.slip);
            for word in words {
                let found = decode(profile, &word, None).ok().map(|(decoded, _)| decoded);
                assert_eq!(found, searched(profile, &word));
                assert_eq!(found.is_none(), near_miss.name.starts_with("unreadable"));
            }
        }
    }
}

/// Words of every kind, among them many that are off balance by q or more.
fn words(profile: &Profile, rng: &mut Rng) -> Vec<Vec<u8>> {
    let of_every_slip = LOCATED_NEAR_MISSES.iter().map(|near_miss| near_miss.build);
    let others: [Build; 3] = [
        balanced_noise,
        |profile, rng| off_from_q(profile, rng, Half::Odd),
        |profile, rng| off_from_q(profile, rng, Half::Even),
    ];
    let builds: Vec<Build> = of_every_slip.chain(others).collect();
    (0..100)
        .flat_map(|_| builds.iter().filter_map(|build| build(profile, rng)).collect::<Vec<_>>())
        .collect()
}

/// Some slips do no harm at all, and others none in some profiles.
#[test]
fn elsewhere_a_slip_does_no_harm() {
    let rng = &mut Rng::new(2);
    for profile in profiles_of_both() {
        let near_misses = LOCATED_NEAR_MISSES.iter().filter(|near_miss| !near_miss.harms(profile));
        let harmless: Vec<LocatedSlip> =
            near_misses.map(|near_miss| near_miss.slip).chain(HARMLESS_SLIPS).collect();
        for word in words(profile, rng) {
            for &slip in &harmless {
                assert!(!is_told(profile, &word, slip), "{slip:?}, {profile:?}, {word:?}");
            }
        }
    }
}
