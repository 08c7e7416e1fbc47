//! Words with erasures (02, T-01: marks). They come after those of 01 and have a seed of their own, so
//! that the words without erasures are those that were stored before.

use coder::decode::{replaced, search};
use coder::edition::Edition;
use coder::erased_words::{
    both_checks, erased, erased_and_changed, like_parity, one_of_w_and_one_check, unlike_parity,
    with_erasures, with_erasures_at,
};
use coder::erasure::{erased_at, ERASURE};
use coder::examples::ERASED;
use coder::near_misses::ERASURE_NEAR_MISSES;
use coder::profile::{Profile, PROFILES};
use coder::random_words::{balanced_noise, changed, codeword, positions};
use coder::rng::Rng;

use super::{add, add_word, cases_by_hand, near_misses, received, Received, OF_EACH_NEAR_MISS};
use crate::case_file::{row_for, CaseFile, PROFILE_NUMBERS};

const SEED: u64 = 0x6572_6173;

/// How often two positions are erased before another word is drawn, where another codeword is to
/// agree.
const TRIES: usize = 200;

const RECEIVED: [Received; 19] = [
    ("one erasure in a codeword by any choice", 60, |profile, rng| {
        Some(with_erasures(profile, [1, 0], rng))
    }),
    ("two erasures in a codeword by any choice", 100, |profile, rng| {
        Some(with_erasures(profile, [2, 0], rng))
    }),
    ("alpha erased", 10, |profile, rng| {
        Some(with_erasures_at(profile, |profile, _| vec![profile.m() + 1], rng))
    }),
    ("beta erased", 10, |profile, rng| {
        Some(with_erasures_at(profile, |profile, _| vec![profile.m() + 2], rng))
    }),
    ("both check symbols erased", 20, |profile, rng| {
        Some(with_erasures_at(profile, both_checks, rng))
    }),
    ("one symbol of w and one check symbol erased", 30, |profile, rng| {
        Some(with_erasures_at(profile, one_of_w_and_one_check, rng))
    }),
    ("two symbols of w of like parity erased", 40, |profile, rng| {
        Some(with_erasures_at(profile, like_parity, rng))
    }),
    ("two symbols of w of unlike parity erased", 30, |profile, rng| {
        Some(with_erasures_at(profile, unlike_parity, rng))
    }),
    ("one erasure, and one other symbol changed: never read", 40, |profile, rng| {
        Some(with_erasures(profile, [1, 1], rng))
    }),
    ("two erasures, and one other symbol changed", 60, |profile, rng| {
        Some(with_erasures(profile, [2, 1], rng))
    }),
    ("two erasures, and one other symbol changed: another codeword agrees", 10, another_agrees),
    ("two erasures, and two other symbols changed", 20, |profile, rng| {
        Some(with_erasures(profile, [2, 2], rng))
    }),
    ("noise with one erasure", 20, |profile, rng| Some(noise(profile, 1, rng))),
    ("noise with two erasures", 20, |profile, rng| Some(noise(profile, 2, rng))),
    ("noise, balanced and with right check symbols, then one or two erased", 30, |profile, rng| {
        let word = balanced_noise(profile, rng)?;
        let count = rng.from_one_to(2);
        Some(erased(&word, count, rng))
    }),
    ("three erasures in a codeword", 20, |profile, rng| Some(with_erasures(profile, [3, 0], rng))),
    ("more than three erasures in a codeword", 20, |profile, rng| {
        let count = 3 + rng.from_one_to(profile.word_length() - 3);
        Some(with_erasures(profile, [count, 0], rng))
    }),
    ("every symbol erased", 1, |profile, _| Some(vec![ERASURE; profile.word_length()])),
    ("noise with three erasures", 20, |profile, rng| Some(noise(profile, 3, rng))),
];

pub fn add_groups(file: &mut CaseFile) {
    let rng = &mut Rng::new(SEED);
    let edition = Edition::Of2013;
    file.group("T-01, here and below: 01's words with erasures, by hand");
    cases_by_hand(file, edition, &ERASED);
    near_misses(file, edition, &ERASURE_NEAR_MISSES, OF_EACH_NEAR_MISS, rng);
    every_position_and_pair(file, rng);
    received(file, edition, &RECEIVED, rng);
    symbols_out_of_range(file, rng);
    order_of_refusals(file, rng);
}

/// A word of noise with so many erasures.
fn noise(profile: &Profile, count: usize, rng: &mut Rng) -> Vec<u8> {
    erased(&rng.word(profile.q, profile.word_length()), count, rng)
}

/// A codeword with one symbol changed, and two others erased so that another codeword agrees.
pub fn another_agrees(profile: &Profile, rng: &mut Rng) -> Option<Vec<u8>> {
    let word = codeword(profile, rng);
    (0..TRIES)
        .map(|_| erased_and_changed(profile, &word, [2, 1], rng))
        .find(|received| search(profile, received).is_some())
}

/// A codeword with every position, and then every two positions erased.
fn every_position_and_pair(file: &mut CaseFile, rng: &mut Rng) {
    let codewords = PROFILES.map(|profile| codeword(&profile, rng));
    let words = || PROFILES.iter().zip(&codewords);
    file.group("a codeword of each profile with every position erased");
    for (profile, word) in words() {
        for position in 1..=word.len() {
            add_word(file, profile, &erased_at(word, &[position]));
        }
    }
    file.group("the same codewords with every two positions erased");
    for (profile, word) in words() {
        for one in 1..word.len() {
            for other in one + 1..=word.len() {
                add_word(file, profile, &erased_at(word, &[one, other]));
            }
        }
    }
}

/// Symbols of q to 9 beside erasures.
fn symbols_out_of_range(file: &mut CaseFile, rng: &mut Rng) {
    file.group("a symbol of q to 9 beside one to four erasures: 3 before 11 and 4");
    for profile in &PROFILES {
        for symbol in profile.q..=9 {
            for count in 1..=4 {
                let word = codeword(profile, rng);
                let drawn = positions(word.len(), count + 1, rng);
                let spoiled = replaced(&word, drawn[count], symbol);
                add_word(file, profile, &erased_at(&spoiled, &drawn[..count]));
            }
        }
    }
}

/// Every profile number with erasures and other faults of the word and of the outputs.
fn order_of_refusals(file: &mut CaseFile, rng: &mut Rng) {
    file.group("refusals of words with erasures, alone and together: 1, 2, 3, 11, 4");
    for number in PROFILE_NUMBERS {
        let profile = row_for(number);
        let word = codeword(profile, rng);
        let last = word.len();
        let three = erased_at(&word, &[1, 2, last]);
        let words = [
            erased_at(&word, &[last]),
            erased_at(&word, &[1, last]),
            erased_at(&changed(profile, &word, 3, rng), &[1, last]),
            three.clone(),
            replaced(&three, 3, profile.q),
            replaced(&three, last - 1, 9),
            three[1..].to_vec(),
            [&three[..], &[ERASURE]].concat(),
            [&word[..], &[ERASURE]].concat(),
            [&replaced(&three, 3, 9)[..], &[0]].concat(),
            vec![ERASURE; last],
            vec![ERASURE],
        ];
        let k = profile.k();
        for word in &words {
            for lengths in [[k, k], [k - 1, k], [k, k + 1], [0, 0]] {
                add(file, [13, number], word, lengths);
            }
        }
    }
}
