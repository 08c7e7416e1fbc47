//! Words of the 2018 edition (02, T-03), words of one edition read as the other, and editions that are
//! none. They come after all others and have a seed of their own, so that the words before are those
//! that were stored before.

use coder::decode::replaced;
use coder::edition::{Edition, EDITIONS};
use coder::erased_words::{
    both_checks, like_parity, one_of_w_and_one_check, with_erasures, with_erasures_at,
};
use coder::erasure::{erased_at, ERASURE};
use coder::examples::DECODED_2018;
use coder::near_misses::{every_near_miss, EDITION_NEAR_MISSES};
use coder::profile::{Profile, PROFILES_2018};
use coder::random_words::{
    balanced_noise, both_check_symbols, by_another_choice, changed, changed_at, codeword, encoded,
    of_both, with_changes,
};
use coder::rng::Rng;

use super::{add, add_word, cases_by_hand, near_misses, received, Received, OF_EACH_NEAR_MISS};
use super::{erasures::another_agrees, errors::check_symbols, every_position_and_level, tried};
use crate::case_file::{row_for, CaseFile, EDITION_NUMBERS, PROFILE_NUMBERS};

const SEED: u64 = 0x3230_3138;

/// Words of each near miss of the other requests and profile: one, since they were told in edition 13.
const OF_EACH_OTHER_NEAR_MISS: usize = 1;

/// Codewords of each profile of which each symbol is changed in turn.
const CHANGED_IN_TURN: usize = 2;

const RECEIVED: [Received; 16] = [
    ("the encoder's word", 20, |profile, rng| Some(encoded(profile, rng))),
    ("codeword by another choice", 40, by_another_choice),
    ("codeword of which 1 was added nowhere: v = 0", 15, of_both),
    ("two symbols changed", 50, |profile, rng| Some(with_changes(profile, 2, rng))),
    ("three symbols changed", 20, |profile, rng| Some(with_changes(profile, 3, rng))),
    ("both check symbols changed", 8, both_check_symbols),
    ("noise", 8, |profile, rng| Some(rng.word(profile.q, profile.word_length()))),
    ("noise, balanced and with right check symbols", 12, balanced_noise),
    ("two erasures in a codeword by any choice", 50, |profile, rng| {
        Some(with_erasures(profile, [2, 0], rng))
    }),
    ("two symbols of w of like parity erased", 25, |profile, rng| {
        Some(with_erasures_at(profile, like_parity, rng))
    }),
    ("one symbol of w and one check symbol erased", 10, |profile, rng| {
        Some(with_erasures_at(profile, one_of_w_and_one_check, rng))
    }),
    ("both check symbols erased", 5, |profile, rng| {
        Some(with_erasures_at(profile, both_checks, rng))
    }),
    ("one erasure, and one other symbol changed: never read", 8, |profile, rng| {
        Some(with_erasures(profile, [1, 1], rng))
    }),
    ("two erasures, and one other symbol changed", 15, |profile, rng| {
        Some(with_erasures(profile, [2, 1], rng))
    }),
    ("two erasures, and one other symbol changed: another codeword agrees", 4, another_agrees),
    ("three erasures in a codeword", 6, |profile, rng| Some(with_erasures(profile, [3, 0], rng))),
];

/// Words of another edition than the profile's.
pub const OF_OTHER_EDITION: [Received; 5] = [
    ("the encoder's word", 8, |profile, rng| Some(encoded(&profile.in_other_edition(), rng))),
    ("codeword by any choice", 12, |profile, rng| Some(codeword(&profile.in_other_edition(), rng))),
    ("codeword of both, which is read as another pair", 8, |profile, rng| {
        of_both(&profile.in_other_edition(), rng)
    }),
    ("codeword of both with one symbol changed", 8, |profile, rng| {
        let word = of_both(profile, rng)?;
        Some(changed(profile, &word, 1, rng))
    }),
    ("two erasures in a codeword", 8, |profile, rng| {
        Some(with_erasures(&profile.in_other_edition(), [2, 0], rng))
    }),
];

pub fn add_groups(file: &mut CaseFile) {
    let rng = &mut Rng::new(SEED);
    let edition = Edition::Of2018;
    file.name_groups("T-03, edition 18: ");
    file.group("cases by hand");
    cases_by_hand(file, edition, &DECODED_2018);
    near_misses(file, edition, &EDITION_NEAR_MISSES, OF_EACH_NEAR_MISS, rng);
    let others = every_near_miss(Edition::Of2013);
    near_misses(file, edition, others, OF_EACH_OTHER_NEAR_MISS, rng);
    every_position_and_level(file, edition, rng);
    tried::every_position(file, edition, CHANGED_IN_TURN, rng);
    received(file, edition, &RECEIVED, rng);
    every_position_erased(file, rng);
    check_symbols(file, edition, rng);
    received(file, edition, &tried::RECEIVED, rng);
    symbols_out_of_range(file, rng);
    order_of_refusals(file, rng);
    for (edition, prefix) in EDITIONS.into_iter().zip([
        "T-03, words of edition 18 read as edition 13: ",
        "T-03, words of edition 13 read as edition 18: ",
    ]) {
        file.name_groups(prefix);
        received(file, edition, &OF_OTHER_EDITION, rng);
    }
    file.name_groups("T-03, every edition: ");
    order_of_editions(file, rng);
}

/// A codeword of each profile with every position erased; of profile 1 every two as well.
fn every_position_erased(file: &mut CaseFile, rng: &mut Rng) {
    file.group(
        "a codeword of each profile with every position erased, of profile 1 every two as well",
    );
    for profile in &PROFILES_2018 {
        let word = codeword(profile, rng);
        for other in 1..=word.len() {
            add_word(file, profile, &erased_at(&word, &[other]));
            if profile.number == 1 {
                for one in 1..other {
                    add_word(file, profile, &erased_at(&word, &[one, other]));
                }
            }
        }
    }
}

/// A symbol of q at every position of a codeword.
fn symbols_out_of_range(file: &mut CaseFile, rng: &mut Rng) {
    file.group("a symbol of q at every position");
    for profile in &PROFILES_2018 {
        let word = codeword(profile, rng);
        for position in 1..=word.len() {
            add_word(file, profile, &replaced(&word, position, profile.q));
        }
    }
}

/// A word as it is, and with every fault: short, with a symbol out of range, with three erasures,
/// with both, and unreadable.
pub fn faulty(profile: &Profile, rng: &mut Rng) -> [Vec<u8>; 6] {
    let word = codeword(profile, rng);
    let three = erased_at(&word, &[1, 2, word.len()]);
    [
        word[1..].to_vec(),
        replaced(&word, word.len(), profile.q),
        replaced(&three, 3, 9),
        three,
        changed_at(profile, &word, &[1, 2], rng),
        word,
    ]
}

/// Every profile number with every fault of the word and of the outputs.
fn order_of_refusals(file: &mut CaseFile, rng: &mut Rng) {
    file.group("refusals, alone and together: 1, 2, 3, 11, 4");
    for number in PROFILE_NUMBERS {
        let profile = row_for(number);
        let k = profile.k();
        for word in faulty(profile, rng) {
            for lengths in [[k, k], [k - 1, k], [k, k + 1]] {
                add(file, [18, number], &word, lengths);
            }
        }
    }
}

/// Every edition and profile number with words of every kind: 12, 1, 2, 3, 11, 4.
fn order_of_editions(file: &mut CaseFile, rng: &mut Rng) {
    file.group("with every profile number, and words of every kind: 12, 1, 2, 3, 11, 4");
    for edition in EDITION_NUMBERS {
        for number in PROFILE_NUMBERS {
            let profile = row_for(number);
            let k = profile.k();
            for word in faulty(profile, rng) {
                add(file, [edition, number], &word, [k, k]);
            }
            add(file, [edition, number], &[ERASURE; 100], [0, 46]);
        }
    }
}

#[cfg(test)]
mod tests;
