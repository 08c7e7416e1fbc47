//! words: received words of all profiles, and what decoding answers.

pub mod editions;
pub mod erasures;
mod errors;
#[cfg(test)]
pub mod stored;
mod tried;

use std::iter::repeat_with;

use coder::decode::{decode, replaced, within_one, Answer};
use coder::edition::Edition;
use coder::examples::{Case, DECODED};
use coder::near_misses::{NearMiss, NEAR_MISSES};
use coder::profile::Profile;
use coder::random_words::{
    balanced_noise, both_check_symbols, by_another_choice, changed_at, codeword, encoded,
    one_check_symbol, with_changes, Build,
};
use coder::refusal::{Refusal, FILLER};
use coder::rng::Rng;
use coder::text::digits;

use crate::case_file::{row_for, CaseFile, PROFILE_NUMBERS};

const SEED: u64 = 0x776f_7264;

/// Words of each near miss and profile.
const OF_EACH_NEAR_MISS: usize = 4;

/// What is received, how many words of it for each profile, and how one is built.
pub type Received = (&'static str, usize, Build);

const RECEIVED: [Received; 9] = [
    ("the encoder's word", 40, |profile, rng| Some(encoded(profile, rng))),
    ("codeword by another choice", 60, by_another_choice),
    ("one symbol changed", 200, |profile, rng| Some(with_changes(profile, 1, rng))),
    ("two symbols changed", 100, |profile, rng| Some(with_changes(profile, 2, rng))),
    ("three symbols changed", 60, |profile, rng| Some(with_changes(profile, 3, rng))),
    ("a check symbol changed", 30, one_check_symbol),
    ("both check symbols changed", 30, both_check_symbols),
    ("noise", 40, |profile, rng| Some(rng.word(profile.q, profile.word_length()))),
    ("noise, balanced and with right check symbols", 40, balanced_noise),
];

pub fn make() -> CaseFile {
    let mut file = CaseFile::default();
    let rng = &mut Rng::new(SEED);
    let edition = Edition::Of2013;
    file.group("cases of 01");
    cases_by_hand(&mut file, edition, &DECODED);
    near_misses(&mut file, edition, &NEAR_MISSES, OF_EACH_NEAR_MISS, rng);
    every_position_and_level(&mut file, edition, rng);
    received(&mut file, edition, &RECEIVED, rng);
    symbols_out_of_range(&mut file, rng);
    order_of_refusals(&mut file, rng);
    erasures::add_groups(&mut file);
    errors::add_groups(&mut file);
    tried::add_groups(&mut file);
    editions::add_groups(&mut file);
    file
}

/// The edition and the profile that a call is told, right or not.
pub type Told = [u8; 2];

/// Adds the case of a word, with output buffers of these lengths.
fn add(file: &mut CaseFile, told: Told, word: &[u8], lengths: [usize; 2]) {
    let expected = answer(told, word, lengths);
    let [edition, profile] = told;
    let [first, second] = lengths;
    file.case(format!("{edition} {profile} {} {first} {second}", digits(word)), &expected);
}

/// The line that answers this call.
fn answer([edition, profile]: Told, word: &[u8], lengths: [usize; 2]) -> String {
    let [mut first, mut second] = lengths.map(|length| vec![FILLER; length]);
    let decoded = decode(edition, profile, word, &mut first, &mut second);
    answer_of(decoded, [&first, &second])
}

/// The line for this answer, with what the outputs then hold.
fn answer_of(answer: Result<Answer, Refusal>, [first, second]: [&[u8]; 2]) -> String {
    let (answer, tried) = match answer {
        Ok(Answer { decoded, tried }) => (decoded.answer(first, second), Some(tried)),
        Err(refusal @ Refusal::Unreadable { tried }) => (refusal.to_string(), Some(tried)),
        Err(refusal) => (refusal.to_string(), None),
    };
    with_count(&answer, tried)
}

/// What boxlines answers, and after it the count of T-08, where there is one.
fn with_count(answer: &str, tried: Option<usize>) -> String {
    let count = tried.map(|tried| format!(" {tried}"));
    answer.to_string() + &count.unwrap_or_default()
}

/// Adds the case of a word with outputs of the right length.
fn add_word(file: &mut CaseFile, profile: &Profile, word: &[u8]) {
    add(file, [profile.edition.number(), profile.number], word, [profile.k(); 2]);
}

/// Words of profile 1, with answers that were worked out by hand.
fn cases_by_hand(file: &mut CaseFile, edition: Edition, cases: &[Case]) {
    for &(word, answer, tried) in cases {
        file.case(format!("{} 1 {word} 5 5", edition.number()), &with_count(answer, tried));
    }
}

/// So many words of every near miss, for every profile in which it does harm.
fn near_misses<'a>(
    file: &mut CaseFile,
    edition: Edition,
    table: impl IntoIterator<Item = &'a NearMiss>,
    count: usize,
    rng: &mut Rng,
) {
    for near_miss in table {
        file.group(near_miss.title(edition));
        for profile in edition.profiles() {
            for word in near_miss.words(profile, count, rng) {
                add_word(file, profile, &word);
            }
        }
    }
}

/// A codeword and all its neighbours in one position. In w they have every error (02, T-02).
fn every_position_and_level(file: &mut CaseFile, edition: Edition, rng: &mut Rng) {
    file.group(
        "a codeword of each profile, and every position and level of it: every error of T-02 in w",
    );
    for profile in edition.profiles() {
        let word = codeword(profile, rng);
        for (_, neighbour) in within_one(profile, &word) {
            add_word(file, profile, &neighbour);
        }
    }
}

/// Random words of every kind in the table.
fn received(file: &mut CaseFile, edition: Edition, table: &[Received], rng: &mut Rng) {
    add_received(file, edition, table, add_word, rng);
}

/// The same, each word added in this way.
pub fn add_received(
    file: &mut CaseFile,
    edition: Edition,
    table: &[Received],
    add: fn(&mut CaseFile, &Profile, &[u8]),
    rng: &mut Rng,
) {
    for &(name, count, build) in table {
        file.group(name);
        for profile in edition.profiles() {
            for word in repeat_with(|| build(profile, rng)).flatten().take(count) {
                add(file, profile, &word);
            }
        }
    }
}

/// A symbol of q, and one of 9, at every position of a codeword.
fn symbols_out_of_range(file: &mut CaseFile, rng: &mut Rng) {
    file.group("a symbol of q and of 9 at every position");
    for profile in Edition::Of2013.profiles() {
        let word = codeword(profile, rng);
        for position in 1..=word.len() {
            for symbol in [profile.q, 9] {
                add_word(file, profile, &replaced(&word, position, symbol));
            }
        }
    }
}

/// Every profile number with every fault of the word and of the outputs.
fn order_of_refusals(file: &mut CaseFile, rng: &mut Rng) {
    file.group("refusals, alone and together, in 01's order");
    for number in PROFILE_NUMBERS {
        let profile = row_for(number);
        let word = codeword(profile, rng);
        let last = word.len();
        let words = [
            word.clone(),
            word[1..].to_vec(),
            [&word[..], &[0]].concat(),
            vec![],
            replaced(&word, last, profile.q),
            [&replaced(&word, 1, 9)[..], &[0]].concat(),
            changed_at(profile, &word, &[1, 2], rng),
        ];
        let lengths = [profile.k(), profile.k() - 1, profile.k() + 1, 0];
        for word in &words {
            for pair in 0..16 {
                add(file, [13, number], word, [lengths[pair / 4], lengths[pair % 4]]);
            }
        }
    }
}
