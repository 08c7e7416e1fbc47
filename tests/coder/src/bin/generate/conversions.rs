//! conversions: words of either edition, and the word of the other that converting makes of each (02, T-04).

use coder::codeword::codewords;
use coder::decode::replaced;
use coder::edition::{Edition, EDITIONS};
use coder::erased_words::{
    both_checks, erased, one_of_w_and_one_check, with_erasures, with_erasures_at,
};
use coder::erasure::{erased_at, ERASURE};
use coder::examples::converted;
use coder::near_miss_calls::{Call, CallNearMiss, CONVERTER_NEAR_MISSES, NUMBER_NEAR_MISSES};
use coder::profile::Profile;
use coder::random_words::{
    balanced_noise, both_check_symbols, changed_at, codeword, encoded, of_both, with_changes,
};
use coder::rng::Rng;
use coder::text::{digits, symbols};

use crate::case_file::{row_of, CaseFile, EDITION_NUMBERS, PROFILE_NUMBERS};
use crate::words::editions::OF_OTHER_EDITION;
use crate::words::erasures::another_agrees;
use crate::words::{add_received, Received};

const SEED: u64 = 0x636f_6e76;

/// Calls of each near miss and profile.
const OF_EACH_NEAR_MISS: usize = 2;

/// Pairs of each profile of which the codewords by every choice are converted.
const PAIRS: usize = 5;

const RECEIVED: [Received; 16] = [
    ("the encoder's word", 25, |profile, rng| Some(encoded(profile, rng))),
    ("codeword of both editions, converted with the pair that it has in this one", 6, of_both),
    ("one symbol changed", 10, |profile, rng| Some(with_changes(profile, 1, rng))),
    ("two symbols changed", 12, |profile, rng| Some(with_changes(profile, 2, rng))),
    ("both check symbols changed", 6, both_check_symbols),
    ("noise", 6, |profile, rng| Some(rng.word(profile.q, profile.word_length()))),
    ("noise, balanced and with right check symbols", 8, balanced_noise),
    ("two erasures in a codeword by any choice", 12, |profile, rng| {
        Some(with_erasures(profile, [2, 0], rng))
    }),
    ("one symbol of w and one check symbol erased", 6, |profile, rng| {
        Some(with_erasures_at(profile, one_of_w_and_one_check, rng))
    }),
    ("both check symbols erased", 4, |profile, rng| {
        Some(with_erasures_at(profile, both_checks, rng))
    }),
    ("one erasure, and one other symbol changed", 8, |profile, rng| {
        Some(with_erasures(profile, [1, 1], rng))
    }),
    ("two erasures, and one other symbol changed", 8, |profile, rng| {
        Some(with_erasures(profile, [2, 1], rng))
    }),
    ("two erasures, and one other symbol changed: another codeword agrees", 4, another_agrees),
    ("three erasures in a codeword", 6, |profile, rng| Some(with_erasures(profile, [3, 0], rng))),
    ("three erasures in noise", 4, |profile, rng| {
        Some(erased(&rng.word(profile.q, profile.word_length()), 3, rng))
    }),
    ("every symbol erased", 1, |profile, _| Some(vec![ERASURE; profile.word_length()])),
];

pub fn make() -> CaseFile {
    let mut file = CaseFile::default();
    let rng = &mut Rng::new(SEED);
    cases_by_hand(&mut file);
    for (edition, prefix) in EDITIONS.into_iter().zip(["from edition 13: ", "from edition 18: "]) {
        file.name_groups(prefix);
        near_misses(&mut file, edition, &CONVERTER_NEAR_MISSES, rng);
        there_and_back(&mut file, edition, rng);
        add_received(&mut file, edition, &RECEIVED, add_word, rng);
        every_position(&mut file, edition, rng);
        order_of_refusals(&mut file, edition, rng);
    }
    for (edition, prefix) in EDITIONS.into_iter().zip([
        "words of edition 18 taken for words of edition 13: ",
        "words of edition 13 taken for words of edition 18: ",
    ]) {
        file.name_groups(prefix);
        add_received(&mut file, edition, &OF_OTHER_EDITION, add_word, rng);
    }
    file.name_groups("every edition: ");
    near_misses(&mut file, Edition::Of2013, &NUMBER_NEAR_MISSES, rng);
    order_of_editions(&mut file, rng);
    file
}

/// Adds the case of a call.
fn add(file: &mut CaseFile, call: &Call) {
    add_answered(file, call, &call.answer());
}

/// Adds the case of a call with this answer.
fn add_answered(file: &mut CaseFile, call: &Call, answer: &str) {
    let Call { edition, profile, word, length } = call;
    file.case(format!("{edition} {profile} {} {length}", digits(word)), answer);
}

/// Adds the case of a word with an output of the right length.
fn add_word(file: &mut CaseFile, profile: &Profile, word: &[u8]) {
    add(file, &Call::of(profile, word.to_vec()));
}

/// Words with answers that were worked out by hand.
fn cases_by_hand(file: &mut CaseFile) {
    file.group("cases by hand");
    for (edition, profile, word, answer) in converted() {
        let word = symbols(&word);
        let length = word.len();
        add_answered(file, &Call { edition, profile, word, length }, &answer);
    }
}

/// Calls of every near miss in the table.
fn near_misses(file: &mut CaseFile, edition: Edition, table: &[CallNearMiss], rng: &mut Rng) {
    for near_miss in table {
        file.group(near_miss.title());
        for profile in edition.profiles() {
            for call in near_miss.calls(profile, OF_EACH_NEAR_MISS, rng) {
                add(file, &call);
            }
        }
    }
}

/// "Converting there and back gives the writer's own word for that pair, which may differ from the first if
/// another firm's writer made that one."
fn there_and_back(file: &mut CaseFile, edition: Edition, rng: &mut Rng) {
    file.group("the codewords of some pairs by every choice, each converted, and converted back");
    for profile in edition.profiles() {
        for _ in 0..PAIRS {
            for (_, word) in codewords(profile, &rng.messages(profile)) {
                let there = Call::of(profile, word);
                let back = Call::of(&profile.in_other_edition(), symbols(&there.answer()));
                add(file, &there);
                add(file, &back);
            }
        }
    }
}

/// What is received of a codeword at one position, and how.
type AtPosition = (&'static str, fn(&Profile, &[u8], usize, &mut Rng) -> Vec<u8>);

const AT_EVERY_POSITION: [AtPosition; 3] = [
    ("changed", |profile, word, position, rng| changed_at(profile, word, &[position], rng)),
    ("erased", |_, word, position, _| erased_at(word, &[position])),
    ("set to q", |profile, word, position, _| replaced(word, position, profile.q)),
];

/// A codeword with one symbol wrong in every way, at every position.
fn every_position(file: &mut CaseFile, edition: Edition, rng: &mut Rng) {
    for (name, receive) in AT_EVERY_POSITION {
        file.group(format!("a codeword of each profile with each symbol {name} in turn"));
        for profile in edition.profiles() {
            let word = codeword(profile, rng);
            for position in 1..=word.len() {
                add_word(file, profile, &receive(profile, &word, position, rng));
            }
        }
    }
}

/// A word that is converted, and words that are refused: with 13, corrected and filled, with 4, with 11,
/// with 3 and three erasures, and with 3.
fn of_every_answer(profile: &Profile, rng: &mut Rng) -> [Vec<u8>; 7] {
    let word = codeword(profile, rng);
    let last = word.len();
    let three = erased_at(&word, &[1, 2, last]);
    [
        changed_at(profile, &word, &[1], rng),
        erased_at(&word, &[1, last]),
        changed_at(profile, &word, &[1, 2], rng),
        replaced(&three, 3, 9),
        three,
        replaced(&word, last, profile.q),
        word,
    ]
}

/// A word with an output of its length, of three others, and the same word too short and too long.
fn with_lengths(word: &[u8]) -> [(Vec<u8>, usize); 8] {
    let right = word.len();
    let (short, long) = (&word[1..], &[word, &[0]].concat()[..]);
    let lengths = [
        (word, right),
        (word, right - 1),
        (word, right + 1),
        (word, 0),
        (short, right),
        (short, right - 1),
        (long, right),
        (long, right + 1),
    ];
    lengths.map(|(word, length)| (word.to_vec(), length))
}

/// Every profile number with every fault of the word and of the output: 1, 2, 3, 11, 4, 13.
fn order_of_refusals(file: &mut CaseFile, edition: Edition, rng: &mut Rng) {
    file.group("refusals, alone and together: 1, 2, 3, 11, 4, 13");
    for number in PROFILE_NUMBERS {
        let edition = edition.number();
        let words = of_every_answer(&row_of(edition, number), rng);
        for (word, length) in words.iter().flat_map(|word| with_lengths(word)) {
            add(file, &Call { edition, profile: number, word, length });
        }
    }
}

/// Every edition and profile number with words of every answer and wrong lengths: 12, 1, 2, 3, 11, 4, 13.
fn order_of_editions(file: &mut CaseFile, rng: &mut Rng) {
    file.group(
        "with every profile number, words of every answer and wrong lengths: 12, 1, 2, 3, 11, 4, 13",
    );
    for edition in EDITION_NUMBERS {
        for number in PROFILE_NUMBERS {
            let profile = &row_of(edition, number);
            let length = profile.word_length();
            let mut add = |word: Vec<u8>, length: usize| {
                add(file, &Call { edition, profile: number, word, length });
            };
            let words = of_every_answer(profile, rng);
            add(words[0].clone(), length - 1);
            add(vec![], length);
            add(vec![ERASURE; length + 1], 0);
            for word in words {
                add(word, length);
            }
        }
    }
}

#[cfg(test)]
mod tests;
