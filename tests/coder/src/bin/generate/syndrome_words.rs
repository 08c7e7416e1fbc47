//! syndrome_words: received words of all profiles and both editions, and what decoding by syndromes answers (02,
//! T-09): what decoding does, without a count.

use coder::decode::replaced;
use coder::edition::{Edition, EDITIONS};
use coder::erased_words::{
    both_checks, like_parity, one_of_w_and_one_check, with_erasures, with_erasures_at,
};
use coder::erasure::ERASURE;
use coder::examples::{Case, DECODED, DECODED_2018, ERASED, ERRORS, TRIED};
use coder::located_near_misses::LOCATED_NEAR_MISSES;
use coder::located_words::{
    errors, multiple_below, no_column_named, position_zero_below, position_zero_named,
    two_columns_below, wrong_columns_named, Codewords,
};
use coder::near_misses::NEAR_MISSES;
use coder::profile::Profile;
use coder::random_words::{balanced_noise, changed_at, codeword, encoded, of_both, with_changes};
use coder::refusal::{Refusal, FILLER};
use coder::rng::Rng;
use coder::syndrome_decode::syndrome_decode;
use coder::text::digits;
use coder::tried_words::{
    balanced_both_checks, balanced_far, balanced_one_off, balanced_two_wrong, both_off,
    neither_off, neither_off_by_q, none_fits, off_by_other, off_from_q, off_from_q_by_other, Half,
};

use crate::case_file::{row_of, CaseFile, EDITION_NUMBERS, PROFILE_NUMBERS};
use crate::words::editions::{faulty, OF_OTHER_EDITION};
use crate::words::{add_received, Received, Told};

const SEED: u64 = 0x7379_6e64;

/// Words of each near miss and profile.
const OF_EACH_NEAR_MISS: usize = 2;

/// Profile numbers that are tried with every edition: one that names a profile, and one that does not.
const WITH_EVERY_EDITION: [u8; 2] = [1, 5];

const RECEIVED: [Received; 31] = [
    ("the encoder's word", 4, |profile, rng| Some(encoded(profile, rng))),
    ("codeword by any choice", 4, |profile, rng| Some(codeword(profile, rng))),
    ("codeword of which 1 was added nowhere", 2, of_both),
    ("two symbols changed", 8, |profile, rng| Some(with_changes(profile, 2, rng))),
    ("three symbols changed", 4, |profile, rng| Some(with_changes(profile, 3, rng))),
    ("noise, balanced and with right check symbols", 2, balanced_noise),
    ("unreadable: weight off, and both check sums", 2, both_off),
    ("unreadable: weight off by q, and neither check sum", 2, neither_off_by_q),
    ("unreadable: weight off by less than q, and neither check sum", 2, neither_off),
    ("unreadable: the odd check sum off by something other than the weight", 2, |p, rng| {
        off_by_other(p, rng, Half::Odd)
    }),
    ("unreadable: the even check sum off by something other than the weight", 2, |p, rng| {
        off_by_other(p, rng, Half::Even)
    }),
    ("unreadable: no odd position fits", 3, |p, rng| none_fits(p, rng, Half::Odd)),
    ("unreadable: no even position fits", 3, |p, rng| none_fits(p, rng, Half::Even)),
    ("unreadable: weight off by q or more, the odd check sum by as much mod q", 2, |p, rng| {
        off_from_q(p, rng, Half::Odd)
    }),
    ("unreadable: weight off by q or more, the even check sum by as much mod q", 2, |p, rng| {
        off_from_q(p, rng, Half::Even)
    }),
    ("unreadable: weight off by q or more, one check sum by something else", 2, |p, rng| {
        let half = *rng.pick(&[Half::Odd, Half::Even]);
        off_from_q_by_other(p, rng, half)
    }),
    ("unreadable: neither syndrome is as many times a column as the error", 4, no_column_named),
    ("unreadable: both syndromes are zeros but for the last row", 4, position_zero_named),
    ("unreadable: both syndromes name a position, but not one", 4, wrong_columns_named),
    ("unreadable: a syndrome of zeros with a last 1 below the error", 3, position_zero_below),
    ("unreadable: two columns below the error", 3, two_columns_below),
    ("unreadable: a column 2 to q-1 times below the error", 3, multiple_below),
    ("unreadable: balanced", 4, |p, rng| {
        let builds = [balanced_far, balanced_one_off, balanced_two_wrong, balanced_both_checks];
        rng.pick(&builds)(p, rng)
    }),
    ("one erasure in a codeword", 3, |p, rng| Some(with_erasures(p, [1, 0], rng))),
    ("two erasures in a codeword", 4, |p, rng| Some(with_erasures(p, [2, 0], rng))),
    ("two symbols of w of like parity erased", 2, |p, rng| {
        Some(with_erasures_at(p, like_parity, rng))
    }),
    ("one symbol of w and one check symbol erased", 2, |p, rng| {
        Some(with_erasures_at(p, one_of_w_and_one_check, rng))
    }),
    ("both check symbols erased", 1, |p, rng| Some(with_erasures_at(p, both_checks, rng))),
    ("one erasure, and one other symbol changed", 2, |p, rng| Some(with_erasures(p, [1, 1], rng))),
    ("two erasures, and one other symbol changed", 2, |p, rng| Some(with_erasures(p, [2, 1], rng))),
    ("three erasures in a codeword", 2, |p, rng| Some(with_erasures(p, [3, 0], rng))),
];

pub fn make() -> CaseFile {
    let mut file = CaseFile::default();
    let rng = &mut Rng::new(SEED);
    let by_hand: [&[&[Case]]; 2] = [&[&DECODED, &ERASED, &ERRORS, &TRIED], &[&DECODED_2018]];
    let named = EDITIONS.into_iter().zip(["edition 13: ", "edition 18: "]).zip(by_hand);
    for ((edition, prefix), by_hand) in named {
        file.name_groups(prefix);
        cases_by_hand(&mut file, edition, &by_hand.concat());
        near_misses(&mut file, edition, rng);
        every_error(&mut file, edition, rng);
        every_position(&mut file, edition, rng);
        check_symbols(&mut file, edition, rng);
        add_received(&mut file, edition, &RECEIVED, add_word, rng);
        order_of_refusals(&mut file, edition, rng);
    }
    file.name_groups("words of edition 18 read as edition 13: ");
    add_received(&mut file, Edition::Of2013, &OF_OTHER_EDITION[2..4], add_word, rng);
    file.name_groups("every edition: ");
    order_of_editions(&mut file, rng);
    file
}

/// Adds the case of a word, with output buffers of these lengths.
fn add(file: &mut CaseFile, told: Told, word: &[u8], lengths: [usize; 2]) {
    let ([edition, profile], [first, second]) = (told, lengths);
    let answer = answer(told, word, lengths).unwrap_or_else(|refusal| refusal.to_string());
    file.case(format!("{edition} {profile} {} {first} {second}", digits(word)), &answer);
}

/// The line that answers a word that is read: what boxlines prints after the profile.
fn answer([edition, profile]: Told, word: &[u8], lengths: [usize; 2]) -> Result<String, Refusal> {
    let [mut first, mut second] = lengths.map(|length| vec![FILLER; length]);
    let decoded = syndrome_decode(edition, profile, word, &mut first, &mut second)?;
    Ok(decoded.answer(&first, &second))
}

/// Adds the case of a word with outputs of the right length.
fn add_word(file: &mut CaseFile, profile: &Profile, word: &[u8]) {
    add(file, [profile.edition.number(), profile.number], word, [profile.k(); 2]);
}

/// Words of profile 1, with answers that were worked out by hand.
fn cases_by_hand(file: &mut CaseFile, edition: Edition, cases: &[Case]) {
    file.group("cases by hand");
    for (word, answer, _) in cases {
        file.case(format!("{} 1 {word} 5 5", edition.number()), answer);
    }
}

/// Words of every near miss, and of those of 01's decoder.
fn near_misses(file: &mut CaseFile, edition: Edition, rng: &mut Rng) {
    for near_miss in &LOCATED_NEAR_MISSES {
        file.group(near_miss.title());
        for profile in edition.profiles() {
            for word in near_miss.words(profile, OF_EACH_NEAR_MISS, rng) {
                add_word(file, profile, &word);
            }
        }
    }
    file.group("a word of each near miss of 01's decoder");
    for near_miss in &NEAR_MISSES {
        for profile in edition.profiles() {
            for word in near_miss.words(profile, 1, rng) {
                add_word(file, profile, &word);
            }
        }
    }
}

/// Every error at the ends of w, next to them and in the middle.
fn every_error(file: &mut CaseFile, edition: Edition, rng: &mut Rng) {
    file.group("every error at positions 1, 2, 3, n, n+1, m-2, m-1 and m of w");
    for profile in edition.profiles() {
        let (n, m, mut codewords) = (profile.n, profile.m(), Codewords::of(profile));
        for position in [1, 2, 3, n, n + 1, m - 2, m - 1, m] {
            for error in errors(profile) {
                add_word(file, profile, &codewords.with_any_error(position, error, rng));
            }
        }
    }
}

/// Codewords with each symbol changed in turn.
fn every_position(file: &mut CaseFile, edition: Edition, rng: &mut Rng) {
    file.group("a codeword of each profile with each symbol changed in turn");
    for profile in edition.profiles() {
        let word = codeword(profile, rng);
        for position in 1..=word.len() {
            add_word(file, profile, &changed_at(profile, &word, &[position], rng));
        }
    }
}

/// A codeword with each check symbol at every other level.
fn check_symbols(file: &mut CaseFile, edition: Edition, rng: &mut Rng) {
    file.group("each check symbol of a codeword at every other level");
    for profile in edition.profiles() {
        let word = codeword(profile, rng);
        for position in [profile.m() + 1, profile.m() + 2] {
            for level in (0..profile.q).filter(|&level| level != word[position - 1]) {
                add_word(file, profile, &replaced(&word, position, level));
            }
        }
    }
}

/// Every profile number with every fault of the word and of the outputs.
fn order_of_refusals(file: &mut CaseFile, edition: Edition, rng: &mut Rng) {
    file.group("refusals, alone and together: 1, 2, 3, 11, 4");
    for number in PROFILE_NUMBERS {
        let profile = &row_of(edition.number(), number);
        let k = profile.k();
        for word in faulty(profile, rng) {
            for lengths in [[k, k], [k - 1, k], [k, k + 1]] {
                add(file, [edition.number(), number], &word, lengths);
            }
        }
    }
}

/// Every edition with words of every kind: 12, 1, 2, 3, 11, 4.
fn order_of_editions(file: &mut CaseFile, rng: &mut Rng) {
    file.group("with and without a profile, and words of every kind: 12, 1, 2, 3, 11, 4");
    for edition in EDITION_NUMBERS {
        for number in WITH_EVERY_EDITION {
            let profile = &row_of(edition, number);
            for word in faulty(profile, rng) {
                add(file, [edition, number], &word, [profile.k(); 2]);
            }
            add(file, [edition, number], &[ERASURE; 100], [0, 46]);
        }
    }
}

#[cfg(test)]
mod tests;
