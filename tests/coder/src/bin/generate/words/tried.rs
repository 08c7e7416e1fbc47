//! Words for the count of positions tried (02, T-08). They come after all others and have a seed of
//! their own, so that the words before are those that were stored before.

use std::iter;

use coder::decode::replaced;
use coder::edition::Edition;
use coder::erased_words::with_erasures;
use coder::erasure::erased_at;
use coder::examples::TRIED;
use coder::near_misses::TRIED_NEAR_MISSES;
use coder::random_words::{changed_at, codeword};
use coder::rng::Rng;
use coder::tried_words::{
    balanced_both_checks, balanced_far, balanced_one_off, balanced_two_wrong, both_off,
    neither_off, neither_off_by_q, none_fits, off_by_other, off_from_q, off_from_q_by_other, Half,
};

use super::{add, add_word, cases_by_hand, near_misses, received, Received};
use crate::case_file::{row_for, CaseFile, PROFILE_NUMBERS};

const SEED: u64 = 0x7472_6965;

/// Words of each near miss and profile: two, since the rows below tell them too.
const OF_EACH_NEAR_MISS: usize = 2;

/// Unreadable words by their cause, and words with erasures.
pub const RECEIVED: [Received; 18] = [
    ("unreadable, 0 tried: weight off, and both check sums", 4, both_off),
    ("unreadable, 0 tried: weight off by q, and neither check sum", 4, neither_off_by_q),
    ("unreadable, 0 tried: weight off by less than q, and neither check sum", 4, neither_off),
    (
        "unreadable, n + 1 tried: the odd check sum off by something other than the weight",
        4,
        |p, rng| off_by_other(p, rng, Half::Odd),
    ),
    (
        "unreadable, n tried: the even check sum off by something other than the weight",
        4,
        |p, rng| off_by_other(p, rng, Half::Even),
    ),
    ("unreadable, n + 1 tried: the odd check sum off by as much as the weight", 4, |p, rng| {
        none_fits(p, rng, Half::Odd)
    }),
    ("unreadable, n tried: the even check sum off by as much as the weight", 4, |p, rng| {
        none_fits(p, rng, Half::Even)
    }),
    (
        "unreadable, n + 1 tried: weight off by q or more, the odd check sum by as much mod q",
        4,
        |p, rng| off_from_q(p, rng, Half::Odd),
    ),
    (
        "unreadable, n tried: weight off by q or more, the even check sum by as much mod q",
        4,
        |p, rng| off_from_q(p, rng, Half::Even),
    ),
    (
        "unreadable, n + 1 tried: weight off by q or more, the odd check sum by something else",
        4,
        |p, rng| off_from_q_by_other(p, rng, Half::Odd),
    ),
    (
        "unreadable, n tried: weight off by q or more, the even check sum by something else",
        4,
        |p, rng| off_from_q_by_other(p, rng, Half::Even),
    ),
    ("unreadable, 0 tried: balanced and with right check symbols", 4, balanced_far),
    ("unreadable, 0 tried: balanced, and one check sum off", 4, balanced_one_off),
    ("unreadable, 0 tried: balanced, and two symbols of w wrong", 4, balanced_two_wrong),
    ("unreadable, 0 tried: balanced, and both check symbols wrong", 4, balanced_both_checks),
    ("one erasure in a codeword: 0 tried", 4, |p, rng| Some(with_erasures(p, [1, 0], rng))),
    ("two erasures in a codeword: 0 tried", 4, |p, rng| Some(with_erasures(p, [2, 0], rng))),
    ("one or two erasures, and one other symbol wrong: 0 tried", 8, |p, rng| {
        let erasures = rng.from_one_to(2);
        Some(with_erasures(p, [erasures, 1], rng))
    }),
];

pub fn add_groups(file: &mut CaseFile) {
    let rng = &mut Rng::new(SEED);
    file.group(
        "T-08, here and below: 01's words with symbols wrong, and how many are tried, by hand",
    );
    let edition = Edition::Of2013;
    cases_by_hand(file, edition, &TRIED);
    near_misses(file, edition, &TRIED_NEAR_MISSES, OF_EACH_NEAR_MISS, rng);
    every_position(file, edition, 1, rng);
    received(file, edition, &RECEIVED, rng);
    refusals(file, rng);
}

/// So many codewords of each profile with each symbol changed in turn. In w each one is found, so that
/// there is every count.
pub fn every_position(file: &mut CaseFile, edition: Edition, count: usize, rng: &mut Rng) {
    file.group(
        "a codeword of each profile with each symbol changed in turn: every count of a corrected word",
    );
    for profile in edition.profiles().iter().flat_map(|profile| iter::repeat_n(profile, count)) {
        let word = codeword(profile, rng);
        for position in 1..=word.len() {
            add_word(file, profile, &changed_at(profile, &word, &[position], rng));
        }
    }
}

/// A word that has a count, under every profile number, and with what is refused before: 1, 2, 3
/// and 11 have none.
fn refusals(file: &mut CaseFile, rng: &mut Rng) {
    file.group("a word that has a count, and refused by 1, 2, 3 and 11, which have none");
    for number in PROFILE_NUMBERS {
        let profile = row_for(number);
        let word = codeword(profile, rng);
        let word = changed_at(profile, &word, &[profile.m()], rng);
        let k = profile.k();
        let told = [13, number];
        add(file, told, &word, [k, k]);
        add(file, told, &word, [k, k + 1]);
        add(file, told, &word[1..], [k, k]);
        add(file, told, &replaced(&word, 1, profile.q), [k, k]);
        add(file, told, &erased_at(&word, &[1, 2, 3]), [k, k]);
    }
}

#[cfg(test)]
mod tests {
    use std::collections::BTreeSet;

    use coder::edition::EDITIONS;
    use coder::profile::Profile;

    /// The counts of all answers to words of this profile that begin so.
    fn counts(profile: &Profile, input: &str, expected: &str, kind: &str) -> BTreeSet<usize> {
        let of_profile = format!("{} {} ", profile.edition.number(), profile.number);
        let cases = input.lines().zip(expected.lines());
        let answers = cases
            .filter(|(case, answer)| case.starts_with(&of_profile) && answer.starts_with(kind));
        answers.map(|(_, answer)| answer.rsplit(' ').next().unwrap().parse().unwrap()).collect()
    }

    /// "It never passes 9, 27, 25 and 49 for profiles 1 to 4": each count up to there is in the file,
    /// of words of each edition that are corrected; of the others those that there are.
    #[test]
    fn every_count_stands_in_the_words() {
        let file = super::super::make();
        let [input, expected] =
            [&file.input, &file.expected].map(|bytes| std::str::from_utf8(bytes).unwrap());
        let profiles =
            EDITIONS.into_iter().flat_map(|edition| edition.profiles().iter().zip([9, 27, 25, 49]));
        for (profile, most) in profiles {
            let counts = |kind: &str| counts(profile, input, expected, kind);
            assert_eq!(counts("M "), (0..=most).collect());
            assert_eq!(counts("R 4 "), BTreeSet::from([0, most - 1, most]));
            assert_eq!([counts("C "), counts("F ")], [(); 2].map(|()| BTreeSet::from([0])));
        }
    }
}
