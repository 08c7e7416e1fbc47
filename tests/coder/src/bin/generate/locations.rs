//! locations: what the step of a decoder by syndromes (02, T-09) is handed for words that are corrected in w, and
//! the position of the error.

use coder::decode::Sent;
use coder::edition::{Edition, EDITIONS};
use coder::examples::LOCATED;
use coder::located_words::{errors, Codewords, ADDED};
use coder::location::{located, Handed};
use coder::profile::Profile;
use coder::random_words::{changed_at, codeword, positions};
use coder::rng::Rng;
use coder::text::digits;
use coder::tried_words::Half;

use crate::case_file::CaseFile;

const SEED: u64 = 0x6c6f_6361;

/// Numbers that name no profile.
const NO_PROFILES: [u8; 3] = [0, 5, 255];

/// How many errors there are at each position of w, of as many as can be.
const ERRORS_AT_EACH: usize = 4;

/// The answer that is no position.
const NOWHERE: &str = "-";

pub fn make() -> CaseFile {
    let mut file = CaseFile::default();
    let rng = &mut Rng::new(SEED);
    file.group("cases by hand");
    for (edition, _, handed, position) in LOCATED {
        file.case(format!("{edition} 1 {handed}"), &position.to_string());
    }
    for (edition, prefix) in EDITIONS.into_iter().zip(["edition 13: ", "edition 18: "]) {
        file.name_groups(prefix);
        every_position(&mut file, edition, rng);
        ends_and_middle(&mut file, edition, rng);
        no_profile(&mut file, edition, rng);
    }
    file
}

/// The rows of a syndrome, as the step is handed them: of the low, the middle and the high digit, and of ones. With two
/// digits there is no high one, and its row is 0.
fn rows(syndrome: &[u8]) -> [u8; 4] {
    match *syndrome {
        [high, mid, low, ones] => [low, mid, high, ones],
        [mid, low, ones] => [low, mid, 0, ones],
        _ => unreachable!("r is 3 or 4"),
    }
}

/// What the step is handed for a word that is corrected in w: the line but for its profile, and the position.
fn line(profile: &Profile, word: &[u8]) -> (String, usize) {
    let (Handed { half, syndromes, .. }, Sent { position, symbol }) =
        located(profile, word).expect("the word is corrected in w");
    let parity = if half == Half::Odd { 0 } else { 1 };
    let [first, second] = syndromes.map(|syndrome| digits(&rows(&syndrome)));
    let received = word[position - 1];
    (format!("{parity} {received}{symbol} {first} {second}"), position)
}

/// Adds what the step is handed for a word that is corrected in w.
fn add(file: &mut CaseFile, profile: &Profile, word: &[u8]) {
    let (handed, position) = line(profile, word);
    let [edition, number] = [profile.edition.number(), profile.number];
    file.case(format!("{edition} {number} {handed}"), &position.to_string());
}

/// Every position of w: of profile 1 with every error and with 1 added to each component and to none, of the others with
/// some errors.
fn every_position(file: &mut CaseFile, edition: Edition, rng: &mut Rng) {
    file.group("every position of w, of profile 1 with every error, of the others with four");
    for profile in edition.profiles() {
        let (errors, mut codewords) = (errors(profile), Codewords::of(profile));
        for position in 1..=profile.m() {
            if profile.number == 1 {
                every_error(file, profile, &mut codewords, position, rng);
                continue;
            }
            for drawn in positions(errors.len(), ERRORS_AT_EACH, rng) {
                let word = codewords.with_any_error(position, errors[drawn - 1], rng);
                add(file, profile, &word);
            }
        }
    }
}

/// Every error at a position, with 1 added to each component and to none.
fn every_error(
    file: &mut CaseFile,
    profile: &Profile,
    codewords: &mut Codewords,
    position: usize,
    rng: &mut Rng,
) {
    for error in errors(profile) {
        for added in ADDED {
            let word = codewords.with_error(added, position, error, rng);
            word.into_iter().for_each(|word| add(file, profile, &word));
        }
    }
}

/// Every error at the ends of w and in its middle, of the profiles that have not had them.
fn ends_and_middle(file: &mut CaseFile, edition: Edition, rng: &mut Rng) {
    file.group("every error at positions 1, 2, n, m-1 and m");
    for profile in &edition.profiles()[1..] {
        let (n, m, mut codewords) = (profile.n, profile.m(), Codewords::of(profile));
        for position in [1, 2, n, m - 1, m] {
            every_error(file, profile, &mut codewords, position, rng);
        }
    }
}

/// What is handed for a word, with a number that names no profile.
fn no_profile(file: &mut CaseFile, edition: Edition, rng: &mut Rng) {
    file.group("a number that names no profile");
    for profile in edition.profiles() {
        let position = rng.from_one_to(profile.m());
        let word = changed_at(profile, &codeword(profile, rng), &[position], rng);
        let (handed, _) = line(profile, &word);
        for number in NO_PROFILES {
            file.case(format!("{} {number} {handed}", edition.number()), NOWHERE);
        }
    }
}

#[cfg(test)]
mod tests;
