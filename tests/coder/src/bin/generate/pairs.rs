//! pairs: messages of all profiles, and the word that encoding makes.

mod editions;
mod line_rules;

use std::iter::repeat_with;

use coder::codeword::{codewords, Messages};
use coder::edition::Edition;
use coder::encode::encode;
use coder::erasure::{erased_at, ERASURE};
use coder::examples;
use coder::line_rule::LineRule;
use coder::near_miss_rules::Told;
use coder::profile::Profile;
use coder::refusal::FILLER;
use coder::rng::Rng;
use coder::text::digits;

use crate::case_file::{row_for, CaseFile, PROFILE_NUMBERS};

const SEED: u64 = 0x7061_6972;

/// Pairs of each profile whose word depends on the order in which s and v are tried.
const OF_EACH_ORDER: usize = 20;

/// Random pairs of each profile.
const RANDOM: usize = 400;

pub fn make() -> CaseFile {
    let mut file = CaseFile::default();
    let rng = &mut Rng::new(SEED);
    let edition = Edition::Of2013;
    cases_of_01(&mut file);
    constant_messages(&mut file, edition, LineRule::One);
    unit_messages(&mut file, edition);
    order_of_choices(&mut file, edition, rng);
    random(&mut file, edition, LineRule::One, RANDOM, rng);
    order_of_refusals(&mut file, edition, rng);
    erasures(&mut file, rng);
    editions::add_groups(&mut file);
    line_rules::add_groups(&mut file);
    file
}

/// Adds the case of two messages, with an output buffer of this length.
fn add(file: &mut CaseFile, told: Told, [first, second]: &Messages, length: usize) {
    let [edition, profile, rule] = told;
    let mut output = vec![FILLER; length];
    let expected = match encode(edition, profile, rule, first, second, &mut output) {
        Ok(()) => digits(&output),
        Err(refusal) => refusal.to_string(),
    };
    let messages = format!("{} {}", digits(first), digits(second));
    file.case(format!("{edition} {profile} {rule} {messages} {length}"), &expected);
}

/// Adds the case of two messages with an output of the right length.
fn add_pair(file: &mut CaseFile, profile: &Profile, rule: LineRule, messages: &Messages) {
    let told = [profile.edition.number(), profile.number, rule.number()];
    add(file, told, messages, profile.word_length());
}

/// 01's own cases, with 01's words.
fn cases_of_01(file: &mut CaseFile) {
    file.group("cases of 01");
    for (profile, [first, second], word) in examples::encoded() {
        file.case(format!("13 {profile} 1 {first} {second} {}", word.len()), &word);
    }
}

/// Every pair of messages of one level each: the zero pair first, then up to all q−1.
fn constant_messages(file: &mut CaseFile, edition: Edition, rule: LineRule) {
    file.group("the zero pair of each profile, then every other pair of constant messages");
    for profile in edition.profiles() {
        for first in 0..profile.q {
            for second in 0..profile.q {
                let pair = [first, second].map(|symbol| vec![symbol; profile.k()]);
                add_pair(file, profile, rule, &pair);
            }
        }
    }
}

/// Adds pairs of zeros with one other symbol, each of these at every position of both messages.
fn single_symbols<const COUNT: usize>(
    file: &mut CaseFile,
    edition: Edition,
    symbols: fn(&Profile) -> [u8; COUNT],
) {
    for profile in edition.profiles() {
        let k = profile.k();
        for symbol in symbols(profile) {
            for index in 0..2 * k {
                let mut pair = [vec![0; k], vec![0; k]];
                pair[index / k][index % k] = symbol;
                add_pair(file, profile, LineRule::One, &pair);
            }
        }
    }
}

/// Pairs with a single 1 or q−1, and with a single symbol out of range.
fn unit_messages(file: &mut CaseFile, edition: Edition) {
    file.group("unit messages, of 1 and of q-1: wrong if position 2 of a component holds data");
    single_symbols(file, edition, |profile| [1, profile.q - 1]);
    file.group("a symbol of q and of 9 at every position");
    single_symbols(file, edition, |profile| [profile.q, 9]);
}

/// Whether the word depends on the order of trying: another is found first if v is before s.
fn depends_on_order(profile: &Profile, messages: &Messages) -> bool {
    let words = codewords(profile, messages);
    let v_first = words.iter().min_by_key(|(choice, _)| (choice.v, choice.s));
    v_first != words.first()
}

/// Pairs that an encoder which tries v before s gets wrong.
fn order_of_choices(file: &mut CaseFile, edition: Edition, rng: &mut Rng) {
    file.group("another word if v is tried before s");
    for profile in edition.profiles() {
        let pairs = repeat_with(|| rng.messages(profile));
        let told = pairs.filter(|pair| depends_on_order(profile, pair));
        for pair in told.take(OF_EACH_ORDER) {
            add_pair(file, profile, LineRule::One, &pair);
        }
    }
}

/// So many random pairs of every profile.
fn random(file: &mut CaseFile, edition: Edition, rule: LineRule, count: usize, rng: &mut Rng) {
    file.group("random pairs");
    for profile in edition.profiles() {
        for _ in 0..count {
            add_pair(file, profile, rule, &rng.messages(profile));
        }
    }
}

/// A message as it is, and with faults.
type Variants = fn(&Profile, &[u8]) -> Vec<Vec<u8>>;

/// Every profile number with every fault of both messages and of the output.
fn order_of_refusals(file: &mut CaseFile, edition: Edition, rng: &mut Rng) {
    file.group("refusals, alone and together, in 01's order");
    every_fault(file, edition, faulty, rng);
}

/// The same with these variants of the messages.
fn every_fault(file: &mut CaseFile, edition: Edition, variants: Variants, rng: &mut Rng) {
    for number in PROFILE_NUMBERS {
        let profile = row_for(number);
        let [firsts, seconds] = rng.messages(profile).map(|message| variants(profile, &message));
        for first in &firsts {
            for second in &seconds {
                let length = profile.word_length();
                for length in [length, length - 1, length + 1, 0] {
                    let told = [edition.number(), number, LineRule::One.number()];
                    add(file, told, &[first.clone(), second.clone()], length);
                }
            }
        }
    }
}

/// A message as it is, and with each fault: short, long with a symbol out of range, empty, and a
/// symbol out of range at either end.
fn faulty(profile: &Profile, message: &[u8]) -> Vec<Vec<u8>> {
    let k = message.len();
    vec![
        message.to_vec(),
        message[1..].to_vec(),
        [message, &[9]].concat(),
        vec![],
        [&message[..k - 1], &[profile.q]].concat(),
        [&[9], &message[1..]].concat(),
    ]
}

/// T-01: "Number 3 is left .. for 255 in a user word."
fn erasures(file: &mut CaseFile, rng: &mut Rng) {
    file.group("T-01, here and below: ? at every position");
    single_symbols(file, Edition::Of2013, |_| [ERASURE]);
    file.group("refusals of messages with ?, alone and together, in 01's order");
    every_fault(file, Edition::Of2013, |_, message| erased_variants(message), rng);
}

/// A message as it is, with ? at its end, all of ?, and short with ?.
fn erased_variants(message: &[u8]) -> Vec<Vec<u8>> {
    let k = message.len();
    vec![
        message.to_vec(),
        erased_at(message, &[k]),
        vec![ERASURE; k],
        erased_at(&message[1..], &[1]),
    ]
}

#[cfg(test)]
mod tests;
