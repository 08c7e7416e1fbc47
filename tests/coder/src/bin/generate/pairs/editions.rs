//! Pairs of the 2018 edition (02, T-03), and editions that are none. They come after all others and
//! have a seed of their own, so that the pairs before are those that were stored before.

use coder::balance::BalancingChoice;
use coder::codeword::{codewords, Messages};
use coder::edition::Edition;
use coder::examples::{encoded_2018, Encoded2018};
use coder::line_rule::LineRule;
use coder::near_miss_rules::Told;
use coder::profile::{Profile, PROFILES_2018};
use coder::rng::Rng;

use super::unit_messages;
use super::{add, add_pair, constant_messages, order_of_choices, order_of_refusals, random};
use crate::case_file::{row_for, CaseFile, EDITION_NUMBERS, PROFILE_NUMBERS};

const SEED: u64 = 0x6564_6974;

/// Random pairs of each profile.
const RANDOM: usize = 200;

/// Random pairs of each profile among which those with a certain choice are looked for, beside pairs of
/// constant messages and with a single 1.
const DRAWN: usize = 300;

/// Pairs of each profile and s, and with v = 0.
const OF_EACH_CHOICE: usize = 8;

pub fn add_groups(file: &mut CaseFile) {
    let rng = &mut Rng::new(SEED);
    let edition = Edition::Of2018;
    file.name_groups("T-03, edition 18: ");
    file.group("cases by hand");
    for Encoded2018 { profile, messages: [first, second], word, .. } in encoded_2018() {
        file.case(format!("18 {profile} 1 {first} {second} {}", word.len()), &word);
    }
    constant_messages(file, edition, LineRule::One);
    unit_messages(file, edition);
    order_of_choices(file, edition, rng);
    by_choice(file, rng);
    random(file, edition, LineRule::One, RANDOM, rng);
    order_of_refusals(file, edition, rng);
    file.name_groups("T-03, every edition: ");
    order_of_editions(file, rng);
}

/// A pair, and the choice of its word.
type Chosen = (Messages, BalancingChoice);

/// Pairs of every kind with the choices of their words.
fn chosen(profile: &Profile, rng: &mut Rng) -> Vec<Chosen> {
    let k = profile.k();
    let levels = (0..profile.q).flat_map(|first| (0..profile.q).map(move |second| [first, second]));
    let constant = levels.map(|levels| levels.map(|level| vec![level; k]));
    let units = (0..2 * k).map(|index| {
        let mut pair = [vec![0; k], vec![0; k]];
        pair[index / k][index % k] = 1;
        pair
    });
    let drawn = (0..DRAWN).map(|_| rng.messages(profile));
    let pairs = constant.chain(units).chain(drawn);
    pairs.map(|pair| (pair.clone(), codewords(profile, &pair)[0].0)).collect()
}

/// Pairs whose word has v = 0, and for each s, up to the highest, pairs whose word has it.
fn by_choice(file: &mut CaseFile, rng: &mut Rng) {
    let chosen = PROFILES_2018.each_ref().map(|profile| chosen(profile, rng));
    let add_those = |file: &mut CaseFile, profile: &Profile, has: &dyn Fn(&Chosen) -> bool| {
        let pairs = chosen[usize::from(profile.number) - 1].iter().filter(|pair| has(pair));
        for (pair, _) in pairs.take(OF_EACH_CHOICE) {
            add_pair(file, profile, LineRule::One, pair);
        }
    };
    file.group("1 is added nowhere: v = 0, and s = (q-1)/2");
    for profile in &PROFILES_2018 {
        add_those(file, profile, &|(_, choice)| choice.v == 0);
    }
    file.group("v = m-1, or the highest below");
    for profile in &PROFILES_2018 {
        add_those(file, profile, &|(_, choice)| choice.v + usize::from(profile.q) >= profile.m());
    }
    file.group("words of each s, up to q-1, which is the highest");
    for profile in &PROFILES_2018 {
        for s in 0..profile.q {
            add_those(file, profile, &|(_, choice)| choice.s == s);
        }
    }
}

/// Every edition and profile number with a right call and with faults: 12, 1, 2, 3.
fn order_of_editions(file: &mut CaseFile, rng: &mut Rng) {
    file.group("with every profile number, alone and with other faults: 12, 1, 2, 3");
    for edition in EDITION_NUMBERS {
        for number in PROFILE_NUMBERS {
            let profile = row_for(number);
            let [first, second] = rng.messages(profile);
            let spoiled = [&first[1..], &[9]].concat();
            let short = second[1..].to_vec();
            let told: Told = [edition, number, LineRule::One.number()];
            let length = profile.word_length();
            add(file, told, &[first.clone(), second.clone()], length);
            add(file, told, &[first, short.clone()], length);
            add(file, told, &[spoiled.clone(), second.clone()], length);
            add(file, told, &[spoiled.clone(), second], length + 1);
            add(file, told, &[spoiled, short], 0);
        }
    }
}
