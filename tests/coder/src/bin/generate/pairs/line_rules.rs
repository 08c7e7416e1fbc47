//! Pairs by line rule 2 (02, T-06), and line rules that are none. They come after all others and have a seed of
//! their own, so that the pairs before are those that were stored before.

use coder::calm_words::{calm, wild, Draw};
use coder::codeword::{codewords, Messages};
use coder::edition::{profiles_of_both, Edition, EDITIONS};
use coder::examples::line_rules::{Pair, CALM_PAIRS, PAIRS};
use coder::line_rule::{taken, Choice, LineRule};
use coder::near_miss_pairs::PAIR_NEAR_MISSES;
use coder::near_miss_rules::Told;
use coder::peak::peak;
use coder::profile::Profile;
use coder::rng::Rng;
use coder::text::symbols;

use super::{add, add_pair, constant_messages, random};
use crate::case_file::{row_for, CaseFile, PROFILE_NUMBERS};

const SEED: u64 = 0x6361_6c6d;

/// Random pairs of each profile.
const RANDOM: usize = 200;

/// Pairs of each near miss and profile.
const OF_EACH_NEAR_MISS: usize = 2;

/// Pairs of calm words and of wild ones, of each profile.
const OF_EACH_DRAW: usize = 12;

/// Pairs of each profile and kind of choice.
const OF_EACH_CHOICE: usize = 5;

/// Pairs of each profile among which those are looked for.
const DRAWN: usize = 1000;

/// The line rules, and numbers that name none: near them, other numbers of calls, and with bits more or less.
const RULE_NUMBERS: [u8; 17] =
    [0, 1, 2, 3, 4, 5, 12, 13, 14, 18, 127, 128, 129, 130, 131, 254, 255];

pub fn add_groups(file: &mut CaseFile) {
    let rng = &mut Rng::new(SEED);
    file.name_groups("T-06, rule 2: ");
    cases_by_hand(file);
    for (edition, prefix) in
        EDITIONS.into_iter().zip(["T-06, rule 2, edition 13: ", "T-06, rule 2, edition 18: "])
    {
        file.name_groups(prefix);
        constant_messages(file, edition, LineRule::Two);
        near_misses(file, edition, rng);
        by_choice(file, edition, rng);
        drawn(file, edition, ("pairs of calm words, or nearly", calm), rng);
        drawn(file, edition, ("pairs of words that swing widely, or nearly", wild), rng);
        random(file, edition, LineRule::Two, RANDOM, rng);
    }
    file.name_groups("T-06, every rule: ");
    order_of_rules(file, rng);
    every_set_of_faults(file, rng);
}

/// Pairs of which every balancing choice was listed with its peak, and those of the request's trial, by both rules.
fn cases_by_hand(file: &mut CaseFile) {
    file.group("pairs with every balancing choice listed, each also by rule 1");
    for Pair { edition, messages: [first, second], choices, taken } in PAIRS {
        for (rule, index) in [(2, taken), (1, 0)] {
            let (_, _, word, _) = choices[index];
            file.case(format!("{edition} 1 {rule} {first} {second} {}", word.len()), word);
        }
    }
    file.group("calm pairs of the request's trial: another word if alpha and beta do not count");
    for (number, messages, ..) in CALM_PAIRS {
        add_pair(file, row_for(number), LineRule::Two, &messages.map(symbols));
    }
}

/// Pairs of every near miss, of every profile in which it does harm.
fn near_misses(file: &mut CaseFile, edition: Edition, rng: &mut Rng) {
    for near_miss in &PAIR_NEAR_MISSES {
        if !edition.profiles().iter().any(|profile| near_miss.harms(profile)) {
            continue;
        }
        file.group(near_miss.title());
        for profile in edition.profiles() {
            for pair in near_miss.pairs(profile, OF_EACH_NEAR_MISS, rng) {
                add_pair(file, profile, LineRule::Two, &pair);
            }
        }
    }
}

/// The codewords of a pair with the least peak, in the order of trying.
fn calmest<'a>(profile: &Profile, words: &'a [Choice]) -> Vec<&'a Choice> {
    let (_, taken) = taken(LineRule::Two, profile.q, words);
    let least = peak(profile.q, taken);
    words.iter().filter(|(_, word)| peak(profile.q, word) == least).collect()
}

/// What is asked of a pair's codewords, and of those with the least peak, the first of which is taken.
type Asked = fn(&Profile, &[Choice], &[&Choice]) -> bool;

const BY_CHOICE: [(&str, Asked); 7] = [
    ("the least peak by two s", |_, _, calmest| {
        calmest.iter().any(|(choice, _)| choice.s != calmest[0].0.s)
    }),
    ("the least peak by two v with one s", |_, _, calmest| {
        calmest.len() > 1 && calmest[1].0.s == calmest[0].0.s
    }),
    ("the first choice has the least peak, so both rules take it", |_, words, calmest| {
        words.len() > 2 && calmest[0] == &words[0]
    }),
    ("the last choice has the least peak", |_, words, calmest| {
        words.len() > 2 && Some(calmest[0]) == words.last()
    }),
    (
        "the lowest v: 1, or 0 in edition 18, with which 1 is added to neither half",
        |profile, _, calmest| calmest[0].0.adds_nothing(profile.edition),
    ),
    ("the highest v: m, or m-1 in edition 18", |profile, _, calmest| {
        calmest[0].0.v + usize::from(profile.edition == Edition::Of2018) == profile.m()
    }),
    ("s = q-1", |profile, _, calmest| calmest[0].0.s == profile.q - 1),
];

/// Pairs of every kind of choice that rule 2 takes.
fn by_choice(file: &mut CaseFile, edition: Edition, rng: &mut Rng) {
    let drawn = edition.profiles().each_ref().map(|profile| {
        let pairs = (0..DRAWN).map(|_| rng.messages(profile));
        pairs.map(|pair| (codewords(profile, &pair), pair)).collect::<Vec<_>>()
    });
    for (name, is_asked) in BY_CHOICE {
        file.group(name);
        for (profile, pairs) in edition.profiles().iter().zip(&drawn) {
            let asked = pairs
                .iter()
                .filter(|(words, _)| is_asked(profile, words, &calmest(profile, words)));
            for (_, pair) in asked.take(OF_EACH_CHOICE) {
                add_pair(file, profile, LineRule::Two, pair);
            }
        }
    }
}

/// Pairs that are drawn in some way, of every profile.
fn drawn(file: &mut CaseFile, edition: Edition, (name, draw): (&str, Draw), rng: &mut Rng) {
    file.group(name);
    for profile in edition.profiles() {
        for _ in 0..OF_EACH_DRAW {
            add_pair(file, profile, LineRule::Two, &draw(profile, rng));
        }
    }
}

/// Every rule number with every profile number, in both editions: 1, 14.
fn order_of_rules(file: &mut CaseFile, rng: &mut Rng) {
    file.group("with every profile number, in both editions: 1, 14");
    for edition in EDITIONS {
        for rule in RULE_NUMBERS {
            for number in PROFILE_NUMBERS {
                let profile = row_for(number);
                let told = [edition.number(), number, rule];
                add(file, told, &rng.messages(profile), profile.word_length());
            }
        }
    }
}

/// Numbers that name no edition, no profile and no line rule.
const WRONG: [&[u8]; 3] = [&[0, 1, 12, 14, 17, 19, 31], &[0, 5, 9], &[0, 3, 4, 13, 14, 18]];

/// Calls of every profile with every set of faults: 12, 1, 14, 2, 3.
fn every_set_of_faults(file: &mut CaseFile, rng: &mut Rng) {
    file.group("every set of faults: 12, 1, 14, 2, 3");
    for profile in profiles_of_both() {
        for faults in 0..1 << 5 {
            let is_wrong = |fault: usize| faults >> fault & 1 == 1;
            let rule = rng.from_one_to(2) as u8;
            let mut told: Told = [profile.edition.number(), profile.number, rule];
            for (fault, wrong) in
                WRONG.into_iter().enumerate().filter(|(fault, _)| is_wrong(*fault))
            {
                told[fault] = *rng.pick(wrong);
            }
            let mut messages = rng.messages(profile);
            let mut length = profile.word_length();
            if is_wrong(4) {
                spoil(profile, &mut messages, rng);
            }
            if is_wrong(3) {
                resize(&mut messages, &mut length, rng);
            }
            add(file, told, &messages, length);
        }
    }
}

/// Puts a symbol out of range at a place of a message that no other fault takes away.
fn spoil(profile: &Profile, messages: &mut Messages, rng: &mut Rng) {
    let index = rng.below(profile.k() - 1);
    messages[rng.below(2)][index] = *rng.pick(&[profile.q, 9]);
}

/// Makes one message or the output too short or too long.
fn resize(messages: &mut Messages, length: &mut usize, rng: &mut Rng) {
    match (rng.below(3), rng.once_in(2)) {
        (2, true) => *length -= 1,
        (2, false) => *length += 1,
        (message, true) => drop(messages[message].pop()),
        (message, false) => messages[message].push(0),
    }
}

#[cfg(test)]
mod tests;
