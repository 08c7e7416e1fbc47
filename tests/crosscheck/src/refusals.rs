//! Encoding, decoding by both decoders and converting with every fault of their arguments, alone and together.

use coder::codeword::{codewords, Messages};
use coder::decode::replaced;
use coder::edition::Edition;
use coder::erased_words::erased;
use coder::erasure::{erased_at, ERASURE};
use coder::line_rule::LINE_RULES;
use coder::profile::{Profile, PROFILES};
use coder::random_words::changed;
use coder::rng::Rng;
use fogzurt::EntryPoints;

use crate::calls::{convert, decode, encode, narrow, Told};
use crate::compare::Checked;
use crate::parallel::sums_of_jobs;
use crate::received::both_check_symbols;

/// The profiles, and numbers that name none. Cut to 8, 16 or 32 bits many of them would.
#[rustfmt::skip]
pub const NUMBERS: [u64; 22] = [
    0, 1, 2, 3, 4, 5, 9, 255, 256, 257, 258, 259, 260, (1 << 16) + 2,
    (1 << 32) + 1, (1 << 32) + 2, (1 << 32) + 3, (1 << 32) + 4,
    1 << 63, (1 << 63) + 1, (1 << 63) + 4, u64::MAX,
];

/// The editions, and numbers that name none: near them, years, and others that would if they were cut to
/// 8, 16 or 32 bits.
#[rustfmt::skip]
const EDITION_NUMBERS: [u64; 25] = [
    13, 18, 0, 1, 12, 14, 15, 16, 17, 19, 20, 31, 255, 256 + 13, 256 + 18, 2013, 2018,
    (1 << 16) + 13, (1 << 16) + 18,
    (1 << 32) + 13, (1 << 32) + 18, 1 << 63, (1 << 63) + 13, (1 << 63) + 18, u64::MAX,
];

/// The line rules, and numbers that name none: near them, the number of the refusal, editions, and others that would
/// if they were cut to 8, 16 or 32 bits.
#[rustfmt::skip]
const RULE_NUMBERS: [u64; 22] = [
    1, 2, 0, 3, 4, 5, 13, 14, 18, 129, 130, 255, 256 + 1, 256 + 2, (1 << 16) + 1, (1 << 16) + 2,
    (1 << 32) + 1, (1 << 32) + 2, 1 << 63, (1 << 63) + 1, (1 << 63) + 2, u64::MAX,
];

/// An oversize buffer.
const OVERSIZE: usize = 1000;

/// A job for each edition, each profile that the calls are told, and each profile of their words.
const JOBS: usize = EDITION_NUMBERS.len() * NUMBERS.len() * PROFILES.len();

pub fn check(tried: &EntryPoints) -> Checked<String> {
    let calls = sums_of_jobs("refusals", JOBS, |job| {
        let (told, profile) = numbers_of(job);
        let rng = &mut Rng::new(job as u64);
        let encoded = check_encode(tried, told, profile, rng)?;
        let decoded = check_decode(tried, told, profile, rng)?;
        Ok([encoded, decoded, check_convert(tried, told, profile, rng)?])
    })?;
    let [encoded, decoded, converted] = calls;
    Ok(format!(
        "refusals: {encoded} calls of encode, {decoded} of decode, as many of syndrome_decode and \
         {converted} of convert, with editions, profiles, line rules, lengths and symbols of every kind"
    ))
}

/// What the calls of a job are told, and the profile of their words.
fn numbers_of(job: usize) -> (Told, &'static Profile) {
    let (told, of_words) = (job / PROFILES.len(), job % PROFILES.len());
    let told = [EDITION_NUMBERS[told / NUMBERS.len()], NUMBERS[told % NUMBERS.len()]];
    let edition = Edition::lookup(narrow(told[0])).unwrap_or(Edition::Of2013);
    (told, &edition.profiles()[of_words])
}

/// The right length, wrong ones, none and far too much.
fn lengths(right: usize) -> [usize; 5] {
    [right, right - 1, right + 1, 0, OVERSIZE]
}

/// A word of the right length, wrong ones, and right ones with a symbol out of range or erased at
/// either end, with three erasures, and with all symbols erased but one that is out of range.
fn faulty(q: u8, word: &[u8]) -> Vec<Vec<u8>> {
    let resized = lengths(word.len()).into_iter().map(|length| {
        let mut resized = word.to_vec();
        resized.resize(length, 0);
        resized
    });
    let last = word.len();
    let at_either_end = [q, 254, ERASURE]
        .into_iter()
        .flat_map(|symbol| [1, last].map(|position| replaced(word, position, symbol)));
    let all_erased = vec![ERASURE; last];
    let spoiled = [q, 254].map(|symbol| replaced(&all_erased, last, symbol));
    resized.chain(at_either_end).chain([erased_at(word, &[1, 3, last])]).chain(spoiled).collect()
}

fn check_encode(
    tried: &EntryPoints,
    told: Told,
    profile: &Profile,
    rng: &mut Rng,
) -> Checked<usize> {
    let messages = rng.messages(profile);
    let [firsts, seconds] = messages.each_ref().map(|message| faulty(profile.q, message));
    let mut calls = 0;
    for first in &firsts {
        for second in &seconds {
            for length in lengths(profile.word_length()) {
                for rule in LINE_RULES {
                    encode(tried, told, rule.number().into(), [first, second], length)?;
                    calls += 1;
                }
            }
        }
    }
    for rule in RULE_NUMBERS {
        for ([first, second], length) in few_faults(profile, &messages) {
            encode(tried, told, rule, [&first, &second], length)?;
            calls += 1;
        }
    }
    Ok(calls)
}

/// A pair with an output of the right length; with a message or the output too long; with a symbol out of range; and
/// with both.
fn few_faults(profile: &Profile, messages: &Messages) -> [(Messages, usize); 7] {
    let [first, second] = messages;
    let (k, length) = (profile.k(), profile.word_length());
    let long = |message: &[u8]| [message, &[0]].concat();
    let spoiled = |message: &[u8]| replaced(message, k, profile.q);
    [
        (messages.clone(), length),
        ([long(first), second.clone()], length),
        ([first.clone(), long(second)], length),
        (messages.clone(), length + 1),
        ([spoiled(first), second.clone()], length),
        ([first.clone(), spoiled(second)], length),
        ([long(&spoiled(first)), second.clone()], 0),
    ]
}

fn check_decode(
    tried: &EntryPoints,
    told: Told,
    profile: &Profile,
    rng: &mut Rng,
) -> Checked<usize> {
    let (_, codeword) = &codewords(profile, &rng.messages(profile))[0];
    let mut calls = 0;
    for word in faulty(profile.q, codeword) {
        for first in lengths(profile.k()) {
            for second in lengths(profile.k()) {
                decode(tried, told, &word, [first, second])?;
                calls += 1;
            }
        }
    }
    Ok(calls)
}

fn check_convert(
    tried: &EntryPoints,
    told: Told,
    profile: &Profile,
    rng: &mut Rng,
) -> Checked<usize> {
    let mut calls = 0;
    for word in faulty_or_doubtful(profile, rng) {
        for length in lengths(profile.word_length()) {
            convert(tried, told, &word, length)?;
            calls += 1;
        }
    }
    Ok(calls)
}

/// A codeword and its faulty ones; and with a symbol changed, with two erased, and with both check symbols
/// changed, which no codeword is near.
fn faulty_or_doubtful(profile: &Profile, rng: &mut Rng) -> Vec<Vec<u8>> {
    let (_, codeword) = &codewords(profile, &rng.messages(profile))[0];
    let doubtful = [
        changed(profile, codeword, 1, rng),
        erased(codeword, 2, rng),
        both_check_symbols(profile, codeword, rng),
    ];
    faulty(profile.q, codeword).into_iter().chain(doubtful).collect()
}

#[cfg(test)]
mod tests;
