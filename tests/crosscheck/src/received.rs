//! Received words of every profile and of both editions, decoded by both decoders and converted, against the
//! separate coder's search of all neighbours and, where symbols are erased, of all fillings.

use coder::balance::{balanced_words, difference, subtract};
use coder::codeword::{codewords, components_of, interleave, with_check_symbols, Messages};
use coder::decode::{decode_word, Kind};
use coder::edition::{profiles_of_both, Edition, EDITIONS};
use coder::encode::encoded_word;
use coder::erased_words::{
    both_checks, erased, erased_and_changed, like_parity, one_check_changed, one_check_erased,
    one_of_w, spoiled_and_erased, Draw,
};
use coder::erasure::erased_at;
use coder::line_rule::{taken, Choice, LineRule, LINE_RULES};
use coder::profile::Profile;
use coder::random_words::{changed, changed_at, off_by_q, Receive};
use coder::refusal::{require, Refusal};
use coder::rng::Rng;
use fogzurt::EntryPoints;

use crate::calls::{convert_word, decode_found, encode_word, Found};
use crate::compare::Checked;
use crate::parallel::sums_of_jobs;

/// Pairs of messages for each profile and edition, for the library and for a coder that is only a
/// yardstick. Each has its encoded word, and the words of KINDS.
const PAIRS: usize = 4000;
const FEWER_PAIRS: usize = 400;

/// What is received, and how many words of it for each pair. The codewords are by any choice.
const KINDS: [(usize, Receive); 17] = [
    (7, |_, codeword, _| codeword.to_vec()),
    (16, |profile, codeword, rng| changed(profile, codeword, 1, rng)),
    (10, |profile, codeword, rng| changed(profile, codeword, 2, rng)),
    (6, |profile, codeword, rng| changed(profile, codeword, 3, rng)),
    (2, both_check_symbols),
    (5, |profile, _, rng| rng.word(profile.q, profile.word_length())),
    (4, one_component_of_noise),
    (4, |profile, codeword, rng| erased_and_changed(profile, codeword, [1, 0], rng)),
    (8, |profile, codeword, rng| erased_and_changed(profile, codeword, [2, 0], rng)),
    (3, |profile, codeword, rng| erased_at(codeword, &like_parity(profile, rng))),
    (2, |profile, codeword, rng| erased_and_changed(profile, codeword, [1, 1], rng)),
    (6, |profile, codeword, rng| erased_and_changed(profile, codeword, [2, 1], rng)),
    (2, about_the_check_symbols),
    (2, more_than_two_erased),
    (2, |profile, codeword, rng| erased(&one_component_of_noise(profile, codeword, rng), 2, rng)),
    (1, |profile, _, rng| erased(&rng.word(profile.q, profile.word_length()), 1, rng)),
    (2, of_other_edition),
];

pub fn check(tried: &EntryPoints) -> Checked<String> {
    check_pairs(tried, PAIRS)
}

pub fn check_fewer(tried: &EntryPoints) -> Checked<String> {
    check_pairs(tried, FEWER_PAIRS)
}

/// Decodes and converts the words of so many pairs of each profile and edition, these by turns.
fn check_pairs(tried: &EntryPoints, pairs: usize) -> Checked<String> {
    let profiles: Vec<&Profile> = profiles_of_both().collect();
    let pairs = pairs * profiles.len();
    let counts = sums_of_jobs("received words", pairs, |job| {
        let profile = profiles[job % profiles.len()];
        let [words, passed_on] = check_pair(tried, profile, &mut Rng::new(job as u64))?;
        let [of_2013, of_2018] =
            EDITIONS.map(|edition| if edition == profile.edition { words } else { 0 });
        Ok([of_2013, of_2018, passed_on])
    })?;
    let [of_2013, of_2018, passed_on] = counts;
    Ok(format!(
        "received words: {of_2013} of edition 13 and {of_2018} of edition 18, of four profiles, \
         decoded by both decoders, and converted, of which {passed_on} are passed on; {pairs} pairs encoded by both \
         line rules, and converted back"
    ))
}

/// How many words were received, all of one random pair, and how many of them are passed on.
fn check_pair(tried: &EntryPoints, profile: &Profile, rng: &mut Rng) -> Checked<[usize; 2]> {
    let pair = Pair::new(profile, rng.messages(profile));
    let codewords = codewords(profile, &pair.messages);
    for rule in LINE_RULES {
        let (_, word) = taken(rule, profile.q, &codewords);
        encode_word(tried, profile, rule, &pair.messages, word)?;
    }
    let words = received_words(profile, &codewords, rng);
    convert_word(tried, &profile.in_other_edition(), &pair.converted, Ok(&words[0]))?;
    let mut passed_on = 0;
    for word in &words {
        let found = decode_word(profile, word);
        decode_found(tried, profile, word, &found)?;
        let converted = pair.convert(found);
        convert_word(tried, profile, word, converted.as_deref().map_err(|refusal| *refusal))?;
        passed_on += usize::from(converted.is_ok());
    }
    Ok([words.len(), passed_on])
}

/// A pair of messages, and the word that the other edition's encoder makes of it by line rule 1.
struct Pair<'a> {
    profile: &'a Profile,
    messages: Messages,
    converted: Vec<u8>,
}

impl Pair<'_> {
    fn new(profile: &Profile, messages: Messages) -> Pair<'_> {
        let converted = encoded_word(&profile.in_other_edition(), LineRule::One, &messages);
        Pair { profile, messages, converted }
    }

    /// What converting has to answer to a word for which the search found this: "the word the other edition's
    /// writer makes for the same pair", which is nearly always this one, or "13, the word reads but as
    /// mended or filled" (02, T-04).
    fn convert(&self, found: Found) -> Result<Vec<u8>, Refusal> {
        let (answer, messages) = found?;
        require(answer.decoded.kind == Kind::Clean, Refusal::NotClean)?;
        Ok(if messages == self.messages {
            self.converted.clone()
        } else {
            encoded_word(&self.profile.in_other_edition(), LineRule::One, &messages)
        })
    }
}

/// The encoded words of a pair, by line rule 1 and by line rule 2, and the words of every kind.
fn received_words(profile: &Profile, codewords: &[Choice], rng: &mut Rng) -> Vec<Vec<u8>> {
    let mut words = LINE_RULES.map(|rule| taken(rule, profile.q, codewords).1.clone()).to_vec();
    for (count, receive) in KINDS {
        for _ in 0..count {
            let (_, codeword) = rng.pick(codewords);
            words.push(receive(profile, codeword, rng));
        }
    }
    words.extend(off_balance(profile, &codewords[0], rng));
    words
}

pub fn both_check_symbols(profile: &Profile, codeword: &[u8], rng: &mut Rng) -> Vec<u8> {
    changed_at(profile, codeword, &[profile.m() + 1, profile.m() + 2], rng)
}

/// A codeword with one component replaced by noise, balanced anew and with right check symbols, so
/// that only the components can give it away.
fn one_component_of_noise(profile: &Profile, codeword: &[u8], rng: &mut Rng) -> Vec<u8> {
    let mut components = components_of(profile, &codeword[..profile.m()]);
    components[rng.below(2)] = rng.word(profile.q, profile.n);
    let x = interleave(profile.edition, &components);
    let mut words = balanced_words(profile.edition, profile.q, &x);
    let (_, w) = words.next().expect("01: a choice always exists");
    with_check_symbols(profile, &w)
}

/// A codeword with a symbol of each kind erased or changed: one check symbol and the other, or one
/// of w; or both check symbols erased.
fn about_the_check_symbols(profile: &Profile, codeword: &[u8], rng: &mut Rng) -> Vec<u8> {
    match rng.below(3) {
        0 => one_check_erased(profile, codeword, rng),
        1 => one_check_changed(profile, codeword, rng),
        _ => erased_at(codeword, &both_checks(profile, rng)),
    }
}

/// Three erasures or more, some beside another level or a symbol that is none.
fn more_than_two_erased(profile: &Profile, codeword: &[u8], rng: &mut Rng) -> Vec<u8> {
    match rng.below(4) {
        0 => spoiled_and_erased(profile, codeword, 3, rng),
        1 => erased_and_changed(profile, codeword, [3, 1], rng),
        2 => erased(codeword, 3, rng),
        _ => {
            let count = 3 + rng.from_one_to(codeword.len() - 3);
            erased(codeword, count, rng)
        }
    }
}

/// A codeword of the other edition, as it is or with a symbol changed: the complement of one of this.
fn of_other_edition(profile: &Profile, codeword: &[u8], rng: &mut Rng) -> Vec<u8> {
    let w = codeword[..profile.m()].iter().map(|&symbol| profile.q - 1 - symbol);
    let word = with_check_symbols(profile, &w.collect::<Vec<u8>>());
    let count = rng.below(2);
    changed(profile, &word, count, rng)
}

/// Words with right components and check symbols whose weight is off by q, with one symbol of w and
/// with both check symbols erased.
fn off_balance(profile: &Profile, (choice, codeword): &Choice, rng: &mut Rng) -> Vec<Vec<u8>> {
    let mut x = difference(profile.edition, profile.q, &codeword[..profile.m()]);
    if choice.v != 0 {
        x[choice.v - 1] = subtract(profile.q, x[choice.v - 1], 1);
    }
    let added_zero = match profile.edition {
        Edition::Of2013 => 1,
        Edition::Of2018 => profile.m(),
    };
    x[added_zero - 1] = 0;
    let Some(w) = off_by_q(profile, &x, rng) else {
        return Vec::new();
    };
    let word = with_check_symbols(profile, &w);
    [one_of_w, both_checks].map(|draw: Draw| erased_at(&word, &draw(profile, rng))).to_vec()
}

#[cfg(test)]
mod tests;
