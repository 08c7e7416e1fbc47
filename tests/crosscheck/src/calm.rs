//! Pairs by line rule 2 (02, T-06: Calmer words on the pair), of every profile and both editions: pairs of calm words
//! and of words that swing widely, random ones, and those that a near miss of an encoder gets wrong. Each is
//! encoded by both rules, and the word of rule 2 is decoded, as clean, and converted, to that of rule 1.

use coder::codeword::{codewords, Messages};
use coder::decode::{Answer, Decoded};
use coder::edition::profiles_of_both;
use coder::encode::encoded_word;
use coder::line_rule::{taken, LineRule, LINE_RULES};
use coder::near_miss_pairs::{PairNearMiss, PAIR_NEAR_MISSES};
use coder::profile::Profile;
use coder::rng::Rng;
use fogzurt::EntryPoints;

use crate::calls::{convert_word, decode_found, encode_word};
use crate::compare::Checked;
use crate::parallel::sums_of_jobs;

/// Pairs that each near miss gets wrong, and others that are drawn as they are.
const TOLD: usize = 5;
const DRAWN: usize = 60;

pub fn check(tried: &EntryPoints) -> Checked<String> {
    let profiles: Vec<&Profile> = profiles_of_both().collect();
    let jobs = profiles.len() * PAIR_NEAR_MISSES.len();
    let counts = sums_of_jobs("pairs by line rule 2", jobs, |job| {
        let profile = profiles[job % profiles.len()];
        let near_miss = &PAIR_NEAR_MISSES[job / profiles.len()];
        let pairs = pairs(profile, near_miss, &mut Rng::new(job as u64));
        let mut others = 0;
        for messages in &pairs {
            others += usize::from(check_pair(tried, profile, messages)?);
        }
        Ok([pairs.len(), others])
    })?;
    let [pairs, others] = counts;
    Ok(format!(
        "pairs by line rule 2: {pairs} of four profiles and both editions encoded by both rules, \
         of which {others} have another word by each, decoded by both decoders, and converted"
    ))
}

fn pairs(profile: &Profile, near_miss: &PairNearMiss, rng: &mut Rng) -> Vec<Messages> {
    let mut pairs = near_miss.pairs(profile, TOLD, rng);
    pairs.extend((0..DRAWN).map(|_| near_miss.draw(profile, rng)));
    pairs
}

/// Whether the rules make different words of this pair.
fn check_pair(tried: &EntryPoints, profile: &Profile, messages: &Messages) -> Checked<bool> {
    let codewords = codewords(profile, messages);
    let [(_, one), (_, two)] = LINE_RULES.map(|rule| taken(rule, profile.q, &codewords));
    for (rule, word) in LINE_RULES.into_iter().zip([one, two]) {
        encode_word(tried, profile, rule, messages, word)?;
    }
    let clean = Answer { decoded: Decoded::CLEAN, tried: 0 };
    decode_found(tried, profile, two, &Ok((clean, messages.clone())))?;
    let converted = encoded_word(&profile.in_other_edition(), LineRule::One, messages);
    convert_word(tried, profile, two, Ok(&converted))?;
    Ok(one != two)
}

#[cfg(test)]
mod tests {
    use super::*;

    /// The pairs tell each encoder by line rule 2 with a slip from the right one, in every profile in which it does
    /// harm.
    #[test]
    fn every_slip_of_an_encoder_is_told() {
        for profile in profiles_of_both() {
            let rng = &mut Rng::new(1);
            for near_miss in &PAIR_NEAR_MISSES {
                let pairs = pairs(profile, near_miss, rng);
                let is_told = pairs.iter().any(|pair| near_miss.gets_wrong(profile, pair));
                assert_eq!(is_told, near_miss.harms(profile), "{:?}, {profile:?}", near_miss.slip);
            }
        }
    }

    /// Of the pairs of every profile some have another word by each rule, and tell an encoder that takes one rule for
    /// the other.
    #[test]
    fn the_rules_differ() {
        for profile in profiles_of_both() {
            let pairs = pairs(profile, &PAIR_NEAR_MISSES[0], &mut Rng::new(2));
            let differ = |pair: &Messages| {
                let [one, two] = LINE_RULES.map(|rule| encoded_word(profile, rule, pair));
                one != two
            };
            assert!(pairs.iter().any(differ), "{profile:?}");
        }
    }
}
