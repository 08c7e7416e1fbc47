//! Encoding (01: write).

use crate::codeword::{codewords, Messages};
use crate::edition::Edition;
use crate::line_rule::{taken, LineRule};
use crate::profile::Profile;
use crate::refusal::{require, Refusal};

/// 01: the line word of a pair, by the line rule that is named (02, T-06).
pub fn encoded_word(profile: &Profile, rule: LineRule, messages: &Messages) -> Vec<u8> {
    let (_, word) = taken(rule, profile.q, &codewords(profile, messages)).clone();
    word
}

/// "Write. 1 if the profile is not 1 to 4; 2 if either user word is not k long or the output not
/// N; 3 if a user symbol is not below q." T-03: "12, edition neither 13 nor 18, before 1." T-06: "14, line
/// rule neither 1 nor 2, after 1 and before 2."
pub fn encode(
    edition: u8,
    profile: u8,
    rule: u8,
    first: &[u8],
    second: &[u8],
    output: &mut [u8],
) -> Result<(), Refusal> {
    let profile = Profile::of(Edition::lookup(edition)?, profile)?;
    let rule = LineRule::lookup(rule)?;
    require(first.len() == profile.k(), Refusal::Length)?;
    require(second.len() == profile.k(), Refusal::Length)?;
    require(output.len() == profile.word_length(), Refusal::Length)?;
    profile.require_levels(first)?;
    profile.require_levels(second)?;
    output.copy_from_slice(&encoded_word(profile, rule, &[first.to_vec(), second.to_vec()]));
    Ok(())
}
