//! Converting a word of one edition to the other (02, T-04: From one edition to the other).

use crate::decode::{decode_word, Kind};
use crate::edition::Edition;
use crate::encode::encoded_word;
use crate::line_rule::LineRule;
use crate::profile::Profile;
use crate::refusal::{require, Refusal};

/// T-04: "a converter that takes a word of one edition and gives the word the other edition's writer makes
/// for the same pair"; the edition named is that of the word taken. "It must not pass a doubtful word on.
/// The order of reading applies, with 2 also for an output not N long, and nothing is written on a
/// refusal. Errors: 13, the word reads but as mended or filled, after 4." T-06: "T-04 keeps to version 1",
/// whichever rule chose the word taken.
pub fn convert(edition: u8, profile: u8, word: &[u8], output: &mut [u8]) -> Result<(), Refusal> {
    let profile = Profile::of(Edition::lookup(edition)?, profile)?;
    require(word.len() == profile.word_length(), Refusal::Length)?;
    require(output.len() == profile.word_length(), Refusal::Length)?;
    let (answer, messages) = decode_word(profile, word)?;
    require(answer.decoded.kind == Kind::Clean, Refusal::NotClean)?;
    output.copy_from_slice(&encoded_word(&profile.in_other_edition(), LineRule::One, &messages));
    Ok(())
}
