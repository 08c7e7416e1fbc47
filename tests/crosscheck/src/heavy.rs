//! Pairs of heavy messages, all of the highest level but for a few symbols: their check row sums
//! are the largest, with which sums in eight bits must not pass 255 (02, T-05: No wide multiply).
//! They are of both editions by turns, and encoded by both line rules.

use coder::codeword::Messages;
use coder::edition::EDITIONS;
use coder::line_rule::LINE_RULES;
use coder::profile::{Profile, PROFILES};
use coder::rng::Rng;
use fogzurt::EntryPoints;

use crate::calls::{encode, told};
use crate::compare::Checked;
use crate::parallel::sum_of_jobs;

/// Pairs for each profile.
const PAIRS: usize = 5000;

pub fn check(tried: &EntryPoints) -> Checked<String> {
    let encoded = sum_of_jobs("heavy pairs", PAIRS * PROFILES.len(), |job| {
        let edition = EDITIONS[job / PROFILES.len() % EDITIONS.len()];
        let profile = &edition.profiles()[job % PROFILES.len()];
        let messages = heavy_messages(profile, &mut Rng::new(job as u64));
        let messages = messages.each_ref().map(Vec::as_slice);
        for rule in LINE_RULES {
            let rule = rule.number().into();
            encode(tried, told(profile), rule, messages, profile.word_length())?;
        }
        Ok(1)
    })?;
    Ok(format!(
        "heavy pairs: {encoded} of four profiles and both editions encoded by both line rules"
    ))
}

/// Each symbol is the highest level, but for up to three of each message.
fn heavy_messages(profile: &Profile, rng: &mut Rng) -> Messages {
    [(); 2].map(|()| {
        let mut message = vec![profile.q - 1; profile.k()];
        for _ in 1..rng.from_one_to(4) {
            let at = rng.from_one_to(profile.k()) - 1;
            message[at] = rng.other_level(profile.q, profile.q - 1);
        }
        message
    })
}

#[cfg(test)]
mod tests {
    use coder::near_miss_sums::{self, SUM_SLIPS};

    use super::*;

    /// A fiftieth of the pairs tells each encoder whose sums have a slip from the right one, in
    /// every profile in which it does harm.
    #[test]
    fn every_slip_of_the_sums_is_told() {
        for profile in &PROFILES {
            let rng = &mut Rng::new(1);
            let mut untold = SUM_SLIPS.to_vec();
            untold.retain(|(_, harmed)| harmed.contains(&profile.number));
            for _ in 0..PAIRS / 50 {
                let messages = heavy_messages(profile, rng);
                let right = near_miss_sums::encode(profile, &messages, None);
                untold.retain(|&(slip, _)| {
                    near_miss_sums::encode(profile, &messages, Some(slip)) == right
                });
            }
            assert!(untold.is_empty(), "profile {}: {untold:?}", profile.number);
        }
    }
}
