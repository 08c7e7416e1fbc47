//! Every pair of messages of profile 1, in both editions, encoded by both line rules (02, T-06), against the
//! search of all choices: its encoded word by rule 1, as it is, with each symbol changed to each other level,
//! with each symbol erased, and with two erased, is decoded by both decoders and converted; that by rule 2 is
//! decoded, too; and its codewords by every choice are converted. What was sent is known, so nothing is searched
//! for, and nothing is tried.

use coder::codeword::{all_messages, codewords, Messages};
use coder::decode::{within_one, Answer, Decoded, Kind, Sent};
use coder::edition::EDITIONS;
use coder::encode::encoded_word;
use coder::erasure::erased_at;
use coder::line_rule::{taken, LineRule, LINE_RULES};
use coder::profile::{Profile, PROFILES};
use coder::refusal::Refusal;
use coder::tried::tried_up_to;
use fogzurt::EntryPoints;

use crate::calls::{convert_word, decode_to, encode_word, packed, told};
use crate::compare::Checked;
use crate::parallel::sums_of_jobs;

/// Of the pairs of positions, how many are erased in the word of one pair of messages; the next
/// word has the next ones.
const ERASED_PAIRS: usize = 19;

pub fn check(tried: &EntryPoints) -> Checked<String> {
    let pairs: Vec<Messages> = all_messages(&PROFILES[0]).collect();
    let positions = pairs_of_positions();
    let calls = EDITIONS.len() * pairs.len();
    let counts = sums_of_jobs("pairs of profile 1", calls, |job| {
        let [edition, pair] = [job / pairs.len(), job % pairs.len()];
        let profile = &EDITIONS[edition].profiles()[0];
        let erased = positions.iter().cycle().skip(pair * ERASED_PAIRS % positions.len());
        check_pair(tried, profile, &pairs[pair], erased.take(ERASED_PAIRS))
    })?;
    let [decoded, converted, not_clean] = counts;
    Ok(format!(
        "pairs of profile 1, both editions: {calls} encoded by both line rules, {decoded} received \
         words decoded by both decoders, {converted} codewords converted, {not_clean} words that are not clean \
         refused with 13"
    ))
}

/// Every two positions of a word, in rising order.
fn pairs_of_positions() -> Vec<[usize; 2]> {
    let length = PROFILES[0].word_length();
    (1..=length).flat_map(|other| (1..other).map(move |one| [one, other])).collect()
}

/// How many received words of this pair were decoded, how many of its codewords were converted, and how
/// many received words were not, since they are not clean.
fn check_pair<'a>(
    tried: &EntryPoints,
    profile: &Profile,
    messages: &Messages,
    erased: impl Iterator<Item = &'a [usize; 2]>,
) -> Checked<[usize; 3]> {
    let [first, second] = messages.each_ref().map(Vec::as_slice);
    let told = told(profile);
    let codewords = codewords(profile, messages);
    let [(_, one), (_, two)] = LINE_RULES.map(|rule| taken(rule, profile.q, &codewords));
    for (rule, word) in LINE_RULES.into_iter().zip([one, two]) {
        encode_word(tried, profile, rule, messages, word)?;
    }
    let [mut decoded, mut not_clean] = [0, 0];
    let clean = Answer { decoded: Decoded::CLEAN, tried: 0 };
    let received = received_words(profile, one, erased).into_iter();
    for (expected, received) in received.chain([(clean, two.clone())]) {
        decode_to(tried, told, &received, packed(Ok(expected)), [first, second])?;
        decoded += 1;
        if expected.decoded.kind != Kind::Clean {
            convert_word(tried, profile, &received, Err(Refusal::NotClean))?;
            not_clean += 1;
        }
    }
    let converted = encoded_word(&profile.in_other_edition(), LineRule::One, messages);
    for (_, codeword) in &codewords {
        convert_word(tried, profile, codeword, Ok(&converted))?;
    }
    Ok([decoded, codewords.len(), not_clean])
}

/// The word that was sent, as it is and as it may be received, with what decoding has to answer.
fn received_words<'a>(
    profile: &Profile,
    sent: &[u8],
    erased: impl Iterator<Item = &'a [usize; 2]>,
) -> Vec<(Answer, Vec<u8>)> {
    let changed = within_one(profile, sent).map(|(change, received)| match change.kind {
        Kind::Corrected(Sent { position, .. }) => {
            let sent = Sent { position, symbol: sent[position - 1] };
            let decoded = Decoded::corrected(sent, received[position - 1]);
            let count = tried_up_to(profile, &received, Some(position));
            (Answer { decoded, tried: count }, received)
        }
        _ => (Answer { decoded: change, tried: 0 }, received),
    });
    let erased = (1..=sent.len()).map(|position| vec![position]).chain(erased.map(|p| p.to_vec()));
    let filled = erased.map(|positions| {
        let decoded = Decoded::filled(sent, &positions);
        (Answer { decoded, tried: 0 }, erased_at(sent, &positions))
    });
    changed.chain(filled).collect()
}

#[cfg(test)]
mod tests {
    use coder::near_miss_calls::Call;
    use coder::near_miss_editions::{self, ENCODER_SLIPS};
    use coder::profile::PROFILES_2018;

    use crate::wrong_converters::{every_slip_but, retain_untold, OF_ARGUMENTS, OF_UNREAD_WORDS};

    use super::*;

    /// A fiftieth of the pairs tells each encoder with a slip of edition 18 (02, T-03) from the right one.
    #[test]
    fn every_slip_of_an_encoder_is_told() {
        let profile = &PROFILES_2018[0];
        let mut untold = ENCODER_SLIPS.to_vec();
        for messages in all_messages(profile).step_by(50) {
            let right = near_miss_editions::encode(profile, &messages, None);
            untold.retain(|&slip| {
                near_miss_editions::encode(profile, &messages, Some(slip)) == right
            });
        }
        assert!(untold.is_empty(), "{untold:?}");
    }

    /// A fiftieth of the pairs tells each converter with a slip (02, T-04) from the right one, but for those
    /// of its arguments and of words that are not read.
    #[test]
    fn every_slip_of_a_converter_is_told() {
        let positions = pairs_of_positions();
        for edition in EDITIONS {
            let profile = &edition.profiles()[0];
            let mut untold = every_slip_but(&[&OF_ARGUMENTS[..], &OF_UNREAD_WORDS].concat());
            for messages in all_messages(profile).step_by(50) {
                let codewords = codewords(profile, &messages);
                let erased = positions.iter().take(ERASED_PAIRS);
                let received = received_words(profile, &codewords[0].1, erased);
                let received = received.into_iter().map(|(_, word)| word);
                for word in received.chain(codewords.into_iter().map(|(_, word)| word)) {
                    retain_untold(&mut untold, &Call::of(profile, word));
                }
            }
            assert!(untold.is_empty(), "{edition:?}: {untold:?}");
        }
    }
}
