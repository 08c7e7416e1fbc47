//! That the calls tell wrong arguments taken for right ones, and other orders of refusals.

use coder::encode;
use coder::line_rule_slip::LineRuleSlip;
use coder::near_miss_calls::Call;
use coder::near_miss_rules::{self, EARLY_SLIPS, RULE_SLIPS};
use coder::refusal::FILLER;

use crate::wrong_converters::{retain_untold, OF_ARGUMENTS};

use super::*;

/// The calls with words of each profile tell each converter with a slip of its arguments from the right
/// one.
#[test]
fn every_slip_of_a_converters_arguments_is_told() {
    for of_words in 0..PROFILES.len() {
        let mut untold = OF_ARGUMENTS.to_vec();
        for job in (of_words..JOBS).step_by(PROFILES.len()) {
            let (told, profile) = numbers_of(job);
            let [edition, number] = told.map(narrow);
            for word in faulty_or_doubtful(profile, &mut Rng::new(job as u64)) {
                for length in lengths(profile.word_length()) {
                    let word = word.clone();
                    let call = Call { edition, profile: number, word, length };
                    retain_untold(&mut untold, &call);
                }
            }
        }
        assert!(untold.is_empty(), "{untold:?}");
    }
}

/// Slips with which one rule is taken for the other. They show in words alone, which `calm` compares.
const OF_WORDS: [LineRuleSlip; 3] =
    [LineRuleSlip::FirstUnderTwo, LineRuleSlip::LeastPeakUnderOne, LineRuleSlip::RulesExchanged];

/// The calls with words of each profile tell each slip of the line rule's number and of its place in the order
/// (02, T-06), with numbers as wide as a byte.
#[test]
fn every_slip_of_a_line_rule_is_told() {
    for of_words in 0..PROFILES.len() {
        let slips = RULE_SLIPS.into_iter().chain(EARLY_SLIPS);
        let mut untold: Vec<LineRuleSlip> = slips.filter(|slip| !OF_WORDS.contains(slip)).collect();
        for job in (of_words..JOBS).step_by(PROFILES.len()) {
            let (told, profile) = numbers_of(job);
            let [edition, number] = told.map(narrow);
            let messages = Rng::new(job as u64).messages(profile);
            for rule in RULE_NUMBERS.into_iter().filter(|&rule| rule <= u8::MAX.into()) {
                for ([first, second], length) in few_faults(profile, &messages) {
                    let right = |[edition, profile, rule]: near_miss_rules::Told| {
                        let mut output = vec![FILLER; length];
                        encode::encode(edition, profile, rule, &first, &second, &mut output)
                            .map(|()| output)
                    };
                    let told = [edition, number, narrow(rule)];
                    let expected = right(told);
                    untold.retain(|&slip| near_miss_rules::call(slip, told, right) == expected);
                }
            }
        }
        assert!(untold.is_empty(), "profile {}: {untold:?}", of_words + 1);
    }
}

/// Each line rule has a number that would be taken for it if it were cut to 8, 16 or 32 bits, and not if it were
/// cut to more.
#[test]
fn wider_rules_would_be_right_if_they_were_cut() {
    for rule in [1, 2] {
        for bits in [8, 16, 32] {
            let is_cut_to = |number: u64, bits: u32| number % (1 << bits) == rule;
            let mut numbers = RULE_NUMBERS.into_iter().filter(|&number| number != rule);
            assert!(
                numbers.any(|n| is_cut_to(n, bits) && !is_cut_to(n, bits + 8)),
                "{rule}, {bits}"
            );
        }
    }
}
