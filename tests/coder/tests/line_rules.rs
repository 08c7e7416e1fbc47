//! What T-06 says of the line rules, and what follows from it, tried on pairs with every balancing choice listed and on samples.

use coder::balance::BalancingChoice;
use coder::calm_words::{calm, calm_from_second, wild, Draw};
use coder::codeword::{codewords, messages_of, with_check_symbols, Messages};
use coder::convert::convert;
use coder::decode::{decode, Answer, Decoded};
use coder::edition::{profiles_of_both, Edition};
use coder::encode::{encode, encoded_word};
use coder::examples::line_rules::{Pair, CALM_PAIRS, CALM_W, PAIRS, SWINGS};
use coder::line_rule::{taken, LineRule, LINE_RULES};
use coder::near_miss_conversion::complemented;
use coder::peak::{peak, running_digital_sum, running_digital_sums};
use coder::profile::{Profile, PROFILES};
use coder::refusal::{Refusal, FILLER};
use coder::rng::Rng;
use coder::text::{digits, symbols};

/// Random pairs, and pairs of calm and of wild words.
fn pairs(profile: &Profile) -> Vec<Messages> {
    let rng = &mut Rng::new(1);
    let random: Draw = |profile, rng| rng.messages(profile);
    let draws = [random, calm, calm_from_second, wild];
    (0..80).map(|count| draws[count % draws.len()](profile, rng)).collect()
}

/// "The swing at place i is twice the sum of the first i symbols minus i times (q−1), and the peak is the largest
/// size of it". 1 3 4 4 0 0 is 01's example of the balancing rule alone.
#[test]
fn swings_and_peaks_by_hand() {
    let w = [1, 3, 4, 4, 0, 0];
    assert_eq!(running_digital_sum(5, &w, 3), 2 * 8 - 3 * 4);
    assert_eq!(running_digital_sums(5, &w), [-2, 0, 4, 8, 4, 0]);
    assert_eq!(peak(5, &w), 8);
    assert_eq!(running_digital_sums(7, &[6, 0, 0, 6]), [6, 0, -6, 0]);
    assert_eq!(peak(7, &[0, 0, 3]), 12);
    for (word, swings) in SWINGS {
        let word = symbols(word);
        let one_by_one = (1..=word.len()).map(|i| running_digital_sum(3, &word, i));
        assert_eq!(one_by_one.collect::<Vec<i32>>(), swings);
        assert_eq!(running_digital_sums(3, &word), swings);
    }
}

/// "of all balancing choices, one with the least peak, then the lowest s, then the lowest v".
#[test]
fn pairs_by_hand() {
    for Pair { edition, messages, choices, taken: expected } in PAIRS {
        let profile = Profile::of(Edition::lookup(edition).unwrap(), 1).unwrap();
        let words = codewords(profile, &messages.map(symbols));
        let weighed: Vec<(u8, usize, String, u32)> = words
            .iter()
            .map(|(choice, word)| (choice.s, choice.v, digits(word), peak(profile.q, word)))
            .collect();
        let by_hand: Vec<(u8, usize, String, u32)> =
            choices.iter().map(|&(s, v, word, peak)| (s, v, word.to_string(), peak)).collect();
        assert_eq!(weighed, by_hand);
        assert_eq!(taken(LineRule::Two, profile.q, &words), &words[expected]);
        assert_eq!(taken(LineRule::One, profile.q, &words), &words[0]);
        for (rule, index) in [(1, 0), (2, expected)] {
            let [first, second] = messages.map(symbols);
            let mut output = [FILLER; 19];
            encode(edition, 1, rule, &first, &second, &mut output).unwrap();
            assert_eq!(digits(&output), by_hand[index].2);
        }
    }
}

/// The peak is "over the N places", those of α and β among them.
#[test]
fn check_symbols_count() {
    for (number, messages, with_checks, of_w_alone) in CALM_PAIRS {
        let profile = Profile::lookup(number).unwrap();
        let words = codewords(profile, &messages.map(symbols));
        let (BalancingChoice { s, v }, word) = taken(LineRule::Two, profile.q, &words);
        assert_eq!((peak(profile.q, word), *s, *v), with_checks);
        let least_of_w = words
            .iter()
            .map(|(choice, word)| (peak(profile.q, &word[..profile.m()]), choice.s, choice.v))
            .min();
        assert_eq!(least_of_w, Some(of_w_alone));
    }
}

/// A w and its complement have swings of the same size, but their check symbols may not.
#[test]
fn editions_are_not_each_others_complement() {
    let profile = &PROFILES[2];
    let word = with_check_symbols(profile, &symbols(CALM_W));
    let complement = complemented(profile, &word);
    assert!(messages_of(profile, &word).is_some());
    assert_eq!(messages_of(&profile.in_other_edition(), &complement), messages_of(profile, &word));
    assert_eq!((digits(&word[49..]), peak(5, &word)), ("40".to_string(), 4));
    assert_eq!((digits(&complement[49..]), peak(5, &complement)), ("31".to_string(), 2));
}

/// Since w is balanced and α + β is q−1, the swing is 0 at place m and at the last.
#[test]
fn swings_come_back_to_0() {
    for profile in profiles_of_both() {
        let (m, highest) = (profile.m(), i32::from(profile.q) - 1);
        for messages in pairs(profile) {
            for (_, word) in codewords(profile, &messages) {
                let swings = running_digital_sums(profile.q, &word);
                assert_eq!(swings[m - 1..], [0, 2 * i32::from(word[m]) - highest, 0]);
            }
        }
    }
}

/// "The reader needs no version, since all these words are lawful": the word of every balancing choice is read as
/// clean, and so is that of either rule.
#[test]
fn the_word_of_every_choice_is_lawful() {
    for profile in profiles_of_both() {
        let edition = profile.edition.number();
        for messages in pairs(profile).iter().step_by(3) {
            let words = codewords(profile, messages);
            for rule in LINE_RULES {
                let word = encoded_word(profile, rule, messages);
                assert!(words.iter().any(|(_, lawful)| *lawful == word));
            }
            for (_, word) in &words {
                assert_eq!(messages_of(profile, word).as_ref(), Some(messages));
                let [mut first, mut second] = [0, 1].map(|_| vec![FILLER; profile.k()]);
                let answer = decode(edition, profile.number, word, &mut first, &mut second);
                assert_eq!(answer, Ok(Answer { decoded: Decoded::CLEAN, tried: 0 }));
                assert_eq!([&first, &second], messages.each_ref());
            }
        }
    }
}

/// Rule 2's word has the least peak, so it is never above that of rule 1, and below it for some pair of every profile.
#[test]
fn the_peak_is_never_above_that_of_rule_1() {
    for profile in profiles_of_both() {
        let mut is_below = false;
        for messages in pairs(profile) {
            let [one, two] =
                LINE_RULES.map(|rule| peak(profile.q, &encoded_word(profile, rule, &messages)));
            assert!(two <= one);
            let words = codewords(profile, &messages);
            assert!(words.iter().all(|(_, word)| two <= peak(profile.q, word)));
            is_below |= two < one;
        }
        assert!(is_below, "{profile:?}");
    }
}

/// "T-04 keeps to version 1": the word of either rule is converted to that of rule 1.
#[test]
fn a_word_is_converted_to_that_of_rule_1() {
    for profile in profiles_of_both() {
        let other = &profile.in_other_edition();
        for messages in pairs(profile) {
            let [one, two] = LINE_RULES.map(|rule| encoded_word(profile, rule, &messages));
            for word in [one, two] {
                let mut output = vec![FILLER; profile.word_length()];
                convert(profile.edition.number(), profile.number, &word, &mut output).unwrap();
                assert_eq!(output, encoded_word(other, LineRule::One, &messages));
            }
        }
    }
}

/// What can be wrong of a call, in the order of the numbers: 12, 1, 14, 2, 3.
const ORDER: [Refusal; 5] =
    [Refusal::Edition, Refusal::Profile, Refusal::LineRule, Refusal::Length, Refusal::Symbol];

/// "14, line rule neither 1 nor 2, after 1 and before 2": with every set of faults the first in the order counts, and
/// the output is left as it was.
#[test]
fn encode_refuses_in_order() {
    let rng = &mut Rng::new(2);
    for profile in profiles_of_both() {
        for faults in 0..1 << ORDER.len() {
            let is_wrong = |fault: Refusal| {
                let index = ORDER.iter().position(|&other| other == fault).unwrap();
                faults >> index & 1 == 1
            };
            let pick = |rng: &mut Rng, fault, wrong: &[u8], right: u8| {
                if is_wrong(fault) {
                    *rng.pick(wrong)
                } else {
                    right
                }
            };
            for rule in LINE_RULES {
                let [mut first, mut second] = rng.messages(profile);
                let mut output = vec![FILLER; profile.word_length()];
                let edition =
                    pick(rng, Refusal::Edition, &[0, 1, 12, 14, 17, 255], profile.edition.number());
                let number = pick(rng, Refusal::Profile, &[0, 5, 9, 255], profile.number);
                let wrong = [0, 3, 4, 13, 14, 18, 128, 129, 130, 255];
                let rule = pick(rng, Refusal::LineRule, &wrong, rule.number());
                if is_wrong(Refusal::Symbol) {
                    *[&mut first, &mut second][rng.below(2)].last_mut().unwrap() = profile.q;
                }
                if is_wrong(Refusal::Length) {
                    let buffers = [&mut first, &mut second, &mut output];
                    buffers.into_iter().nth(rng.below(3)).unwrap().push(FILLER);
                }
                let before = output.clone();
                let answer = encode(edition, number, rule, &first, &second, &mut output);
                let expected = ORDER.into_iter().find(|&fault| is_wrong(fault));
                assert_eq!(answer.err(), expected);
                assert_eq!(output == before, expected.is_some());
            }
        }
    }
}

/// "neither 1 nor 2".
#[test]
fn every_other_rule_is_refused() {
    for rule in 0..=u8::MAX {
        let named = LineRule::lookup(rule);
        assert_eq!(named.is_ok(), rule == 1 || rule == 2);
        assert_eq!(named.map_or(rule, LineRule::number), rule);
        let mut output = [FILLER; 19];
        let answer = encode(13, 1, rule, &[0; 5], &[0; 5], &mut output);
        assert_eq!(answer.err().map(Refusal::number), (rule != 1 && rule != 2).then_some(14));
    }
}
