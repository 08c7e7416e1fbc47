//! Encoding by both line rules, held to the separate coder, which tries every choice. Without the static library, so
//! that it can be run before that is built:
//! `cargo test --manifest-path bench/Cargo.toml --release --offline -p fast`.

use coder::calm_words::{calm, calm_from_second, wild, Draw};
use coder::codeword::{codewords, Messages};
use coder::edition::profiles_of_both;
use coder::line_rule::{taken, LINE_RULES};
use coder::near_miss_pairs::PAIR_NEAR_MISSES;
use coder::profile::Profile;
use coder::refusal::Refusal;
use coder::rng::Rng;

/// How many pairs of each profile and edition are drawn, and how.
const DRAWN: [(usize, Draw); 4] = [
    (1000, |profile, rng| rng.messages(profile)),
    (100, calm),
    (100, calm_from_second),
    (300, wild),
];

/// Pairs that each near miss gets wrong.
const NEAR_MISSES: usize = 3;

/// Pairs of edition 13, with their profile, of which rule 2 would take another choice if α did not count.
const ALPHA_COUNTS: [(u8, [&str; 2]); 4] = [
    (3, ["343232231204103233243", "201322442301323204203"]),
    (3, ["210131322410400322001", "313213121141412321041"]),
    (
        4,
        [
            "552264211445621546613351660204044343054666523",
            "111553063512352053312133061555451223212204531",
        ],
    ),
    (
        4,
        [
            "450403322016400225506226021326156331524105132",
            "321140224524560150215140656462520360620020333",
        ],
    ),
];

fn check(profile: &Profile, messages: &Messages) {
    let [first, second] = messages;
    let codewords = codewords(profile, messages);
    for rule in LINE_RULES {
        let (_, expected) = taken(rule, profile.q, &codewords);
        let [edition, number, told] =
            [profile.edition.number(), profile.number, rule.number()].map(u64::from);
        let mut word = vec![170; profile.word_length()];
        let answer = fast::encode(edition, number, told, first, second, &mut word);
        assert_eq!(answer, Ok(()));
        assert_eq!(&word, expected, "{rule:?}, {messages:?} of {profile:?}");
    }
}

#[test]
fn drawn_pairs_are_encoded_by_both_rules() {
    for profile in profiles_of_both() {
        let rng = &mut Rng::new(6);
        for (count, draw) in DRAWN {
            (0..count).for_each(|_| check(profile, &draw(profile, rng)));
        }
    }
}

/// Pairs that an encoder with a slip gets wrong, those among them whose α counts, of which hardly any are drawn.
#[test]
fn near_misses_are_encoded_by_both_rules() {
    for profile in profiles_of_both() {
        let rng = &mut Rng::new(7);
        for near_miss in &PAIR_NEAR_MISSES {
            near_miss.pairs(profile, NEAR_MISSES, rng).iter().for_each(|pair| check(profile, pair));
        }
    }
}

/// Pairs of one level each, the zero pair among them, whose words are of few levels and swing the least and the most.
#[test]
fn pairs_of_one_level_are_encoded_by_both_rules() {
    for profile in profiles_of_both() {
        for levels in 0..profile.q * profile.q {
            let message = |level: u8| vec![level; profile.k()];
            check(profile, &[levels / profile.q, levels % profile.q].map(message));
        }
    }
}

#[test]
fn the_check_symbols_count() {
    for (number, messages) in ALPHA_COUNTS {
        let messages = messages.map(|digits| digits.bytes().map(|digit| digit - b'0').collect());
        for profile in profiles_of_both().filter(|profile| profile.number == number) {
            check(profile, &messages);
        }
    }
}

/// T-06: "14, line rule neither 1 nor 2, after 1 and before 2."
#[test]
fn the_rule_is_refused_after_the_profile_and_before_the_lengths() {
    let cases = [
        ([14, 0, 0], Refusal::Edition),
        ([13, 0, 0], Refusal::Profile),
        ([13, 1, 0], Refusal::LineRule),
        ([18, 4, 3], Refusal::LineRule),
        ([18, 4, (1 << 32) + 1], Refusal::LineRule),
        ([13, 1, 1], Refusal::Length),
        ([18, 4, 2], Refusal::Length),
    ];
    for ([edition, profile, rule], refusal) in cases {
        let answer = fast::encode(edition, profile, rule, &[9], &[9], &mut []);
        assert_eq!(answer, Err(refusal), "{edition}, {profile}, {rule}");
    }
}
