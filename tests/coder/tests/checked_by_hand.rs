//! Every case of document 01, starred or not, against the coder, words with erasures (T-01), words
//! with errors of both signs (T-02), words by how many positions are tried (T-08), words of the 2018
//! edition (T-03) and words converted from one edition to the other (T-04). Pairs by line rule 2 (T-06) are in
//! `line_rules`.

use coder::balance::{balanced_words, weight, BalancingChoice};
use coder::codeword::codewords;
use coder::component::encode_component;
use coder::convert::convert;
use coder::decode::decode_word;
use coder::edition::Edition;
use coder::encode::encode;
use coder::examples::{
    converted, encoded, encoded_2018, Encoded2018, BOXLINES_INPUT, BOXLINES_OUTPUT, COMPONENTS,
    DECODED, DECODED_2018, ERASED, ERRORS, PROFILE_TABLE, TRIED,
};
use coder::lines::{answer, boxlines};
use coder::profile::{Profile, PROFILES, PROFILES_2018};
use coder::queue::{dequeue, enqueue, format, is_sound};
use coder::refusal::Refusal;
use coder::text::{digits, symbols};

#[test]
fn the_profile_table() {
    for profiles in [PROFILES, PROFILES_2018] {
        let rows = profiles.map(|p| {
            let derived = [p.k(), p.m(), p.word_length()].map(|length| length as u32);
            let [k, m, word_length] = derived;
            let (number, q, delta) = (p.number.into(), p.q.into(), p.delta().into());
            [number, q, p.r as u32, p.n as u32, k, m, word_length, p.balancing_value(), delta]
        });
        assert_eq!(rows, PROFILE_TABLE);
    }
}

#[test]
fn the_balancing_rule_alone() {
    let x = [4, 2, 1, 0, 0, 0];
    let (choice, w) = balanced_words(Edition::Of2013, 5, &x).next().unwrap();
    assert_eq!(choice, BalancingChoice { s: 2, v: 5 });
    assert_eq!(w, [1, 3, 4, 4, 0, 0]);
    assert_eq!(weight(&w), 12);
}

#[test]
fn components_of_profile_1() {
    for (message, component) in COMPONENTS {
        assert_eq!(encode_component(&PROFILES[0], &symbols(message)), symbols(component));
    }
}

#[test]
fn encoded_words() {
    for (profile, [first, second], word) in encoded() {
        let mut output = vec![0; word.len()];
        encode(13, profile, 1, &symbols(&first), &symbols(&second), &mut output).unwrap();
        assert_eq!(digits(&output), word);
    }
}

#[test]
fn the_choice_for_a_pair_of_profile_1() {
    let messages = ["00001", "00000"].map(symbols);
    let (choice, _) = codewords(&PROFILES[0], &messages)[0];
    assert_eq!(choice, BalancingChoice { s: 1, v: 3 });
}

/// T-03's rule, worked out by hand.
#[test]
fn encoded_words_of_2018() {
    for Encoded2018 { profile, messages, s, v, word } in encoded_2018() {
        let messages = messages.map(|message| symbols(&message));
        let profile = Profile::of(Edition::Of2018, profile).unwrap();
        let (choice, made) = &codewords(profile, &messages)[0];
        assert_eq!((*choice, digits(made)), (BalancingChoice { s, v }, word.clone()));
        let mut output = vec![0; word.len()];
        encode(18, profile.number, 1, &messages[0], &messages[1], &mut output).unwrap();
        assert_eq!(digits(&output), word);
    }
}

#[test]
fn received_words_of_2018() {
    for (word, expected, tried) in DECODED_2018 {
        let (answer, counted) = match decode_word(&PROFILES_2018[0], &symbols(word)) {
            Ok((answer, [first, second])) => {
                (answer.decoded.answer(&first, &second), Some(answer.tried))
            }
            Err(refusal @ Refusal::Unreadable { tried }) => (refusal.to_string(), Some(tried)),
            Err(refusal) => (refusal.to_string(), None),
        };
        assert_eq!((answer.as_str(), counted), (expected, tried), "{word}");
    }
}

#[test]
fn converted_words() {
    for (edition, profile, word, expected) in converted() {
        let mut output = vec![0; word.len()];
        let answer = match convert(edition, profile, &symbols(&word), &mut output) {
            Ok(()) => digits(&output),
            Err(refusal) => refusal.to_string(),
        };
        assert_eq!(answer, expected, "{edition} {profile} {word}");
    }
}

#[test]
fn received_words_of_profile_1() {
    for (word, expected, tried) in DECODED.into_iter().chain(ERASED).chain(ERRORS).chain(TRIED) {
        let line = answer(format!("1 {word}").as_bytes());
        assert_eq!(line.strip_prefix("1 ").unwrap_or(&line), expected);
        let counted = match decode_word(&PROFILES[0], &symbols(word)) {
            Ok((answer, _)) => Some(answer.tried),
            Err(Refusal::Unreadable { tried }) => Some(tried),
            Err(_) => None,
        };
        assert_eq!(counted, tried, "{word}");
    }
}

#[test]
fn the_example_of_the_line_program() {
    assert_eq!(boxlines(BOXLINES_INPUT.as_bytes()), BOXLINES_OUTPUT);
}

#[test]
fn layout_by_length() {
    for length in [104, 207, 26_728] {
        assert_eq!(format(&mut vec![170; length]), Err(Refusal::QueueLength));
    }
    let mut smallest = vec![170; 208];
    format(&mut smallest).unwrap();
    let mut expected = vec![0; 208];
    expected[1] = 1;
    assert_eq!(smallest, expected);
    let mut largest = vec![170; 26_624];
    format(&mut largest).unwrap();
    assert!(is_sound(&largest));
    let chain: Vec<u8> = largest.chunks(104).skip(1).map(|cell| cell[0]).collect();
    assert_eq!(chain, (2..=255).chain([0]).collect::<Vec<u8>>());
}

#[test]
fn one_cell_is_used_again() {
    let mut buffer = vec![170; 208];
    let word = symbols("1111111111111111102");
    format(&mut buffer).unwrap();
    assert_eq!(enqueue(&mut buffer, 1, 1, &word), Ok(()));
    assert_eq!(enqueue(&mut buffer, 1, 1, &word), Err(Refusal::NoFreeCell));
    assert_eq!(dequeue(&mut buffer, &mut [170; 104]), Ok(()));
    assert_eq!(enqueue(&mut buffer, 1, 1, &word), Ok(()));
}
