//! What 01 says of codewords and of reading them, tried on samples, and its "Wrong turns seen in
//! drafts" that concern the encoder or a single word. The tests of `near_misses` show that each
//! wrong decoder fails on words of the vectors.

use coder::balance::{add, subtract};
use coder::codeword::{check_symbols, codewords, messages_of};
use coder::component::{
    check_positions, component_with_syndrome, encode_component, in_code, message_in, syndrome,
};
use coder::decode::{decode, decode_word, search, within_one, Answer, Decoded, Kind, Sent};
use coder::edition::profiles_of_both;
use coder::encode::encoded_word;
use coder::line_rule::LineRule;
use coder::near_miss::{self, printed_delta, Slip};
use coder::profile::PROFILES;
use coder::random_words::{changed, encoded};
use coder::rng::Rng;
use coder::text::symbols;

#[test]
fn a_message_fixes_its_component() {
    let rng = &mut Rng::new(2);
    for profile in &PROFILES {
        let message = rng.word(profile.q, profile.k());
        let component = encode_component(profile, &message);
        assert!(in_code(profile, &component));
        assert_eq!(message_in(profile, &component), message);
        let target = rng.word(profile.q, profile.r);
        let other = component_with_syndrome(profile, &message, &target);
        assert_eq!(syndrome(profile, &other), target);
    }
}

/// Whatever choice made a codeword, it is read as its pair, also with any one symbol at any other
/// level, of which T-02's number is "received minus sent .. for check symbols as well", and T-08's
/// "the number of places of that half of w .. up to and including the one found". "The outputs then
/// hold its first and second user word, whatever they held before."
#[test]
fn every_codeword_is_read_as_its_pair() {
    let rng = &mut Rng::new(3);
    for profile in profiles_of_both().flat_map(|profile| [profile; 10]) {
        let messages = rng.messages(profile);
        let words = codewords(profile, &messages);
        assert_eq!(words[0].1, encoded_word(profile, LineRule::One, &messages));
        for (_, word) in &words {
            assert_eq!(messages_of(profile, word).as_ref(), Some(&messages));
        }
        let (_, sent) = rng.pick(&words);
        for (change, received) in within_one(profile, sent) {
            let [mut first, mut second] = [0, 255].map(|filler| vec![filler; profile.k()]);
            let edition = profile.edition.number();
            let decoded = decode(edition, profile.number, &received, &mut first, &mut second);
            let (expected, tried) = match change.kind {
                Kind::Clean => (Decoded { kind: Kind::Clean, error: 0 }, 0),
                Kind::Corrected(Sent { position, .. }) => {
                    let symbol = sent[position - 1];
                    let error = i16::from(received[position - 1]) - i16::from(symbol);
                    let tried = if position <= profile.m() { position.div_ceil(2) } else { 0 };
                    (Decoded { kind: Kind::Corrected(Sent { position, symbol }), error }, tried)
                }
                Kind::Filled(..) => unreachable!("nothing is erased"),
            };
            let expected = Answer { decoded: expected, tried };
            assert_eq!((decoded, [first, second]), (Ok(expected), messages.clone()));
        }
    }
}

/// 002's way of decoding, as 01 corrects it, finds what the search finds, and counts what was tried
/// for it: on codewords with up to three symbols changed, and on noise.
#[test]
fn the_search_agrees_with_the_steps_of_002() {
    let rng = &mut Rng::new(6);
    for profile in profiles_of_both() {
        for count in 0..400 {
            let codeword = encoded(profile, rng);
            let noise = rng.word(profile.q, profile.word_length());
            for word in [changed(profile, &codeword, count % 4, rng), noise] {
                let expected = decode_word(profile, &word);
                assert_eq!(near_miss::decode(profile, &word, None), expected);
            }
        }
    }
}

/// "2(q−1)(2−m), which among these profiles agrees for q = 3 only; with q = 5, m = 49 it gives 4,
/// and then α and β are not balanced"; with the right δ "α+β is always q−1".
#[test]
fn check_symbols_are_balanced_with_the_right_delta_only() {
    assert_eq!(printed_delta(&PROFILES[2]), 4);
    let rng = &mut Rng::new(1);
    for profile in profiles_of_both() {
        let q = profile.q;
        assert_eq!(printed_delta(profile) == profile.delta(), q == 3);
        for _ in 0..50 {
            let word = encoded(profile, rng);
            let [alpha, beta] = check_symbols(profile, &word[..profile.m()]);
            assert_eq!(alpha + beta, q - 1);
            let printed = add(q, subtract(q, alpha, profile.delta()), printed_delta(profile));
            assert_eq!(printed + beta == q - 1, q == 3);
        }
    }
}

/// "here two wrong check symbols are refused", though the word is balanced.
#[test]
fn balance_is_no_proof_of_a_clean_word() {
    let word = symbols("1111111111111111111");
    let slipped = near_miss::decode(&PROFILES[0], &word, Some(Slip::BalanceIsClean));
    assert_eq!(slipped.map(|(answer, _)| answer.decoded), Ok(Decoded::CLEAN));
    assert_eq!(search(&PROFILES[0], &word), None);
}

/// "Place 2 filled with user data, because it is not a power of q."
#[test]
fn position_2_holds_a_check_symbol() {
    let positions = PROFILES.each_ref().map(check_positions);
    assert_eq!(positions, [vec![1, 2, 3], vec![1, 2, 3, 9], vec![1, 2, 5], vec![1, 2, 7]]);
    for (profile, first) in PROFILES.iter().zip([4, 4, 3, 3]) {
        let mut message = vec![0; profile.k()];
        message[0] = 1;
        assert_eq!(encode_component(profile, &message)[first - 1], 1);
    }
}
