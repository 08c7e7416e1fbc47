//! That an encoder without a slip makes what the search finds, and that slips of v do no harm.

use crate::balance::choices;
use crate::codeword::{all_messages, codewords};
use crate::edition::profiles_of_both;
use crate::profile::PROFILES_2018;
use crate::rng::Rng;

use super::*;

/// Some pairs of profile 1, and random ones of the others.
fn pairs(profile: &Profile) -> Vec<Messages> {
    let rng = &mut Rng::new(1);
    match profile.number {
        1 => all_messages(profile).step_by(7).collect(),
        _ => (0..300).map(|_| rng.messages(profile)).collect(),
    }
}

#[test]
fn without_a_slip_the_word_is_the_first_that_is_found() {
    for profile in profiles_of_both() {
        for messages in pairs(profile) {
            let found = Some(encoded_word(profile, LineRule::One, &messages));
            assert_eq!(encode(profile, &messages, None), found);
        }
    }
}

/// With v = m the 1 is added where s is: the word is that of s + 1 and v = 0, which is tried next.
#[test]
fn some_slips_of_v_make_the_same_words() {
    for profile in &PROFILES_2018 {
        for messages in pairs(profile) {
            let right = encode(profile, &messages, None);
            for slip in HARMLESS_SLIPS {
                assert_eq!(encode(profile, &messages, Some(slip)), right, "{slip:?}");
            }
        }
    }
}

/// The weight mod q is the sum of i·xi, to which s adds m·s, 1 adds v, and a component in code nothing. So v
/// follows from s mod q, and is 0 for s = (q−1)/2 alone.
#[test]
fn v_is_0_only_where_s_is_half_the_highest_level() {
    for profile in &PROFILES_2018 {
        let q = u32::from(profile.q);
        for messages in pairs(profile).iter().step_by(20) {
            for (choice, _) in codewords(profile, messages) {
                let added = profile.m() as u32 * u32::from(choice.s) + choice.v as u32;
                assert_eq!(added % q, profile.balancing_value() % q);
            }
        }
        let balanced = choices(profile.edition, profile.q, profile.m())
            .filter(|choice| choice.v == 0)
            .filter(|choice| {
                (profile.m() as u32 * u32::from(choice.s)) % q == profile.balancing_value() % q
            });
        assert_eq!(balanced.map(|choice| choice.s).collect::<Vec<u8>>(), [(profile.q - 1) / 2]);
    }
}

/// For one pair the w of (s, v) is the complement of 2013's w of (−2−s mod q, v+1): the order of s that
/// one of the slips tries is 2013's.
#[test]
fn the_slip_of_s_has_the_order_of_the_complement() {
    for profile in &PROFILES_2018 {
        let of_2013 = &profile.in_other_edition();
        for messages in pairs(profile).iter().step_by(50) {
            let complement =
                |w: &[u8]| w.iter().map(|&symbol| profile.q - 1 - symbol).collect::<Vec<u8>>();
            let (_, first) = &codewords(of_2013, messages)[0];
            let slipped = encode(profile, messages, Some(Slip::SFalling)).unwrap();
            assert_eq!(slipped[..profile.m()], complement(&first[..profile.m()]));
        }
    }
}
