//! That the sums without a slip are T-05's, and give what the search finds.

use crate::component::encode_component;
use crate::fillings::fillings;
use crate::profile::PROFILES;
use crate::rng::Rng;

use super::*;

/// Every message of profile 1, and of the others every constant one and random ones.
fn messages(profile: &Profile, rng: &mut Rng) -> Vec<Vec<u8>> {
    let zeros = vec![0; profile.k()];
    if profile.number == 1 {
        let positions: Vec<usize> = (1..=profile.k()).collect();
        return fillings(profile.q, &zeros, &positions).collect();
    }
    let constant = (0..profile.q).map(|level| vec![level; profile.k()]);
    let random = (0..200).map(|_| rng.word(profile.q, profile.k()));
    constant.chain(random).collect()
}

/// The check row sums of the first symbols of a component, not reduced.
fn plain_sums(profile: &Profile, symbols: &[u8]) -> Vec<u32> {
    let mut sums = vec![0; profile.r];
    for (i, &symbol) in symbols.iter().enumerate() {
        for (sum, entry) in sums.iter_mut().zip(column(profile, i + 1)) {
            *sum += u32::from(entry) * u32::from(symbol);
        }
    }
    sums
}

#[test]
fn the_sums_give_the_component_that_is_found() {
    let rng = &mut Rng::new(1);
    for profile in &PROFILES {
        for message in messages(profile, rng) {
            let pair = [message, rng.word(profile.q, profile.k())];
            let found = pair.each_ref().map(|message| encode_component(profile, message));
            assert_eq!(components(profile, &pair, None), found);
        }
    }
}

/// "after each symbol what is carried is below q and equal mod q to the sum so far". That nothing on
/// the way passes 255 is insisted on where it is worked out.
#[test]
fn what_is_carried_is_the_sum_so_far() {
    let rng = &mut Rng::new(2);
    for profile in &PROFILES {
        let encoder = Encoder { profile, slip: None };
        let nothing = vec![0; profile.r];
        for message in messages(profile, rng) {
            let symbols = placed(profile, &message);
            for count in 0..=profile.n {
                let sums = plain_sums(profile, &symbols[..count]);
                let reduced: Vec<u32> = sums.iter().map(|sum| sum % u32::from(profile.q)).collect();
                let carried = encoder.sums(&symbols[..count], &nothing);
                assert_eq!(carried.into_iter().map(u32::from).collect::<Vec<u32>>(), reduced);
            }
        }
    }
}

/// How high a sum can be that is not reduced, the sum of ones last: in the other profiles no slip that
/// only wraps does harm.
#[test]
fn sums_pass_a_byte_in_profile_4_only() {
    let highest = PROFILES.map(|profile| {
        let message = vec![profile.q - 1; profile.k()];
        plain_sums(&profile, &placed(&profile, &message))
    });
    assert_eq!(highest[0], [16, 12, 10]);
    assert_eq!(highest[1], [52, 52, 48, 44]);
    assert_eq!(highest[2], [196, 188, 84]);
    assert_eq!(highest[3], [876, 864, 270]);
}
