//! The component code (01: halves; "How a word is made", steps 1 and 2; 002, section IV).

use crate::balance::subtract;
use crate::fillings::{digits, fillings};
use crate::profile::Profile;

/// "Column i holds the digits of i in base q, i from 1 to n, r−1 digits, with a 1 added as a last
/// row."
pub fn column(profile: &Profile, i: usize) -> Vec<u8> {
    let mut column = digits(profile.q, profile.r - 1, i);
    column.push(1);
    column
}

/// 01: the check row sums of a half, mod q.
pub fn syndrome(profile: &Profile, component: &[u8]) -> Vec<u8> {
    let mut sums = vec![0; profile.r];
    for (i, &symbol) in component.iter().enumerate() {
        for (sum, entry) in sums.iter_mut().zip(column(profile, i + 1)) {
            *sum += u32::from(entry) * u32::from(symbol);
        }
    }
    sums.iter().map(|sum| (sum % u32::from(profile.q)) as u8).collect()
}

/// "A half c of n symbols is in code if each digit row times c sums to 0 mod q, and the sum of c
/// is 0 mod q."
pub fn in_code(profile: &Profile, component: &[u8]) -> bool {
    component.len() == profile.n && syndrome(profile, component).iter().all(|&sum| sum == 0)
}

/// "place 2 and the places 1, q, q², up to q^(r−2)".
pub fn check_positions(profile: &Profile) -> Vec<usize> {
    let powers = (0..profile.r - 1).map(|power| usize::from(profile.q).pow(power as u32));
    let mut positions: Vec<usize> = powers.chain([2]).collect();
    positions.sort_unstable();
    positions
}

/// "The other k places hold the user word in rising order."
pub fn message_positions(profile: &Profile) -> Vec<usize> {
    let checks = check_positions(profile);
    (1..=profile.n).filter(|i| !checks.contains(i)).collect()
}

/// The user word that a half holds, whether or not it is in code.
pub fn message_in(profile: &Profile, component: &[u8]) -> Vec<u8> {
    message_positions(profile).iter().map(|&position| component[position - 1]).collect()
}

/// The message at its positions, and 0 at the check positions.
pub fn placed(profile: &Profile, message: &[u8]) -> Vec<u8> {
    let mut component = vec![0; profile.n];
    for (position, &symbol) in message_positions(profile).iter().zip(message) {
        component[position - 1] = symbol;
    }
    component
}

/// The component with this message and this syndrome, found by trying every filling of the check
/// positions.
pub fn component_with_syndrome(profile: &Profile, message: &[u8], target: &[u8]) -> Vec<u8> {
    let component = placed(profile, message);
    let checks = check_positions(profile);
    let mut tried = fillings(profile.q, &component, &checks);
    tried
        .find(|component| syndrome(profile, component) == target)
        .expect("01: the message fixes the check symbols")
}

/// The half of a user word. "This fixes the check symbols."
pub fn encode_component(profile: &Profile, message: &[u8]) -> Vec<u8> {
    component_with_syndrome(profile, message, &vec![0; profile.r])
}

/// The half that is in code "when 1 is taken mod q from exactly one symbol", where there is one.
pub fn take_one(profile: &Profile, component: &[u8]) -> Option<Vec<u8>> {
    (0..component.len())
        .map(|i| {
            let mut restored = component.to_vec();
            restored[i] = subtract(profile.q, restored[i], 1);
            restored
        })
        .find(|restored| in_code(profile, restored))
}
