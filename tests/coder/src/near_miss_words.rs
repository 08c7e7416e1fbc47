//! How the words of each near miss are built at random. An attempt may give none, or a word that
//! the near miss gets right after all.

use crate::balance::{add, balanced_words, subtract};
use crate::codeword::{check_symbols, interleave, with_check_symbols};
use crate::component::component_with_syndrome;
use crate::decode::replaced;
use crate::erased_words::Draw;
use crate::erasure::erased_at;
use crate::near_miss::printed_delta;
use crate::profile::Profile;
use crate::random_words::{
    changed_at, codeword, components, excess, off_by_q, with_changes, Receive,
};
use crate::rng::Rng;

/// A word with right check symbols whose weight is off by q, with one more symbol changed: away
/// from the balancing value or back toward it.
pub fn off_balance(profile: &Profile, rng: &mut Rng, away: bool) -> Option<Vec<u8>> {
    let x = interleave(profile.edition, &components(profile, rng));
    let w = &off_by_q(profile, &x, rng)?;
    let position = rng.from_one_to(w.len());
    let symbol = rng.other_level(profile.q, w[position - 1]);
    let raised = symbol > w[position - 1];
    let heavy = excess(profile, w) > 0;
    let word = with_check_symbols(profile, w);
    ((raised == heavy) == away).then(|| replaced(&word, position, symbol))
}

/// A word with right check symbols whose weight is off by q, erased at positions that are drawn.
pub fn off_balance_erased(profile: &Profile, rng: &mut Rng, draw: Draw) -> Option<Vec<u8>> {
    let x = interleave(profile.edition, &components(profile, rng));
    let word = with_check_symbols(profile, &off_by_q(profile, &x, rng)?);
    Some(erased_at(&word, &draw(profile, rng)))
}

/// A codeword with another level at one position.
pub fn one_changed(profile: &Profile, rng: &mut Rng) -> Option<Vec<u8>> {
    Some(with_changes(profile, 1, rng))
}

/// A codeword with one symbol of w changed, and the check symbol of that parity too.
pub fn symbol_and_its_check(profile: &Profile, rng: &mut Rng) -> Option<Vec<u8>> {
    let position = rng.from_one_to(profile.m());
    let check = if position % 2 == 1 { profile.m() + 1 } else { profile.m() + 2 };
    let word = codeword(profile, rng);
    Some(changed_at(profile, &word, &[position, check], rng))
}

/// A codeword whose α is the one that 002's printed δ gives.
pub fn alpha_by_printed_delta(profile: &Profile, rng: &mut Rng) -> Option<Vec<u8>> {
    let word = codeword(profile, rng);
    let [alpha, _] = check_symbols(profile, &word[..profile.m()]);
    let without_delta = subtract(profile.q, alpha, profile.delta());
    Some(replaced(&word, profile.m() + 1, add(profile.q, without_delta, printed_delta(profile))))
}

/// A balanced word with right check symbols whose components are these two as they stand: 1 is
/// added to neither.
fn with_components(profile: &Profile, components: &[Vec<u8>; 2]) -> Option<Vec<u8>> {
    let x = interleave(profile.edition, components);
    let mut words = balanced_words(profile.edition, profile.q, &x);
    let (_, w) = words.find(|(choice, _)| choice.adds_nothing(profile.edition))?;
    Some(with_check_symbols(profile, &w))
}

/// The two components, the first and the second exchanged at random.
fn in_either_order(components: [Vec<u8>; 2], rng: &mut Rng) -> [Vec<u8>; 2] {
    let [first, second] = components;
    if rng.once_in(2) {
        [first, second]
    } else {
        [second, first]
    }
}

/// A component in code, and one with a syndrome of zeros with a last 1.
pub fn position_zero(profile: &Profile, rng: &mut Rng) -> Option<Vec<u8>> {
    let mut target = vec![0; profile.r];
    target[profile.r - 1] = 1;
    let [in_code, _] = components(profile, rng);
    let message = rng.word(profile.q, profile.k());
    let off = component_with_syndrome(profile, &message, &target);
    with_components(profile, &in_either_order([in_code, off], rng))
}

/// Components in code, one of them (0 or 1) replaced by a random one.
pub fn one_random(profile: &Profile, rng: &mut Rng, replaced: usize) -> Option<Vec<u8>> {
    let mut components = components(profile, rng);
    components[replaced] = rng.word(profile.q, profile.n);
    with_components(profile, &components)
}

/// The component with an amount added at a random position.
fn with_added(profile: &Profile, component: &[u8], amount: u8, rng: &mut Rng) -> Vec<u8> {
    let position = rng.from_one_to(profile.n);
    replaced(component, position, add(profile.q, component[position - 1], amount))
}

/// Components in code with 1 added at one position of each.
pub fn one_added_to_both(profile: &Profile, rng: &mut Rng) -> Option<Vec<u8>> {
    let off = components(profile, rng).map(|component| with_added(profile, &component, 1, rng));
    with_components(profile, &off)
}

/// A component in code, and one with 2 to q−1 added at one position.
pub fn more_than_one_added(profile: &Profile, rng: &mut Rng) -> Option<Vec<u8>> {
    let amount = 1 + rng.from_one_to(usize::from(profile.q) - 2) as u8;
    let [in_code, other] = components(profile, rng);
    let off = with_added(profile, &other, amount, rng);
    with_components(profile, &in_either_order([in_code, off], rng))
}

/// A codeword by any choice, received so.
pub fn of_codeword(profile: &Profile, rng: &mut Rng, receive: Receive) -> Option<Vec<u8>> {
    let word = codeword(profile, rng);
    Some(receive(profile, &word, rng))
}
