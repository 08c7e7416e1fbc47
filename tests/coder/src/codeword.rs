//! Codewords (01: lawful words) of either edition: how one is put together from two components, and the
//! test that a word is one, straight from 01's four conditions.

use crate::balance::{balanced_words, difference, weight, BalancingChoice};
use crate::component::{encode_component, in_code, message_in, take_one};
use crate::edition::Edition;
use crate::profile::Profile;

/// 01: a pair, the first and the second user word.
pub type Messages = [Vec<u8>; 2];

/// Every pair of a profile whose messages are few enough to list.
pub fn all_messages(profile: &Profile) -> impl Iterator<Item = Messages> + '_ {
    let q = usize::from(profile.q);
    let message = move |number: usize| -> Vec<u8> {
        (0..profile.k()).map(|power| (number / q.pow(power as u32) % q) as u8).collect()
    };
    let count = q.pow(profile.k() as u32);
    (0..count * count).map(move |number| [message(number / count), message(number % count)])
}

/// "x has m symbols: 0, b1, b′1, b2, b′2, up to bn, b′n." T-03: "The added zero stands last in x .. So
/// b1 is at place 1 of x and b′1 at place 2".
pub fn interleave(edition: Edition, components: &[Vec<u8>; 2]) -> Vec<u8> {
    let [first, second] = components;
    let pairs: Vec<u8> = first.iter().zip(second).flat_map(|(&b, &c)| [b, c]).collect();
    match edition {
        Edition::Of2013 => [&[0], &pairs[..]].concat(),
        Edition::Of2018 => [&pairs[..], &[0]].concat(),
    }
}

/// "halves obtained by differencing w mod q (dropping the first)". T-03: "differencing w drops the last
/// symbol instead of the first".
pub fn components_of(profile: &Profile, w: &[u8]) -> [Vec<u8>; 2] {
    let x = difference(profile.edition, profile.q, w);
    let kept = match profile.edition {
        Edition::Of2013 => &x[1..],
        Edition::Of2018 => &x[..x.len() - 1],
    };
    [0, 1].map(|start| kept.iter().skip(start).step_by(2).copied().collect())
}

/// "α is the sum of w at odd places plus δ, mod q. β is the sum at even places, mod q." T-03: "δ and
/// check symbols do not change."
pub fn check_symbols(profile: &Profile, w: &[u8]) -> [u8; 2] {
    let sum_from =
        |start: usize| -> u32 { w.iter().skip(start).step_by(2).map(|&s| u32::from(s)).sum() };
    let alpha = sum_from(0) + u32::from(profile.delta());
    let beta = sum_from(1);
    [alpha, beta].map(|sum| (sum % u32::from(profile.q)) as u8)
}

/// "The line word is w, α, β."
pub fn with_check_symbols(profile: &Profile, w: &[u8]) -> Vec<u8> {
    let mut word = w.to_vec();
    word.extend(check_symbols(profile, w));
    word
}

/// Every codeword of a pair, one for each balancing choice, in the order of trying. "A pair may
/// have several lawful words; the writer makes one of them."
pub fn codewords(profile: &Profile, messages: &Messages) -> Vec<(BalancingChoice, Vec<u8>)> {
    let components = messages.each_ref().map(|message| encode_component(profile, message));
    let x = interleave(profile.edition, &components);
    balanced_words(profile.edition, profile.q, &x)
        .map(|(choice, w)| (choice, with_check_symbols(profile, &w)))
        .collect()
}

/// The halves in code, where "at least one is in code and the other either is too or becomes so
/// when 1 is taken mod q from exactly one symbol".
fn restore(profile: &Profile, components: [Vec<u8>; 2]) -> Option<[Vec<u8>; 2]> {
    let [first, second] = components;
    match (in_code(profile, &first), in_code(profile, &second)) {
        (true, true) => Some([first, second]),
        (true, false) => take_one(profile, &second).map(|second| [first, second]),
        (false, true) => take_one(profile, &first).map(|first| [first, second]),
        (false, false) => None,
    }
}

/// "Lawful word: N symbols below q, with w of weight middle, α and β as in step 6, and halves ..
/// It carries the user words of the halves so restored." The pair carried, if the word is lawful.
pub fn messages_of(profile: &Profile, word: &[u8]) -> Option<Messages> {
    if word.len() != profile.word_length() || profile.require_levels(word).is_err() {
        return None;
    }
    let (w, checks) = word.split_at(profile.m());
    if weight(w) != profile.balancing_value() || checks != check_symbols(profile, w) {
        return None;
    }
    let restored = restore(profile, components_of(profile, w))?;
    Some(restored.map(|component| message_in(profile, &component)))
}
