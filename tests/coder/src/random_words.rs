//! Random messages, codewords and received words of a profile.

use crate::balance::{balanced_words, choices, subtract, weight};
use crate::codeword::{check_symbols, codewords, with_check_symbols};
use crate::component::encode_component;
use crate::decode::replaced;
use crate::encode::encoded_word;
use crate::line_rule::LineRule;
use crate::profile::Profile;
use crate::rng::Rng;

/// A way to build a word of a profile; an attempt may give none.
pub type Build = fn(&Profile, &mut Rng) -> Option<Vec<u8>>;

/// Makes a received word of a profile, as a rule from a codeword.
pub type Receive = fn(&Profile, &[u8], &mut Rng) -> Vec<u8>;

/// The components of random messages.
pub fn components(profile: &Profile, rng: &mut Rng) -> [Vec<u8>; 2] {
    rng.messages(profile).map(|message| encode_component(profile, &message))
}

/// The encoder's codeword of random messages, by line rule 1.
pub fn encoded(profile: &Profile, rng: &mut Rng) -> Vec<u8> {
    encoded_word(profile, LineRule::One, &rng.messages(profile))
}

/// A codeword of random messages by another choice than the encoder's, if they have one.
pub fn by_another_choice(profile: &Profile, rng: &mut Rng) -> Option<Vec<u8>> {
    let words = codewords(profile, &rng.messages(profile));
    (words.len() > 1).then(|| words[rng.from_one_to(words.len() - 1)].1.clone())
}

/// A codeword of random messages by any choice.
pub fn codeword(profile: &Profile, rng: &mut Rng) -> Vec<u8> {
    let words = codewords(profile, &rng.messages(profile));
    rng.pick(&words).1.clone()
}

/// A codeword of random messages whose choice adds 1 to neither component, if they have one. It is a
/// codeword of both editions, with another pair in each unless both messages are zeros.
pub fn of_both(profile: &Profile, rng: &mut Rng) -> Option<Vec<u8>> {
    let words = codewords(profile, &rng.messages(profile)).into_iter();
    let mut words = words.filter(|(choice, _)| choice.adds_nothing(profile.edition));
    words.next().map(|(_, word)| word)
}

/// The word with another level at each of these positions.
pub fn changed_at(profile: &Profile, word: &[u8], positions: &[usize], rng: &mut Rng) -> Vec<u8> {
    positions.iter().fold(word.to_vec(), |word, &position| {
        let symbol = rng.other_level(profile.q, word[position - 1]);
        replaced(&word, position, symbol)
    })
}

/// So many different positions of a word of this length, in no order.
pub fn positions(length: usize, count: usize, rng: &mut Rng) -> Vec<usize> {
    let mut positions: Vec<usize> = Vec::new();
    while positions.len() < count {
        let position = rng.from_one_to(length);
        if !positions.contains(&position) {
            positions.push(position);
        }
    }
    positions
}

/// The word with another level at `count` positions.
pub fn changed(profile: &Profile, word: &[u8], count: usize, rng: &mut Rng) -> Vec<u8> {
    let positions = positions(word.len(), count, rng);
    changed_at(profile, word, &positions, rng)
}

/// A codeword with another level at `count` positions.
pub fn with_changes(profile: &Profile, count: usize, rng: &mut Rng) -> Vec<u8> {
    let word = codeword(profile, rng);
    changed(profile, &word, count, rng)
}

/// A codeword with another level at one check symbol.
pub fn one_check_symbol(profile: &Profile, rng: &mut Rng) -> Option<Vec<u8>> {
    let word = codeword(profile, rng);
    let position = profile.m() + rng.from_one_to(2);
    Some(changed_at(profile, &word, &[position], rng))
}

/// A codeword with another level at both check symbols.
pub fn both_check_symbols(profile: &Profile, rng: &mut Rng) -> Option<Vec<u8>> {
    let word = codeword(profile, rng);
    let checks = [profile.m() + 1, profile.m() + 2];
    Some(changed_at(profile, &word, &checks, rng))
}

/// A word that only its components give away as no codeword, as a rule.
pub fn balanced_noise(profile: &Profile, rng: &mut Rng) -> Option<Vec<u8>> {
    let x = rng.word(profile.q, profile.m());
    let (_, w) = balanced_words(profile.edition, profile.q, &x).next()?;
    Some(with_check_symbols(profile, &w))
}

/// How far each check sum is above its received check symbol, mod q: α, β.
pub fn checks_off(profile: &Profile, word: &[u8]) -> [u8; 2] {
    let (w, received) = word.split_at(profile.m());
    let sums = check_symbols(profile, w);
    [0, 1].map(|check| subtract(profile.q, sums[check], received[check]))
}

/// How far the weight of w is above the balancing value.
pub fn excess(profile: &Profile, w: &[u8]) -> i64 {
    i64::from(weight(w)) - i64::from(profile.balancing_value())
}

/// A w with this x and any choice whose weight is off by q, if there is one.
pub fn off_by_q(profile: &Profile, x: &[u8], rng: &mut Rng) -> Option<Vec<u8>> {
    let edition = profile.edition;
    let unbalanced: Vec<Vec<u8>> = choices(edition, profile.q, x.len())
        .map(|choice| choice.apply(edition, profile.q, x))
        .filter(|w| excess(profile, w).abs() == i64::from(profile.q))
        .collect();
    (!unbalanced.is_empty()).then(|| rng.pick(&unbalanced).clone())
}
