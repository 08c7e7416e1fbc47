//! The steps of a decoder and of an encoder that are different in the 2018 edition (02, T-03), each of
//! which can be got wrong on purpose; and an order of refusals with the edition in the wrong place. In
//! words of 2013 none of these slips does harm, so there they are none.

use crate::balance::{
    add, balancing_value, difference, integrate, subtract, weight, BalancingChoice,
};
use crate::codeword::{components_of, interleave, with_check_symbols, Messages};
use crate::component::{encode_component, syndrome};
use crate::decode::Sent;
use crate::edition::Edition;
use crate::encode::encoded_word;
use crate::line_rule::LineRule;
use crate::near_miss::Decoder;
use crate::profile::Profile;
use crate::refusal::Refusal;
use crate::slip::Slip;

/// The slips of an encoder that do harm.
pub const ENCODER_SLIPS: [Slip; 10] = [
    Slip::EditionIgnored,
    Slip::ZeroFirst,
    Slip::IntegratedFromFront,
    Slip::ComponentsExchanged,
    Slip::WordReversed,
    Slip::VFromOne,
    Slip::VFromEnd,
    Slip::VBeforeS,
    Slip::SAddedFirst,
    Slip::SFalling,
];

/// Those that do none: slip.rs says why.
pub const HARMLESS_SLIPS: [Slip; 2] = [Slip::VUpToM, Slip::VAsIn2013];

/// The slips of a call.
pub const CALL_SLIPS: [Slip; 4] = [
    Slip::EditionAfterProfile,
    Slip::EditionLast,
    Slip::OtherEditionIs2013,
    Slip::OtherEditionIs2018,
];

/// What a call answers with a slip in the edition's number or in its place in the order; `right` answers,
/// told the edition, as it should.
pub fn call<Answer>(
    slip: Slip,
    edition: u8,
    profile: u8,
    right: impl Fn(u8) -> Result<Answer, Refusal>,
) -> Result<Answer, Refusal> {
    let is_known = Edition::lookup(edition).is_ok();
    match slip {
        Slip::EditionAfterProfile => Profile::lookup(profile).and_then(|_| right(edition)),
        Slip::EditionLast if !is_known => right(13).and_then(|_| right(edition)),
        Slip::OtherEditionIs2013 if !is_known => right(13),
        Slip::OtherEditionIs2018 if !is_known => right(18),
        _ => right(edition),
    }
}

impl Decoder<'_> {
    pub fn is_2018(&self) -> bool {
        self.profile.edition == Edition::Of2018
    }

    /// Whether this slip is made in a word of the 2018 edition.
    fn slips_in_2018(&self, slip: Slip) -> bool {
        self.slips(slip) && self.is_2018()
    }

    /// The components of w.
    pub fn components(&self, w: &[u8]) -> [Vec<u8>; 2] {
        let (q, m) = (self.profile.q, w.len());
        let of_2013 = &self.profile.in_other_edition();
        let alternate =
            |x: &[u8]| [0, 1].map(|start| x[start..].iter().step_by(2).copied().collect());
        match self.slip.filter(|_| self.is_2018()) {
            Some(Slip::EditionIgnored) => components_of(of_2013, w),
            Some(Slip::ZeroFirst) => alternate(&difference(Edition::Of2018, q, w)[1..]),
            Some(Slip::IntegratedFromFront) => {
                alternate(&difference(Edition::Of2013, q, w)[..m - 1])
            }
            Some(Slip::ComponentsExchanged) => {
                let [first, second] = components_of(self.profile, w);
                [second, first]
            }
            Some(Slip::WordReversed) => components_of(of_2013, &reversed(w)),
            _ => components_of(self.profile, w),
        }
    }

    /// The syndromes of w's components.
    pub fn syndromes(&self, w: &[u8]) -> [Vec<u8>; 2] {
        let syndromes = self.components(w).map(|component| syndrome(self.profile, &component));
        if self.slips_in_2018(Slip::OneAdded) {
            return syndromes.map(|syndrome| self.negated(&syndrome));
        }
        syndromes
    }

    /// The syndromes of `to`, had from those of `from`: with the slip, the move between them is that of
    /// the 2013 edition.
    pub fn moved_syndromes(&self, from: &[u8], to: &[u8], slip: Slip) -> [Vec<u8>; 2] {
        if !self.slips_in_2018(slip) {
            return self.syndromes(to);
        }
        let of_2013 = &self.profile.in_other_edition();
        let [before, after] = [from, to]
            .map(|w| components_of(of_2013, w).map(|component| syndrome(self.profile, &component)));
        let q = self.profile.q;
        let mut syndromes = self.syndromes(from);
        for (component, rows) in syndromes.iter_mut().enumerate() {
            for (row, sum) in rows.iter_mut().enumerate() {
                let moved = subtract(q, after[component][row], before[component][row]);
                *sum = add(q, *sum, moved);
            }
        }
        syndromes
    }

    /// The symbol with 1 taken mod q.
    pub fn less_one(&self, symbol: u8) -> u8 {
        let q = self.profile.q;
        if self.slips_in_2018(Slip::OneAdded) {
            add(q, symbol, 1)
        } else {
            subtract(q, symbol, 1)
        }
    }

    /// The messages that are answered, of these in the components.
    pub fn answered(&self, messages: Messages) -> Messages {
        if self.slips_in_2018(Slip::MessagesNegated) {
            messages.map(|message| self.negated(&message))
        } else {
            messages
        }
    }

    fn negated(&self, symbols: &[u8]) -> Vec<u8> {
        symbols.iter().map(|&symbol| subtract(self.profile.q, 0, symbol)).collect()
    }

    /// The error where every symbol of w is taken from q−1, and the check symbols are what they then have
    /// to be: n−2−α and −n−β mod q.
    pub fn error_of_complement(&self, sent: Sent, error: i64) -> i64 {
        let n = self.profile.n as i64;
        let check = match sent.position.checked_sub(self.profile.m()) {
            Some(1) => n - 2,
            Some(2) => -n,
            _ => return -error,
        };
        let symbol = i64::from(sent.symbol);
        let [received, sent] = [symbol + error, symbol].map(|level| self.reduce(check - level));
        i64::from(received) - i64::from(sent)
    }
}

fn reversed(w: &[u8]) -> Vec<u8> {
    w.iter().rev().copied().collect()
}

/// The word that an encoder makes of two messages with this slip, or with none; none where it finds no
/// choice.
pub fn encode(profile: &Profile, messages: &Messages, slip: Option<Slip>) -> Option<Vec<u8>> {
    if profile.edition == Edition::Of2013 || slip == Some(Slip::EditionIgnored) {
        return Some(encoded_word(
            &Profile { edition: Edition::Of2013, ..*profile },
            LineRule::One,
            messages,
        ));
    }
    if slip == Some(Slip::WordReversed) {
        let word = encoded_word(&profile.in_other_edition(), LineRule::One, messages);
        return Some(with_check_symbols(profile, &reversed(&word[..profile.m()])));
    }
    let encoder = Encoder { profile, slip };
    let x = encoder.x(messages);
    let words = encoder.choices().into_iter().map(|choice| encoder.integrated(&x, choice));
    let middle = balancing_value(profile.q, profile.m());
    let w = words.into_iter().find(|w| weight(w) == middle)?;
    Some(with_check_symbols(profile, &w))
}

/// An encoder of the 2018 edition.
struct Encoder<'a> {
    profile: &'a Profile,
    slip: Option<Slip>,
}

impl Encoder<'_> {
    /// "b1 is at place 1 of x and b′1 at place 2", and "the added zero stands last".
    fn x(&self, messages: &Messages) -> Vec<u8> {
        let [first, second] =
            messages.each_ref().map(|message| encode_component(self.profile, message));
        match self.slip {
            Some(Slip::ComponentsExchanged) => interleave(Edition::Of2018, &[second, first]),
            Some(Slip::ZeroFirst) => interleave(Edition::Of2013, &[first, second]),
            _ => interleave(Edition::Of2018, &[first, second]),
        }
    }

    /// "v runs from 0 to m−1 .. and s is tried before v", both upward.
    fn choices(&self) -> Vec<BalancingChoice> {
        let (q, m) = (self.profile.q, self.profile.m());
        let ss: Vec<u8> = match self.slip {
            Some(Slip::SFalling) => (0..q - 1).rev().chain([q - 1]).collect(),
            _ => (0..q).collect(),
        };
        let vs: Vec<usize> = match self.slip {
            Some(Slip::VFromOne) => (1..m).collect(),
            Some(Slip::VAsIn2013) => (1..=m).collect(),
            Some(Slip::VUpToM) => (0..=m).collect(),
            Some(Slip::VFromEnd) => [0].into_iter().chain((1..m).rev()).collect(),
            _ => (0..m).collect(),
        };
        let pairs = ss.iter().flat_map(|&s| vs.iter().map(move |&v| BalancingChoice { s, v }));
        let mut choices: Vec<BalancingChoice> = pairs.collect();
        if self.slip == Some(Slip::VBeforeS) {
            choices.sort_by_key(|choice| choice.v);
        }
        choices
    }

    /// "1 is added at xv (nowhere when v is 0), s is added at xm", and "integration runs from the end".
    fn integrated(&self, x: &[u8], BalancingChoice { s, v }: BalancingChoice) -> Vec<u8> {
        let q = self.profile.q;
        let s_at = if self.slip == Some(Slip::SAddedFirst) { 1 } else { x.len() };
        let mut x = x.to_vec();
        for (position, amount) in [(s_at, s), (v, 1)] {
            if position > 0 {
                x[position - 1] = add(q, x[position - 1], amount);
            }
        }
        match self.slip {
            Some(Slip::IntegratedFromFront) => integrate(Edition::Of2013, q, &x),
            _ => integrate(Edition::Of2018, q, &x),
        }
    }
}

#[cfg(test)]
mod tests;
