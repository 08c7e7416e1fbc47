//! A second decoder, by 002's steps (section IV-B) as 01 corrects them, in which one step can be
//! got wrong on purpose. Without a slip it must answer as the search in `decode` does; with one it
//! shows that a test word tells the right decoder from that near miss. What it does with erasures
//! stands in `near_miss_erasures`, what it says of errors in `near_miss_errors`, of the positions
//! tried in `near_miss_tried`, and what it makes of the editions in `near_miss_editions`.

use crate::balance::weight;
use crate::codeword::Messages;
use crate::component::message_in;
use crate::decode::{replaced, Answer, Decoded, Sent};
use crate::encode::encoded_word;
use crate::line_rule::LineRule;
use crate::profile::Profile;
use crate::refusal::Refusal;

pub use crate::slip::Slip;

/// What the decoder answers to a word of N symbols with this slip, or with none.
pub fn decode(
    profile: &Profile,
    word: &[u8],
    slip: Option<Slip>,
) -> Result<(Answer, Messages), Refusal> {
    let decoder = Decoder { profile, slip };
    let is_taken = |(decoded, messages): &(Decoded, Messages)| {
        !decoder.slips(Slip::EncodedWordOnly)
            || decoded.codeword(word) == encoded_word(profile, LineRule::One, messages)
    };
    let found = decoder.find(word)?.filter(is_taken);
    let tried = decoder.tried(word, found.as_ref().map(|(decoded, _)| decoded));
    let (decoded, messages) = found.ok_or(Refusal::Unreadable { tried })?;
    Ok((Answer { decoded, tried }, messages))
}

/// 002's printed δ, 2(q−1)(2−m) mod q, "which among these profiles agrees for q = 3 only".
pub fn printed_delta(profile: &Profile) -> u8 {
    let (q, m) = (i64::from(profile.q), profile.m() as i64);
    (2 * (q - 1) * (2 - m)).rem_euclid(q) as u8
}

pub(crate) struct Decoder<'a> {
    pub profile: &'a Profile,
    pub slip: Option<Slip>,
}

impl Decoder<'_> {
    pub fn slips(&self, slip: Slip) -> bool {
        self.slip == Some(slip)
    }

    pub fn q(&self) -> i64 {
        i64::from(self.profile.q)
    }

    /// A number mod q.
    pub fn reduce(&self, number: i64) -> u8 {
        number.rem_euclid(self.q()) as u8
    }

    /// Steps 1 and 2: the excess of weight, and how far each check sum is off.
    pub fn decode_levels(&self, word: &[u8]) -> Option<(Decoded, Messages)> {
        let (w, received) = word.split_at(self.profile.m());
        let mut excess = i64::from(weight(w)) - i64::from(self.profile.balancing_value());
        if self.slips(Slip::ExcessReduced) {
            excess %= self.q();
        }
        let off = self.check_sums_off(w, received);
        if excess == 0 {
            self.decode_balanced(word, off)
        } else {
            self.decode_unbalanced(word, excess, off)
        }
    }

    /// 002's γ and γ′, with the received check symbol subtracted ("000 decides").
    pub fn check_sums_off(&self, w: &[u8], received: &[u8]) -> [u8; 2] {
        let delta = if self.slips(Slip::PrintedDelta) {
            printed_delta(self.profile)
        } else {
            self.profile.delta()
        };
        let sign = if self.slips(Slip::CheckSymbolsAdded) { 1 } else { -1 };
        [0, 1].map(|start| {
            let sum: i64 = w.iter().skip(start).step_by(2).map(|&symbol| i64::from(symbol)).sum();
            let added = if start == 0 { i64::from(delta) } else { 0 };
            self.reduce(sum + added + sign * i64::from(received[start]))
        })
    }

    /// A balanced w has no wrong symbol; one wrong check symbol is corrected, "two wrong check
    /// symbols are refused".
    fn decode_balanced(&self, word: &[u8], off: [u8; 2]) -> Option<(Decoded, Messages)> {
        let (w, received) = word.split_at(self.profile.m());
        let corrected = |index: usize| {
            let received = i64::from(received[index]);
            let symbol = self.reduce(received + i64::from(off[index]));
            let sent = Sent { position: w.len() + 1 + index, symbol };
            self.corrected(word, sent, received - i64::from(symbol))
        };
        let decoded = match off {
            [0, 0] => Decoded::CLEAN,
            _ if self.slips(Slip::BalanceIsClean) => Decoded::CLEAN,
            [_, 0] => corrected(0),
            [0, _] => corrected(1),
            _ => return None,
        };
        self.undo(w).map(|messages| (decoded, messages))
    }

    /// Step 3: the positions of the parity whose check sum is off, in rising order.
    fn decode_unbalanced(
        &self,
        word: &[u8],
        excess: i64,
        off: [u8; 2],
    ) -> Option<(Decoded, Messages)> {
        let w = &word[..self.profile.m()];
        let (start, off) = match off {
            [0, 0] => return None,
            [odd, 0] => (1, odd),
            [0, even] => (2, even),
            _ => return None,
        };
        if off != self.reduce(excess) && !self.slips(Slip::CheckSumOffByAny) {
            return None;
        }
        (start..=w.len()).step_by(2).find_map(|position| {
            let symbol = self.remove(w[position - 1], excess)?;
            let corrected = replaced(w, position, symbol);
            let syndromes = self.moved_syndromes(w, &corrected, Slip::CorrectedAsIn2013);
            let messages = self.undo_by(&corrected, syndromes)?;
            Some((self.corrected(word, Sent { position, symbol }, excess), messages))
        })
    }

    /// The symbol less the excess, where it stays within 0 to q−1.
    pub fn remove(&self, symbol: u8, excess: i64) -> Option<u8> {
        let level = i64::from(symbol) - excess;
        let in_range = (0..self.q()).contains(&level);
        (in_range || self.slips(Slip::RemovedModQ)).then(|| self.reduce(level))
    }

    /// Step 4: the messages of the components, if their syndromes are as equation (4) asks.
    pub fn undo(&self, w: &[u8]) -> Option<Messages> {
        self.undo_by(w, self.syndromes(w))
    }

    /// The same with the syndromes given.
    pub fn undo_by(&self, w: &[u8], syndromes: [Vec<u8>; 2]) -> Option<Messages> {
        let [first, second] = syndromes.map(|syndrome| self.added_at(&syndrome));
        let positions = match self.slip {
            Some(Slip::FirstInRange) => [0, 0],
            Some(Slip::FirstComponentOnly) => [first?, 0],
            Some(Slip::SecondComponentOnly) => [0, second?],
            _ => [first?, second?],
        };
        if !positions.contains(&0) && !self.slips(Slip::BothTaken) {
            return None;
        }
        let mut restored = self.components(w);
        for (component, position) in restored.iter_mut().zip(positions) {
            if position > 0 {
                component[position - 1] = self.less_one(component[position - 1]);
            }
        }
        Some(self.answered(restored.map(|component| message_in(self.profile, &component))))
    }

    /// The position whose digits these are.
    pub fn number(&self, digits: &[u8]) -> usize {
        let q = usize::from(self.profile.q);
        digits.iter().fold(0, |number, &digit| number * q + usize::from(digit))
    }

    /// Where a component's syndrome says that 1 was added; 0 if the component is in code.
    pub fn added_at(&self, syndrome: &[u8]) -> Option<usize> {
        let (&last, digits) = syndrome.split_last()?;
        let position = self.number(digits);
        match (position, last) {
            (0, 0) => Some(0),
            (0, 1) if self.slips(Slip::PositionZero) => Some(0),
            (0, _) => None,
            (_, 1) => Some(position),
            _ => self.slips(Slip::LastRowIgnored).then_some(position),
        }
    }
}
