//! Decoding of words with erasures (02, T-01: marks), in O(m·r + q·r): all sums are formed once, with
//! 0 at the erasures, and moved for each filling of w that balances it.

use coder::decode::{Answer, Decoded, Kind, Sent};
use coder::erasure::ERASURE;
use coder::refusal::{require, Refusal};

use crate::code::{highest_received, Code, MAX_M};
use crate::decode::{Added, Syndromes, UNREADABLE};

/// The indices of the erased symbols, one or two, rising.
struct Erased {
    one: usize,
    other: Option<usize>,
}

/// The sums of w at odd and at even positions, and its syndromes.
struct Sums {
    parity: [i16; 2],
    syndromes: Syndromes,
}

/// What was sent in place of the erasures of w, at their indices; α and β; and what the components
/// then are.
struct Filling {
    levels: [(usize, i16); 2],
    checks: [i16; 2],
    added: Added,
}

impl<const Q: usize, const R: usize, const N: usize, const EDITION: u64> Code<Q, R, N, EDITION> {
    /// Decodes a word of the right length that has symbols which are no levels. Refusals 3, 11 and
    /// 4, in this order.
    #[inline(never)]
    pub(crate) fn decode_erased(
        word: &[u8],
        first: &mut [u8],
        second: &mut [u8],
    ) -> Result<Answer, Refusal> {
        require(highest_received(word) <= Q as u8, Refusal::Symbol)?;
        let erased = Erased::of(word).ok_or(Refusal::Erasures)?;
        let mut w = Self::symbols(word, |byte| if byte == ERASURE { 0 } else { byte });
        let sums = Sums { parity: Self::parity_sums(&w), syndromes: Self::syndromes(&w) };
        let filling = Self::fill(&sums, word, &erased).ok_or(UNREADABLE)?;
        for (index, level) in filling.levels {
            w[index] += level;
        }
        Self::write_messages(&w, filling.added, first, second);
        let sent = |index: usize| {
            let symbol = if index < Self::M { w[index] } else { filling.checks[index - Self::M] };
            Sent { position: index + 1, symbol: symbol as u8 }
        };
        let kind = Kind::Filled(sent(erased.one), erased.other.map(sent));
        Ok(Answer { decoded: Decoded { kind, error: 0 }, tried: 0 })
    }

    /// The filling of w that makes the word a codeword. What the weight lacks is one erasure's
    /// level, or that of two, of which the first has every level that leaves the second one.
    fn fill(sums: &Sums, word: &[u8], erased: &Erased) -> Option<Filling> {
        let lack = Self::BALANCING_VALUE - sums.parity[0] - sums.parity[1];
        let highest = Q as i16 - 1;
        let (one, other) = (erased.one, erased.other.unwrap_or(Self::M));
        if one >= Self::M {
            return if lack == 0 { Self::test(sums, word, [(0, 0); 2]) } else { None };
        }
        if other >= Self::M {
            let in_range = (0..=highest).contains(&lack);
            return if in_range { Self::test(sums, word, [(one, lack), (0, 0)]) } else { None };
        }
        (0.max(lack - highest)..=highest.min(lack))
            .find_map(|level| Self::test(sums, word, [(one, level), (other, lack - level)]))
    }

    /// The filling with these levels added at two indices of w, if it agrees with the check symbols
    /// that are not erased, and its components are those of a codeword.
    #[inline]
    fn test(sums: &Sums, word: &[u8], levels: [(usize, i16); 2]) -> Option<Filling> {
        let mut parity = sums.parity;
        for (index, level) in levels {
            parity[index % 2] += level;
        }
        let checks = [Self::mod_q(parity[0] + Self::DELTA), Self::mod_q(parity[1])];
        let agrees = |check: usize| {
            let received = word[Self::M + check];
            received == ERASURE || i16::from(received) == checks[check]
        };
        if !(agrees(0) && agrees(1)) {
            return None;
        }
        let moved = levels.iter().fold(sums.syndromes, |syndromes, &(index, level)| {
            Self::moved(&syndromes, index, -level)
        });
        Some(Filling { levels, checks, added: Self::added(&moved)? })
    }
}

/// The numbers from 0 on, to look at several indices at once.
static INDICES: [u8; MAX_M] = {
    let mut indices = [0; MAX_M];
    let mut index = 0;
    while index < MAX_M {
        indices[index] = index as u8;
        index += 1;
    }
    indices
};

impl Erased {
    /// Those of a word that has erasures; none if it has more than two.
    #[inline]
    fn of(word: &[u8]) -> Option<Erased> {
        let (mut count, mut one, mut other) = (0, u8::MAX, 0);
        for (&symbol, &index) in word.iter().zip(&INDICES) {
            let is_erased = symbol == ERASURE;
            count += u8::from(is_erased);
            one = one.min(if is_erased { index } else { u8::MAX });
            other = other.max(if is_erased { index } else { 0 });
        }
        let other = (count > 1).then_some(usize::from(other));
        (count <= 2).then_some(Erased { one: usize::from(one), other })
    }
}
