//! Decoding (01: read), in O(m·r): both syndromes are formed once, and moved for each position
//! that may hold the wrong symbol.

use coder::decode::{Answer, Decoded, Kind, Sent};
use coder::refusal::{require, Refusal};

use crate::code::{dot, Code, Symbols, MAX_M, MAX_R};
use crate::for_profile;

/// The rows of the first component's syndrome, then those of the second's, each mod q.
pub(crate) type Syndromes = [i16; 2 * MAX_R];

/// For each component, the position from which 1 is to be taken, or 0 if it is in code.
pub(crate) type Added = [usize; 2];

/// The index of a wrong symbol, what was sent there, the error (received minus sent), and how many
/// positions were tried for it.
struct Correction {
    index: usize,
    symbol: u8,
    error: i16,
    tried: usize,
}

/// The correction, if a symbol is wrong, and what the components then are.
type Found = (Option<Correction>, Added);

/// No codeword is near, and no position was tried.
pub(crate) const UNREADABLE: Refusal = Refusal::Unreadable { tried: 0 };

/// Decodes a received word. Refusals 12, 1, 2, 3, 11 and 4, in this order.
pub fn decode(
    edition: u64,
    profile: u64,
    word: &[u8],
    first: &mut [u8],
    second: &mut [u8],
) -> Result<Answer, Refusal> {
    for_profile!(edition, profile, decode(word, first, second))
}

impl<const Q: usize, const R: usize, const N: usize, const EDITION: u64> Code<Q, R, N, EDITION> {
    pub(crate) fn decode(
        word: &[u8],
        first: &mut [u8],
        second: &mut [u8],
    ) -> Result<Answer, Refusal> {
        require(word.len() == Self::LENGTH, Refusal::Length)?;
        require(first.len() == Self::K && second.len() == Self::K, Refusal::Length)?;
        if !Self::has_symbols(word) {
            return Self::decode_erased(word, first, second);
        }
        let mut w = Self::symbols(word, |byte| byte);
        let (correction, added) = Self::find(&w, word)?;
        if let Some(Correction { index, symbol, .. }) = correction {
            if index < Self::M {
                w[index] = i16::from(symbol);
            }
        }
        Self::write_messages(&w, added, first, second);
        Ok(match correction {
            None => Answer { decoded: Decoded::CLEAN, tried: 0 },
            Some(Correction { index, symbol, error, tried }) => {
                let kind = Kind::Corrected(Sent { position: index + 1, symbol });
                Answer { decoded: Decoded { kind, error }, tried }
            }
        })
    }

    // What must be inlined here has two callers, and a call costs a clean word a tenth of its time.

    /// The symbols of w, each of them as `level` has it.
    #[inline(always)]
    pub(crate) fn symbols(word: &[u8], level: impl Fn(u8) -> u8) -> Symbols {
        let mut w = [0; MAX_M];
        for (symbol, &byte) in w.iter_mut().zip(&word[..Self::M]) {
            *symbol = i16::from(level(byte));
        }
        w
    }

    /// Where the word differs from a codeword, and what its components then are.
    fn find(w: &Symbols, word: &[u8]) -> Result<Found, Refusal> {
        let [odd, even] = Self::parity_sums(w);
        let off = [(odd + Self::DELTA, Self::M), (even, Self::M + 1)]
            .map(|(sum, check)| Self::mod_q(sum + Q as i16 - i16::from(word[check])));
        let syndromes = Self::syndromes(w);
        match (odd + even - Self::BALANCING_VALUE, off) {
            (0, [0, 0]) => Ok((None, Self::added(&syndromes).ok_or(UNREADABLE)?)),
            (0, [_, 0]) => Self::wrong_check(word, 0, off, &syndromes).ok_or(UNREADABLE),
            (0, [0, _]) => Self::wrong_check(word, 1, off, &syndromes).ok_or(UNREADABLE),
            (_, [0, 0]) => Err(UNREADABLE),
            (excess, [by, 0]) => Self::wrong_symbol(w, 0, excess, by, &syndromes)
                .ok_or(Refusal::Unreadable { tried: N + 1 }),
            (excess, [0, by]) => Self::wrong_symbol(w, 1, excess, by, &syndromes)
                .ok_or(Refusal::Unreadable { tried: N }),
            _ => Err(UNREADABLE),
        }
    }

    #[inline(always)]
    pub(crate) fn syndromes(w: &Symbols) -> Syndromes {
        let mut syndromes = [0; 2 * MAX_R];
        for (row, entries) in syndromes.iter_mut().zip(&Self::SYNDROME_ROWS[..2 * R]) {
            *row = dot(&entries[..Self::PADDED_M], &w[..Self::PADDED_M]).rem_euclid(Q as i16);
        }
        syndromes
    }

    /// w is balanced, and one check symbol (0 for α, 1 for β) disagrees with it.
    fn wrong_check(
        word: &[u8],
        check: usize,
        off: [i16; 2],
        syndromes: &Syndromes,
    ) -> Option<Found> {
        let index = Self::M + check;
        let received = i16::from(word[index]);
        let symbol = Self::mod_q(received + off[check]);
        let error = received - symbol;
        let correction = Correction { index, symbol: symbol as u8, error, tried: 0 };
        Some((Some(correction), Self::added(syndromes)?))
    }

    /// w is off balance by `excess`, and only the check sum of the indices `start`, `start` + 2, ..
    /// disagrees, by `off`: one of their symbols is wrong by the excess.
    fn wrong_symbol(
        w: &Symbols,
        start: usize,
        excess: i16,
        off: i16,
        syndromes: &Syndromes,
    ) -> Option<Found> {
        if excess.abs() >= Q as i16 || Self::reduce(excess) != off {
            return None;
        }
        (start..Self::M).step_by(2).find_map(|index| {
            let level = w[index] - excess;
            if !(0..Q as i16).contains(&level) {
                return None;
            }
            let added = Self::added(&Self::moved(syndromes, index, excess))?;
            let tried = index / 2 + 1;
            Some((Some(Correction { index, symbol: level as u8, error: excess, tried }), added))
        })
    }

    /// The syndromes of w with `excess` taken from the symbol at an index.
    #[inline]
    pub(crate) fn moved(syndromes: &Syndromes, index: usize, excess: i16) -> Syndromes {
        let mut moved = [0; 2 * MAX_R];
        for row in 0..2 * R {
            moved[row] = Self::reduce(syndromes[row] - excess * Self::SYNDROME_COLUMNS[index][row]);
        }
        moved
    }

    /// The columns of SYNDROME_ROWS.
    const SYNDROME_COLUMNS: &'static [Syndromes; MAX_M] = &{
        let mut columns = [[0; 2 * MAX_R]; MAX_M];
        let mut index = 0;
        while index < Self::M {
            let mut row = 0;
            while row < 2 * R {
                columns[index][row] = Self::SYNDROME_ROWS[row][index];
                row += 1;
            }
            index += 1;
        }
        columns
    };

    /// Where 1 was added, if the components are those of a codeword.
    #[inline]
    pub(crate) fn added(syndromes: &Syndromes) -> Option<Added> {
        let first = Self::added_at(&syndromes[..R])?;
        let second = Self::added_at(&syndromes[R..2 * R])?;
        (first == 0 || second == 0).then_some([first, second])
    }

    /// The position whose column the syndrome is, or 0 for a syndrome of zeros.
    #[inline]
    fn added_at(syndrome: &[i16]) -> Option<usize> {
        let digits = syndrome[..R - 1].iter().rev();
        let position = digits.fold(0, |number, &digit| number * Q + digit as usize);
        let in_code = position == 0 && syndrome[R - 1] == 0;
        let is_column = (1..=N).contains(&position) && syndrome[R - 1] == 1;
        (in_code || is_column).then_some(position)
    }

    /// Differences w, takes 1 where it was added, and copies the message positions out. In either edition
    /// the symbols of x that are kept stand from index 1 on.
    #[inline(always)]
    pub(crate) fn write_messages(w: &Symbols, added: Added, first: &mut [u8], second: &mut [u8]) {
        let mut x = [0u8; MAX_M];
        for index in 1..Self::M {
            let step = w[index] - w[index - 1];
            let difference = (if Self::FROM_END { Q as i16 - step } else { Q as i16 + step }) as u8;
            x[index] = difference.min(difference.wrapping_sub(Q as u8));
        }
        for (component, position) in added.into_iter().enumerate() {
            if position > 0 {
                let symbol = &mut x[2 * position - 1 + component];
                *symbol = if *symbol == 0 { Q as u8 - 1 } else { *symbol - 1 };
            }
        }
        let messages = first.iter_mut().zip(second);
        for ((first, second), &position) in messages.zip(&Self::MESSAGE_POSITIONS[..Self::K]) {
            *first = x[2 * position - 1];
            *second = x[2 * position];
        }
    }
}
