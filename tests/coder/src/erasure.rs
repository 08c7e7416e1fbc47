//! Erasures (02, T-01: marks): symbols of a received word of which only the position is known.

use crate::decode::replaced;

/// 02: a mark. "The level detector hands over 255 when a symbol falls between two levels".
pub const ERASURE: u8 = 255;

/// "11, more than two marks".
pub const MOST_ERASURES: usize = 2;

/// 02: the marked places, in rising order.
pub fn erased_positions(word: &[u8]) -> Vec<usize> {
    (1..=word.len()).filter(|&position| word[position - 1] == ERASURE).collect()
}

/// The word with these positions erased.
pub fn erased_at(word: &[u8], positions: &[usize]) -> Vec<u8> {
    positions.iter().fold(word.to_vec(), |word, &position| replaced(&word, position, ERASURE))
}
