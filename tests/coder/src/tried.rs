//! How many positions are tried (02, T-08: tried places), by trying them.

use std::iter::StepBy;
use std::ops::Range;

use crate::balance::weight;
use crate::codeword::{check_symbols, messages_of};
use crate::decode::replaced;
use crate::erasure::erased_positions;
use crate::profile::Profile;

/// The positions that are to be tried in a word of levels. "The two check sums are those of the odd
/// places with δ, held against the received α, and of the even places, held against the received β,
/// both mod q. If the weight is off the middle and exactly one of them disagrees", they are those "of
/// that half of w (odd or even), in rising order". Otherwise there are none.
pub fn half_tried(profile: &Profile, word: &[u8]) -> StepBy<Range<usize>> {
    let (w, received) = word.split_at(profile.m());
    let is_off = weight(w) != profile.balancing_value();
    let sums = check_symbols(profile, w);
    let after_w = profile.m() + 1;
    let positions = match [0, 1].map(|check| sums[check] != received[check]) {
        [true, false] if is_off => 1..after_w,
        [false, true] if is_off => 2..after_w,
        _ => 0..0,
    };
    positions.step_by(2)
}

/// Whether some level at this position makes the word a codeword.
fn fits(profile: &Profile, word: &[u8], position: usize) -> bool {
    (0..profile.q).any(|level| messages_of(profile, &replaced(word, position, level)).is_some())
}

/// "the count is the number of places of that half of w .. up to and including the one found, or all
/// of them if none fits. Otherwise, and for marked words, it is 0."
pub fn positions_tried(profile: &Profile, word: &[u8]) -> usize {
    if !erased_positions(word).is_empty() {
        return 0;
    }
    let mut tried = 0;
    for position in half_tried(profile, word) {
        tried += 1;
        if fits(profile, word, position) {
            break;
        }
    }
    tried
}

/// The same for a word of levels of which it is known where it differs from a codeword, if there is
/// one: nothing is tried.
pub fn tried_up_to(profile: &Profile, word: &[u8], found: Option<usize>) -> usize {
    let last = found.unwrap_or(profile.m());
    half_tried(profile, word).take_while(|&position| position <= last).count()
}
