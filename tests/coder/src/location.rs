//! The step of a reader that tries no places (02, T-09): what it is handed, and the place that it has to answer
//! for a word that the search corrects.

use crate::codeword::components_of;
use crate::component::syndrome;
use crate::decode::{decode_word, Answer, Kind, Sent};
use crate::profile::Profile;
use crate::random_words::checks_off;
use crate::tried_words::Half;

/// "it works out a place in w from the two halves' check row sums, the signed fault and which check sum
/// disagrees. The step that does so is handed these, the profile and the edition, and no symbol of the word".
#[derive(Debug, Clone, PartialEq, Eq)]
pub struct Handed {
    /// The check sum that disagrees: that of the odd positions, or that of the even ones.
    pub half: Half,
    /// T-02: received minus sent.
    pub error: i16,
    /// The check row sums of both components, as received.
    pub syndromes: [Vec<u8>; 2],
}

/// The check row sums of both halves of w, which differencing gives as the edition says.
pub fn syndromes(profile: &Profile, w: &[u8]) -> [Vec<u8>; 2] {
    components_of(profile, w).map(|component| syndrome(profile, &component))
}

/// "for every word that the present reader mends in w, its answer is the place mended": what the step is
/// handed for such a word, and the place with the symbol sent there.
pub fn located(profile: &Profile, word: &[u8]) -> Option<(Handed, Sent)> {
    let (Answer { decoded, .. }, _) = decode_word(profile, word).ok()?;
    let Kind::Corrected(sent) = decoded.kind else {
        return None;
    };
    if sent.position > profile.m() {
        return None;
    }
    let half = match checks_off(profile, word) {
        [odd, 0] if odd != 0 => Half::Odd,
        [0, even] if even != 0 => Half::Even,
        off => panic!("place {} of w is mended, and the check sums are off by {off:?}", sent.position),
    };
    let syndromes = syndromes(profile, &word[..profile.m()]);
    Some((Handed { half, error: decoded.error, syndromes }, sent))
}
