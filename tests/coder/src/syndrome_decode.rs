//! The reader "that doesn't try places" (02, T-09). What it has to answer is what the search finds: how it
//! gets there is not asked for here.

use crate::decode::{decode, Answer, Decoded};
use crate::refusal::Refusal;

/// An answer of the present reader, its count aside: "Only the count of tried places is not its business."
pub fn without_count(answer: Result<Answer, Refusal>) -> Result<Decoded, Refusal> {
    answer.map(|Answer { decoded, .. }| decoded).map_err(Refusal::without_count)
}

/// "It must agree with the present reader on every input, refusals included, in both editions." A refusal
/// with 4 has the count 0.
pub fn syndrome_decode(
    edition: u8,
    profile: u8,
    word: &[u8],
    first: &mut [u8],
    second: &mut [u8],
) -> Result<Decoded, Refusal> {
    without_count(decode(edition, profile, word, first, second))
}

#[cfg(test)]
mod tests {
    use crate::examples::{DECODED, DECODED_2018, ERASED};
    use crate::refusal::FILLER;
    use crate::text::symbols;

    use super::*;

    /// Words by hand are answered as boxlines prints them, which prints no count, and a refusal has none either.
    #[test]
    fn words_by_hand_are_answered_without_a_count() {
        let of_2013 = DECODED.into_iter().chain(ERASED).map(|case| (13, case));
        for (edition, (word, expected, _)) in of_2013.chain(DECODED_2018.map(|case| (18, case))) {
            let [mut first, mut second] = [(); 2].map(|()| [FILLER; 5]);
            let answer = syndrome_decode(edition, 1, &symbols(word), &mut first, &mut second);
            assert!(!matches!(answer, Err(Refusal::Unreadable { tried: 1.. })));
            let answer = answer.map(|decoded| decoded.answer(&first, &second));
            assert_eq!(answer.unwrap_or_else(|refusal| refusal.to_string()), expected);
        }
    }
}
