//! What the second decoder answers of the error (02, T-02: received minus sent). In w it is what the
//! weight is off by, at a check symbol the difference itself, and a filled word has none.

use crate::decode::{Decoded, Kind, Sent};
use crate::near_miss::Decoder;
use crate::near_miss_erasures::with_zeros;
use crate::random_words::excess;
use crate::slip::Slip;

impl Decoder<'_> {
    /// The answer to a word in which one symbol is wrong, and by how much.
    pub fn corrected(&self, word: &[u8], sent: Sent, error: i64) -> Decoded {
        let symbol = i64::from(sent.symbol);
        let is_check = sent.position > self.profile.m();
        let answered = match self.slip {
            Some(Slip::ErrorSignTurned) => -error,
            Some(Slip::ErrorSizeAlone) => error.abs(),
            Some(Slip::ErrorReduced) => error.rem_euclid(self.q()),
            Some(Slip::ErrorByteUnsigned) => error.rem_euclid(256),
            Some(Slip::ErrorIsSymbolSent) => symbol,
            Some(Slip::ErrorOfNextPosition) => {
                word.get(sent.position).map_or(error, |&next| i64::from(next) - symbol)
            }
            Some(Slip::CheckErrorZero) if is_check => 0,
            Some(Slip::CheckErrorIsSumOff) if is_check => (-error).rem_euclid(self.q()),
            Some(Slip::ErrorOfComplement) if self.is_2018() => {
                self.error_of_complement(sent, error)
            }
            _ => error,
        };
        Decoded { kind: Kind::Corrected(sent), error: answered as i16 }
    }

    /// What a filled word carries.
    pub fn error_of_filled(&self, filled: &[u8], erased: &[usize]) -> i16 {
        if !self.slips(Slip::FilledCarriesError) {
            return 0;
        }
        let cleared = with_zeros(filled, erased);
        excess(self.profile, &cleared[..self.profile.m()]) as i16
    }
}
