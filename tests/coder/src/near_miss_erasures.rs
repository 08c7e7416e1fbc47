//! What the second decoder does with erasures (02, T-01: marks). With levels at the others, an
//! erasure in w has to be what the weight lacks, and an erased check symbol what w asks for: so one
//! filling is left, or with two erasures one for each level of the first. Each is tested as a
//! word of levels is.

use crate::codeword::{check_symbols, messages_of, Messages};
use crate::component::message_in;
use crate::decode::{replaced, Decoded, Kind};
use crate::erasure::{erased_positions, MOST_ERASURES};
use crate::fillings::fillings;
use crate::near_miss::Decoder;
use crate::random_words::excess;
use crate::refusal::Refusal;
use crate::slip::Slip;

/// The most erasures that a slip fills; more would have too many fillings.
const MOST_FILLED: usize = 4;

/// The word with 0 at its erased positions.
pub(crate) fn with_zeros(word: &[u8], erased: &[usize]) -> Vec<u8> {
    erased.iter().fold(word.to_vec(), |word, &position| replaced(&word, position, 0))
}

impl Decoder<'_> {
    /// Numbers 3 and 11, or the pair and how it was found, if there is one.
    pub fn find(&self, word: &[u8]) -> Result<Option<(Decoded, Messages)>, Refusal> {
        let erased = erased_positions(word);
        self.require_symbols(word, &erased)?;
        match erased.len() {
            0 => Ok(self.decode_levels(word)),
            1..=MOST_ERASURES => Ok(self.fill(word, &erased)),
            _ => self.fill_many(word, &erased),
        }
    }

    fn require_symbols(&self, word: &[u8], erased: &[usize]) -> Result<(), Refusal> {
        match self.slip {
            Some(Slip::ErasuresBeforeSymbols) if erased.len() > MOST_ERASURES => {
                Err(Refusal::Erasures)
            }
            Some(Slip::ErasureSpoils) => self.profile.require_levels(word),
            _ => self.profile.require_received(word),
        }
    }

    /// The pair of the filling that is a codeword, for one or two erasures.
    fn fill(&self, word: &[u8], erased: &[usize]) -> Option<(Decoded, Messages)> {
        match self.slip {
            Some(Slip::ErasureIsZero) => return self.decode_levels(&with_zeros(word, erased)),
            Some(Slip::UnerasedCorrected) => return self.fill_and_correct(word, erased),
            _ => (),
        }
        let most = if self.slips(Slip::OneFillingTried) { 1 } else { usize::MAX };
        let mut tried = self.wanted_fillings(word, erased);
        tried.retain(|filled| self.has_sums(filled, erased));
        let cleared = with_zeros(word, erased);
        tried.iter().take(most).find_map(|filled| {
            let [cleared, w] = [&cleared, filled].map(|word| &word[..self.profile.m()]);
            let messages = self.messages(cleared, w)?;
            Some((self.report(filled, erased), messages))
        })
    }

    /// The first filling that decodes as a word without erasures does, corrections included.
    fn fill_and_correct(&self, word: &[u8], erased: &[usize]) -> Option<(Decoded, Messages)> {
        fillings(self.profile.q, word, erased).find_map(|filled| {
            let (decoded, messages) = self.decode_levels(&filled)?;
            Some((Decoded::filled(&decoded.codeword(&filled), erased), messages))
        })
    }

    /// Every filling in which the last erased position has what the others make it want.
    fn wanted_fillings(&self, word: &[u8], erased: &[usize]) -> Vec<Vec<u8>> {
        let Some((&last, others)) = erased.split_last() else {
            return Vec::new();
        };
        fillings(self.profile.q, &replaced(word, last, 0), others)
            .filter_map(|word| Some(replaced(&word, last, self.wanted(&word, last)?)))
            .collect()
    }

    /// What a position wants that holds 0, where all positions before it hold levels.
    fn wanted(&self, word: &[u8], position: usize) -> Option<u8> {
        let w = &word[..self.profile.m()];
        if position > w.len() {
            return Some(check_symbols(self.profile, w)[position - w.len() - 1]);
        }
        let lack = -excess(self.profile, w);
        let in_range = (0..self.q()).contains(&lack);
        (in_range || self.slips(Slip::LackReduced)).then(|| self.reduce(lack))
    }

    /// Whether a filled word has the right weight and check symbols.
    fn has_sums(&self, filled: &[u8], erased: &[usize]) -> bool {
        let (w, received) = filled.split_at(self.profile.m());
        let checks_erased = erased.iter().filter(|&&position| position > w.len()).count();
        let excess = excess(self.profile, w);
        let is_balanced = match self.slip {
            Some(Slip::LackReduced) => excess % self.q() == 0,
            Some(Slip::BalanceUntested) if checks_erased == 2 => true,
            _ => excess == 0,
        };
        let is_untested = match self.slip {
            Some(Slip::OtherCheckUntested) => checks_erased == 1,
            Some(Slip::CheckSymbolsUntested) => checks_erased == 0,
            _ => false,
        };
        is_balanced && (is_untested || received == check_symbols(self.profile, w))
    }

    /// The messages of w's components; their syndromes are those with 0 at the erasures, moved.
    fn messages(&self, cleared: &[u8], w: &[u8]) -> Option<Messages> {
        let untested = || {
            let components = self.components(w);
            components.map(|component| message_in(self.profile, &component))
        };
        let syndromes = self.moved_syndromes(cleared, w, Slip::FilledAsIn2013);
        let messages = self.undo_by(w, syndromes);
        messages.or_else(|| self.slips(Slip::ComponentsUntested).then(untested))
    }

    /// The positions and symbols that are answered, and the error.
    fn report(&self, filled: &[u8], erased: &[usize]) -> Decoded {
        let kind = match (Decoded::filled(filled, erased).kind, self.slip) {
            (Kind::Filled(one, _), Some(Slip::FirstReported)) => Kind::Filled(one, None),
            (Kind::Filled(one, Some(other)), Some(Slip::FallingOrder)) => {
                Kind::Filled(other, Some(one))
            }
            (right, _) => right,
        };
        Decoded { kind, error: self.error_of_filled(filled, erased) }
    }

    /// More than two erasures: number 11, but for slips.
    fn fill_many(
        &self,
        word: &[u8],
        erased: &[usize],
    ) -> Result<Option<(Decoded, Messages)>, Refusal> {
        let filled = || {
            let few = erased.len() <= MOST_FILLED;
            few.then(|| fillings(self.profile.q, word, erased))?.find_map(|filled| {
                let messages = messages_of(self.profile, &filled)?;
                Some((Decoded::filled(&filled, erased), messages))
            })
        };
        match self.slip {
            Some(Slip::UnreadableBeforeErasures) if filled().is_none() => Ok(None),
            Some(Slip::ManyFilled) => filled().ok_or(Refusal::Erasures).map(Some),
            Some(Slip::ThreeAllowed) if erased.len() == 3 => Ok(filled()),
            _ => Err(Refusal::Erasures),
        }
    }
}
