//! Decoding (01: read), by looking at the received word and at all its neighbours or, where it has
//! erasures (02, T-01: marks), at all its fillings.

use crate::codeword::{messages_of, Messages};
use crate::edition::Edition;
use crate::erasure::{erased_positions, MOST_ERASURES};
use crate::fillings::fillings;
use crate::profile::Profile;
use crate::refusal::{require, Refusal};
use crate::text::{digits, signed};
use crate::tried::positions_tried;

/// A position, and the symbol sent there.
#[derive(Debug, Clone, Copy, PartialEq, Eq)]
pub struct Sent {
    pub position: usize,
    pub symbol: u8,
}

/// "a kind (clean or mended), the place (0 if clean) and the symbol sent there (0 if clean)".
#[derive(Debug, Clone, Copy, PartialEq, Eq)]
pub enum Kind {
    Clean,
    /// 01: mended.
    Corrected(Sent),
    /// T-01: "The kind is F, followed for each marked place, in rising order, by the place and the
    /// symbol sent." There are one or two.
    Filled(Sent, Option<Sent>),
}

/// What is answered to a word that is read, besides its pair and the count.
#[derive(Debug, Clone, Copy, PartialEq, Eq)]
pub struct Decoded {
    pub kind: Kind,
    /// T-02: "received minus sent as a signed number, from −(q−1) to q−1 and never 0, for check
    /// symbols as well. Clean and filled words carry 0."
    pub error: i16,
}

/// The same with T-08's count: "the reader shall report tried places".
#[derive(Debug, Clone, Copy, PartialEq, Eq)]
pub struct Answer {
    pub decoded: Decoded,
    pub tried: usize,
}

impl Decoded {
    pub const CLEAN: Decoded = Decoded { kind: Kind::Clean, error: 0 };

    /// A word that has another symbol at one position than the codeword sent.
    pub fn corrected(sent: Sent, received: u8) -> Decoded {
        let error = i16::from(received) - i16::from(sent.symbol);
        Decoded { kind: Kind::Corrected(sent), error }
    }

    /// A word with these erased positions, of which this codeword was sent.
    pub fn filled(codeword: &[u8], erased: &[usize]) -> Decoded {
        let sent = |&position: &usize| Sent { position, symbol: codeword[position - 1] };
        Decoded { kind: Kind::Filled(sent(&erased[0]), erased.get(1).map(sent)), error: 0 }
    }

    /// Where the codeword has another symbol than the received word, in rising order.
    pub fn sent(self) -> impl Iterator<Item = Sent> {
        let (one, other) = match self.kind {
            Kind::Clean => (None, None),
            Kind::Corrected(sent) => (Some(sent), None),
            Kind::Filled(one, other) => (Some(one), other),
        };
        one.into_iter().chain(other)
    }

    /// The codeword that was found for this word.
    pub fn codeword(self, word: &[u8]) -> Vec<u8> {
        self.sent().fold(word.to_vec(), |word, sent| replaced(&word, sent.position, sent.symbol))
    }

    /// "kind C or M, place, sent symbol, first word, second word (the digits of a word run
    /// together), single spaces between"; T-01 has kind F with one or two places. T-02: "prints the
    /// number after the symbol sent .. a filled word prints it after its last symbol".
    pub fn answer(self, first: &[u8], second: &[u8]) -> String {
        let kind = match self.kind {
            Kind::Clean => "C 0 0",
            Kind::Corrected(_) => "M",
            Kind::Filled(..) => "F",
        };
        let sent = self.sent().map(|sent| format!(" {} {}", sent.position, sent.symbol));
        let sent: String = sent.collect();
        format!("{kind}{sent} {} {} {}", signed(self.error), digits(first), digits(second))
    }
}

/// The word with the symbol at a position replaced.
pub fn replaced(word: &[u8], position: usize, symbol: u8) -> Vec<u8> {
    let mut word = word.to_vec();
    word[position - 1] = symbol;
    word
}

/// Every word that "differs from the received word in at most one place", the word itself first.
pub fn within_one<'a>(
    profile: &'a Profile,
    word: &'a [u8],
) -> impl Iterator<Item = (Decoded, Vec<u8>)> + 'a {
    let neighbours = (1..=word.len()).flat_map(move |position| {
        let others = (0..profile.q).filter(move |&symbol| symbol != word[position - 1]);
        others.map(move |symbol| {
            let decoded = Decoded::corrected(Sent { position, symbol }, word[position - 1]);
            (decoded, replaced(word, position, symbol))
        })
    });
    [(Decoded::CLEAN, word.to_vec())].into_iter().chain(neighbours)
}

/// The pair of the one candidate that is a codeword, and how it was found. Both texts speak of one
/// such word; a second one would be a fault.
fn only_codeword(
    profile: &Profile,
    candidates: impl Iterator<Item = (Decoded, Vec<u8>)>,
) -> Option<(Decoded, Messages)> {
    let mut found = candidates.filter_map(|(decoded, sent)| {
        messages_of(profile, &sent).map(|messages| (decoded, messages))
    });
    let answer = found.next();
    let other = found.next();
    assert!(other.is_none(), "two codewords for one received word: {answer:?}, {other:?}");
    answer
}

/// "if a lawful word differs from the received word in at most one place, the answer is its pair"
/// and how it was found. T-01: "A word with one or two marks is read if some lawful word agrees
/// with it at every unmarked place, and that word is then the only one. .. in a marked word no
/// unmarked symbol is ever mended."
pub fn search(profile: &Profile, word: &[u8]) -> Option<(Decoded, Messages)> {
    let erased = erased_positions(word);
    if erased.is_empty() {
        return only_codeword(profile, within_one(profile, word));
    }
    let agreeing = fillings(profile.q, word, &erased);
    only_codeword(profile, agreeing.map(|sent| (Decoded::filled(&sent, &erased), sent)))
}

/// Decodes a word of N symbols: "3 if a symbol is not below q" and no mark, "11, more than two marks,
/// after 3 and before 4", 4 if nothing is found. The count is not the search's: it is made by trying.
pub fn decode_word(profile: &Profile, word: &[u8]) -> Result<(Answer, Messages), Refusal> {
    profile.require_received(word)?;
    require(erased_positions(word).len() <= MOST_ERASURES, Refusal::Erasures)?;
    let tried = positions_tried(profile, word);
    let (decoded, messages) = search(profile, word).ok_or(Refusal::Unreadable { tried })?;
    Ok((Answer { decoded, tried }, messages))
}

/// "Read. 1 as above; 2 if the word is not N long or either output not k", then 3, 11 and 4. T-03: "12,
/// edition neither 13 nor 18, before 1."
pub fn decode(
    edition: u8,
    profile: u8,
    word: &[u8],
    first: &mut [u8],
    second: &mut [u8],
) -> Result<Answer, Refusal> {
    let profile = Profile::of(Edition::lookup(edition)?, profile)?;
    require(word.len() == profile.word_length(), Refusal::Length)?;
    require(first.len() == profile.k(), Refusal::Length)?;
    require(second.len() == profile.k(), Refusal::Length)?;
    let (answer, messages) = decode_word(profile, word)?;
    first.copy_from_slice(&messages[0]);
    second.copy_from_slice(&messages[1]);
    Ok(answer)
}
