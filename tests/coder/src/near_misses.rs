//! Received words that a near miss of a decoder gets wrong, by name. Each is looked for: words are
//! built at random in the way its row says until the slip answers one of them differently.

use crate::codeword::with_check_symbols;
use crate::decode::decode_word;
use crate::edition::Edition;
use crate::erased_words::{
    both_checks, erased, like_parity, one_check_changed, one_check_erased, one_of_w,
    spoiled_and_erased, with_erasures, with_erasures_at,
};
use crate::examples::POSITION_ZERO_W;
use crate::near_miss::{self, Slip};
use crate::profile::Profile;
use crate::random_words::{
    both_check_symbols, by_another_choice, codeword, one_check_symbol, Build,
};
use crate::rng::Rng;
use crate::text::symbols;
use crate::tried_words::{
    both_off, neither_off, none_fits, off_by_other, off_from_q, one_of_w_changed, Half,
};

use crate::near_miss_words::*;

/// A slip, whether the right decoder decodes the words that tell it or refuses them, how they are
/// built, and what they are called.
pub struct NearMiss {
    pub slip: Slip,
    decodes: bool,
    build: Build,
    pub name: &'static str,
}

const fn decodes(slip: Slip, build: Build, name: &'static str) -> NearMiss {
    NearMiss { slip, decodes: true, build, name }
}

const fn refuses(slip: Slip, build: Build, name: &'static str) -> NearMiss {
    NearMiss { slip, decodes: false, build, name }
}

#[rustfmt::skip]
pub const NEAR_MISSES: [NearMiss; 13] = [
    refuses(Slip::ExcessReduced, |profile, rng| off_balance(profile, rng, true),
        "weight off by q or more, and one check sum off"),
    refuses(Slip::CheckSumOffByAny, symbol_and_its_check,
        "check sum off by something other than the weight's excess mod q"),
    refuses(Slip::PositionZero, position_zero,
        "syndrome of zeros with a last 1"),
    refuses(Slip::BalanceIsClean, both_check_symbols,
        "both check symbols wrong on a balanced word"),
    decodes(Slip::FirstInRange, one_changed,
        "the first position in range is not the right one"),
    decodes(Slip::EncodedWordOnly, by_another_choice,
        "codeword by a choice that the encoder does not make"),
    refuses(Slip::RemovedModQ, |profile, rng| off_balance(profile, rng, false),
        "error that would be accepted if removed mod q"),
    refuses(Slip::FirstComponentOnly, |profile, rng| one_random(profile, rng, 1),
        "decodes if only the first component is tested"),
    refuses(Slip::SecondComponentOnly, |profile, rng| one_random(profile, rng, 0),
        "decodes if only the second component is tested"),
    refuses(Slip::BothTaken, one_added_to_both,
        "both components have a 1 to be taken"),
    refuses(Slip::LastRowIgnored, more_than_one_added,
        "component with more than 1 added at one position"),
    decodes(Slip::PrintedDelta, alpha_by_printed_delta,
        "alpha by the printed delta, which is right for q = 3"),
    decodes(Slip::CheckSymbolsAdded, |profile, rng| Some(codeword(profile, rng)),
        "codeword whose check symbols must be subtracted, not added"),
];

/// Those of T-01, the request for erasures.
#[rustfmt::skip]
pub const ERASURE_NEAR_MISSES: [NearMiss; 15] = [
    decodes(Slip::ErasureSpoils, |profile, rng| Some(with_erasures(profile, [1, 0], rng)),
        "codeword with one erasure, which 01 alone refuses with 3"),
    decodes(Slip::ErasureIsZero, |profile, rng| Some(with_erasures(profile, [2, 0], rng)),
        "codeword with two erasures, which are not two zeros"),
    refuses(Slip::UnerasedCorrected, |profile, rng| {
        let erasures = rng.from_one_to(2);
        Some(with_erasures(profile, [erasures, 1], rng))
    }, "one or two erasures and another symbol wrong, which would have to be corrected"),
    refuses(Slip::LackReduced, |profile, rng| off_balance_erased(profile, rng, one_of_w),
        "erasure that would be filled if what the weight lacks were reduced mod q"),
    decodes(Slip::ComponentsUntested, |profile, rng| Some(with_erasures_at(profile, like_parity, rng)),
        "two erasures of like parity, of which the components know more than the sums"),
    decodes(Slip::OneFillingTried, |profile, rng| Some(with_erasures_at(profile, like_parity, rng)),
        "two erasures of like parity, and the first filling with right sums is not the one"),
    refuses(Slip::OtherCheckUntested, |profile, rng| of_codeword(profile, rng, one_check_erased),
        "one check symbol erased and the other wrong"),
    refuses(Slip::CheckSymbolsUntested, |profile, rng| of_codeword(profile, rng, one_check_changed),
        "an erasure in w and a wrong check symbol"),
    refuses(Slip::BalanceUntested, |profile, rng| off_balance_erased(profile, rng, both_checks),
        "both check symbols erased on a word that is not balanced"),
    decodes(Slip::FirstReported, |profile, rng| Some(with_erasures(profile, [2, 0], rng)),
        "two erasures, of which both are reported"),
    decodes(Slip::FallingOrder, |profile, rng| Some(with_erasures(profile, [2, 0], rng)),
        "two erasures, the first reported first"),
    refuses(Slip::ErasuresBeforeSymbols, |profile, rng| {
        of_codeword(profile, rng, |profile, word, rng| spoiled_and_erased(profile, word, 3, rng))
    }, "three erasures and a symbol out of range, which counts"),
    refuses(Slip::UnreadableBeforeErasures, |profile, rng| {
        Some(erased(&rng.word(profile.q, profile.word_length()), 3, rng))
    }, "three erasures in noise that no filling makes a codeword"),
    refuses(Slip::ManyFilled, |profile, rng| Some(with_erasures(profile, [4, 0], rng)),
        "codeword with four erasures"),
    refuses(Slip::ThreeAllowed, |profile, rng| Some(with_erasures(profile, [3, 0], rng)),
        "codeword with three erasures"),
];

/// Those of T-02, the request for the error.
#[rustfmt::skip]
pub const ERROR_NEAR_MISSES: [NearMiss; 9] = [
    decodes(Slip::ErrorSignTurned, one_changed,
        "one symbol wrong: the error is received minus sent"),
    decodes(Slip::ErrorSizeAlone, one_changed,
        "one symbol too low: the error is below 0"),
    decodes(Slip::ErrorReduced, one_changed,
        "one symbol too low: the error is below 0, and no remainder"),
    decodes(Slip::ErrorByteUnsigned, one_changed,
        "one symbol too low: the error is below 0, in a byte too"),
    decodes(Slip::ErrorIsSymbolSent, one_changed,
        "one symbol wrong by another number than the symbol sent"),
    decodes(Slip::ErrorOfNextPosition, one_changed,
        "one symbol wrong, and the next one has another level"),
    decodes(Slip::CheckErrorZero, one_check_symbol,
        "one check symbol wrong, of which the weight knows nothing"),
    decodes(Slip::CheckErrorIsSumOff, one_check_symbol,
        "one check symbol wrong: the error is not what its check sum is off by"),
    decodes(Slip::FilledCarriesError, |profile, rng| Some(with_erasures(profile, [2, 0], rng)),
        "codeword with two erasures, which carries 0"),
];

/// Those of T-08, the request for the count of positions tried.
#[rustfmt::skip]
pub const TRIED_NEAR_MISSES: [NearMiss; 15] = [
    decodes(Slip::TriedBeforeFound, one_of_w_changed,
        "one symbol of w wrong: it is counted too"),
    decodes(Slip::TriedWholeHalf, one_of_w_changed,
        "one symbol of w wrong: none after it is counted"),
    decodes(Slip::TriedInBothHalves, one_of_w_changed,
        "one symbol of w wrong: none of the other half is counted"),
    decodes(Slip::TriedInRange, one_of_w_changed,
        "one symbol of w wrong: one before it is counted that cannot be wrong by as much"),
    decodes(Slip::TriedFalling, one_of_w_changed,
        "one symbol of w wrong: the lowest position is counted first"),
    refuses(Slip::TriedZeroUnreadable, |profile, rng| {
        let half = *rng.pick(&[Half::Odd, Half::Even]);
        none_fits(profile, rng, half)
    }, "no position of the half fits: all of them are counted"),
    refuses(Slip::TriedOneLessOdd, |profile, rng| none_fits(profile, rng, Half::Odd),
        "no odd position fits: there are n + 1 of them"),
    refuses(Slip::TriedOneMoreEven, |profile, rng| none_fits(profile, rng, Half::Even),
        "no even position fits: there are n of them"),
    refuses(Slip::TriedZeroOffByOther, |profile, rng| {
        let half = *rng.pick(&[Half::Odd, Half::Even]);
        off_by_other(profile, rng, half)
    }, "check sum off by something other than the weight's excess mod q: all of the half are counted"),
    refuses(Slip::TriedZeroFromQ, |profile, rng| {
        let half = *rng.pick(&[Half::Odd, Half::Even]);
        off_from_q(profile, rng, half)
    }, "weight off by q or more, and one check sum off: all of the half are counted"),
    refuses(Slip::TriedBothOff, both_off,
        "weight off, and both check sums: none is counted"),
    refuses(Slip::TriedNeitherOff, neither_off,
        "weight off, and neither check sum: none is counted"),
    decodes(Slip::TriedBalanced, one_check_symbol,
        "one check symbol wrong on a balanced word: none is counted"),
    decodes(Slip::TriedErasedAsZero, |profile, rng| Some(with_erasures(profile, [1, 0], rng)),
        "codeword with one erasure: none is counted"),
    decodes(Slip::TriedErasures, |profile, rng| Some(with_erasures(profile, [2, 0], rng)),
        "codeword with two erasures: none is counted, these neither"),
];

/// Those of T-03, the request for the 2018 edition, in whose words alone they do harm.
#[rustfmt::skip]
pub const EDITION_NEAR_MISSES: [NearMiss; 10] = [
    decodes(Slip::EditionIgnored, |profile, rng| Some(codeword(profile, rng)),
        "codeword, which is none of edition 13 or has another pair there"),
    decodes(Slip::ZeroFirst, |profile, rng| Some(codeword(profile, rng)),
        "codeword whose added zero is last"),
    decodes(Slip::IntegratedFromFront, |profile, rng| Some(codeword(profile, rng)),
        "codeword that was integrated from the end"),
    decodes(Slip::ComponentsExchanged, |profile, rng| Some(codeword(profile, rng)),
        "codeword whose first component begins x"),
    decodes(Slip::WordReversed, |profile, rng| Some(codeword(profile, rng)),
        "codeword whose components are not read from the end"),
    decodes(Slip::CorrectedAsIn2013, one_of_w_changed,
        "one symbol of w wrong, which moves the syndromes the other way than in edition 13"),
    decodes(Slip::FilledAsIn2013, |profile, rng| {
        let erasures = rng.from_one_to(2);
        Some(with_erasures(profile, [erasures, 0], rng))
    }, "one or two erasures, which move the syndromes the other way than in edition 13"),
    decodes(Slip::OneAdded, |profile, rng| Some(codeword(profile, rng)),
        "codeword of which 1 is to be taken, and not of the negatives"),
    decodes(Slip::MessagesNegated, |profile, rng| Some(codeword(profile, rng)),
        "codeword whose messages are not the negatives"),
    decodes(Slip::ErrorOfComplement, one_changed,
        "one symbol wrong: the error is not the complement's"),
];

/// Those of 01 and of every request that do harm in words of this edition.
pub fn every_near_miss(edition: Edition) -> impl Iterator<Item = &'static NearMiss> {
    let of_both = NEAR_MISSES
        .iter()
        .chain(&ERASURE_NEAR_MISSES)
        .chain(&ERROR_NEAR_MISSES)
        .chain(&TRIED_NEAR_MISSES);
    let of_2018 = EDITION_NEAR_MISSES.iter().filter(move |_| edition == Edition::Of2018);
    of_both.chain(of_2018)
}

/// How many words are built before a slip is taken to do no harm in a profile.
pub(crate) const ATTEMPTS: usize = 4000;

impl NearMiss {
    /// Words of the profile that the slip gets wrong. There are none where it does no harm: the
    /// printed δ is right for q = 3.
    pub fn words(&self, profile: &Profile, count: usize, rng: &mut Rng) -> Vec<Vec<u8>> {
        let is_known = self.has_known_word(profile.edition) && profile.number == 1;
        let known = is_known.then(|| with_check_symbols(profile, &symbols(POSITION_ZERO_W)));
        let built = (0..ATTEMPTS).filter_map(|_| (self.build)(profile, rng));
        let words = known.into_iter().chain(built);
        words.filter(|word| self.gets_wrong(profile, word)).take(count).collect()
    }

    /// What its words of an edition are called.
    pub fn title(&self, edition: Edition) -> String {
        let note = format!("; the first word has w = {POSITION_ZERO_W}");
        let note = if self.has_known_word(edition) { &note } else { "" };
        format!("near miss {:?}: {}{note}", self.slip, self.name)
    }

    /// Whether its words of profile 1 begin with one that was found by hand.
    fn has_known_word(&self, edition: Edition) -> bool {
        self.slip == Slip::PositionZero && edition == Edition::Of2013
    }

    /// Whether the slip answers the word otherwise than the right decoder, which does as named.
    fn gets_wrong(&self, profile: &Profile, word: &[u8]) -> bool {
        let right = decode_word(profile, word);
        right.is_ok() == self.decodes && near_miss::decode(profile, word, Some(self.slip)) != right
    }
}

#[cfg(test)]
mod tests;
