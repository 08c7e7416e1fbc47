//! Calls of a converter (02, T-04) that a near miss gets wrong, by name. Each is looked for, as the words of
//! `near_misses` are.

use std::iter::repeat_with;

use crate::convert::convert;
use crate::edition::Edition;
use crate::erased_words::{erased, spoiled_and_erased, with_erasures};
use crate::near_miss::Slip;
use crate::near_miss_conversion;
use crate::near_miss_editions::{self, CALL_SLIPS};
use crate::near_miss_words::{of_codeword, one_changed};
use crate::near_misses::ATTEMPTS;
use crate::profile::Profile;
use crate::random_words::{
    by_another_choice, codeword, encoded, of_both, one_check_symbol, with_changes, Build,
};
use crate::refusal::{Refusal, FILLER};
use crate::rng::Rng;
use crate::text::digits;

/// The most symbols that an output has in the vectors.
const LONGEST_OUTPUT: usize = 100;

/// A call: the edition and the profile that the converter is told, the word, and how long the output is.
#[derive(Debug, Clone)]
pub struct Call {
    pub edition: u8,
    pub profile: u8,
    pub word: Vec<u8>,
    pub length: usize,
}

impl Call {
    /// A word of a profile, with an output of the right length.
    pub fn of(profile: &Profile, word: Vec<u8>) -> Call {
        let (edition, length) = (profile.edition.number(), profile.word_length());
        Call { edition, profile: profile.number, word, length }
    }

    /// The line that answers the call: the word, or `R number`.
    pub fn answer(&self) -> String {
        self.told(self.edition).unwrap_or_else(|refusal| refusal.to_string())
    }

    /// The word that is written if the converter is told this edition.
    fn told(&self, edition: u8) -> Result<String, Refusal> {
        let mut output = vec![FILLER; self.length];
        convert(edition, self.profile, &self.word, &mut output)?;
        Ok(digits(&output))
    }

    /// The line with which a converter with this slip, or with none, answers. It begins with X if a refusal
    /// changed the output.
    pub fn slipped_answer(&self, slip: Option<Slip>) -> String {
        if let Some(slip) = slip.filter(|slip| CALL_SLIPS.contains(slip)) {
            let right = |edition| self.told(edition);
            let answer = near_miss_editions::call(slip, self.edition, self.profile, right);
            return answer.unwrap_or_else(|refusal| refusal.to_string());
        }
        let Call { edition, profile, word, length } = self;
        let mut output = vec![FILLER; *length];
        match near_miss_conversion::convert(*edition, *profile, word, &mut output, slip) {
            Ok(()) => digits(&output),
            Err(refusal) if output.iter().all(|&byte| byte == FILLER) => refusal.to_string(),
            Err(refusal) => format!("X {}", refusal.number()),
        }
    }
}

/// Makes the call wrong besides its word.
type Fault = fn(&mut Call, &mut Rng);

/// A slip, how the words and the calls are built that tell it, and what they are called.
pub struct CallNearMiss {
    pub slip: Slip,
    build: Build,
    fault: Fault,
    name: &'static str,
}

const fn word(slip: Slip, build: Build, name: &'static str) -> CallNearMiss {
    CallNearMiss { slip, build, fault: no_fault, name }
}

const fn call(slip: Slip, build: Build, fault: Fault, name: &'static str) -> CallNearMiss {
    CallNearMiss { slip, build, fault, name }
}

fn no_fault(_: &mut Call, _: &mut Rng) {}

/// An output that is not as long as the word.
fn wrong_output(call: &mut Call, rng: &mut Rng) {
    let right = call.length;
    let lengths = [0, 1, right - 1, right + 1, LONGEST_OUTPUT];
    call.length = *rng.pick(&lengths);
}

fn longer_output(call: &mut Call, rng: &mut Rng) {
    call.length += rng.from_one_to(LONGEST_OUTPUT - call.length);
}

fn no_edition(call: &mut Call, rng: &mut Rng) {
    let drawn = repeat_with(|| rng.below(256) as u8);
    let mut unknown = drawn.filter(|&number| Edition::lookup(number).is_err());
    call.edition = unknown.next().expect("most numbers name no edition");
}

fn no_profile(call: &mut Call, rng: &mut Rng) {
    let drawn = repeat_with(|| rng.below(256) as u8);
    let mut unknown = drawn.filter(|&number| Profile::lookup(number).is_err());
    call.profile = unknown.next().expect("most numbers name no profile");
}

fn any_codeword(profile: &Profile, rng: &mut Rng) -> Option<Vec<u8>> {
    Some(codeword(profile, rng))
}

fn encoded_word(profile: &Profile, rng: &mut Rng) -> Option<Vec<u8>> {
    Some(encoded(profile, rng))
}

fn one_or_two_erased(profile: &Profile, rng: &mut Rng) -> Option<Vec<u8>> {
    let erasures = rng.from_one_to(2);
    Some(with_erasures(profile, [erasures, 0], rng))
}

/// A codeword with a symbol out of range, and so many others erased.
fn spoiled<const ERASURES: usize>(profile: &Profile, rng: &mut Rng) -> Option<Vec<u8>> {
    of_codeword(profile, rng, |profile, word, rng| spoiled_and_erased(profile, word, ERASURES, rng))
}

/// Slips that do harm in every profile of both editions, four of them a decoder's.
#[rustfmt::skip]
pub const CONVERTER_NEAR_MISSES: [CallNearMiss; 29] = [
    word(Slip::CorrectedPassedOn, one_changed,
        "one symbol wrong: the word reads as corrected, and is not passed on"),
    word(Slip::FilledPassedOn, one_or_two_erased,
        "one or two erasures: the word reads as filled, and is not passed on"),
    word(Slip::ChecksPassedOn, one_check_symbol,
        "one check symbol wrong: the word is not passed on, though w is as it was sent"),
    word(Slip::NoneTriedPassedOn, one_check_symbol,
        "one check symbol wrong: the word is not passed on, though no position was tried"),
    word(Slip::NotCleanIsUnreadable, one_changed,
        "one symbol wrong: 13, and not 4"),
    word(Slip::UnreadableIsNotClean, |profile, rng| Some(with_changes(profile, 2, rng)),
        "two symbols wrong: 4, and not 13"),
    word(Slip::ErasuresUnfilled, |profile, rng| Some(with_erasures(profile, [1, 1], rng)),
        "one erasure and another symbol wrong: 4, and not 13"),
    word(Slip::NotCleanBeforeErasures, |profile, rng| Some(with_erasures(profile, [3, 0], rng)),
        "three erasures: 11, and not 13"),
    word(Slip::NotCleanBeforeSymbols, spoiled::<1>,
        "one erasure and a symbol out of range: 3, and not 13"),
    word(Slip::ErasuresBeforeSymbols, spoiled::<3>,
        "three erasures and a symbol out of range: 3, and not 11"),
    word(Slip::ThreeAllowed, |profile, rng| Some(with_erasures(profile, [3, 0], rng)),
        "three erasures, with which the word would read as filled: 11, and not 13"),
    word(Slip::UnreadableBeforeErasures, |profile, rng| {
        Some(erased(&rng.word(profile.q, profile.word_length()), 3, rng))
    }, "three erasures in noise that no filling makes a codeword: 11, and not 4"),
    word(Slip::AnotherChoiceNotClean, by_another_choice,
        "codeword by a choice that the encoder does not make: it is clean"),
    word(Slip::EncodedWordOnly, by_another_choice,
        "codeword by a choice that the encoder does not make: it is read"),
    word(Slip::NotCleanWritten, one_changed,
        "one symbol wrong: nothing is written"),
    word(Slip::ReceivedWrittenFirst, |profile, rng| Some(with_changes(profile, 2, rng)),
        "two symbols wrong: nothing is written, the word received neither"),
    call(Slip::OutputUntested, any_codeword, wrong_output,
        "codeword, and an output not N long"),
    call(Slip::LongerOutputTaken, any_codeword, longer_output,
        "codeword, and an output that is longer than N"),
    call(Slip::OutputAfterSymbols, spoiled::<0>, wrong_output,
        "an output not N long, and a symbol out of range: 2, and not 3"),
    call(Slip::OutputLast, one_changed, wrong_output,
        "an output not N long, and one symbol wrong: 2, and not 13"),
    word(Slip::OwnEditionWritten, any_codeword,
        "codeword, of which the other edition's is written"),
    word(Slip::WordCopied, encoded_word,
        "the encoder's word, which is another than that of the other edition"),
    word(Slip::WordOfBothCopied, of_both,
        "codeword of both editions, which has another pair in the other one"),
    word(Slip::Complemented, any_codeword,
        "codeword whose complement is not what the other edition's encoder makes"),
    word(Slip::EncodedWordComplemented, encoded_word,
        "the encoder's word, whose complement is not what the other edition's encoder makes"),
    word(Slip::CheckSymbolsKept, any_codeword,
        "codeword with other check symbols than that of the other edition"),
    word(Slip::ChoiceKept, any_codeword,
        "codeword whose s and v are not those of the other edition"),
    word(Slip::EditionOfOutput, any_codeword,
        "codeword, whose own edition is named"),
    word(Slip::MessagesExchanged, any_codeword,
        "codeword whose first message stays the first"),
];

/// Slips of calls that name no edition or no profile.
#[rustfmt::skip]
pub const NUMBER_NEAR_MISSES: [CallNearMiss; 6] = [
    call(Slip::EditionAfterProfile, any_codeword, |call, rng| {
        no_edition(call, rng);
        no_profile(call, rng);
    }, "neither an edition nor a profile: 12, and not 1"),
    call(Slip::EditionLast, any_codeword, |call, rng| {
        no_edition(call, rng);
        wrong_output(call, rng);
    }, "no edition, and an output not N long: 12, and not 2"),
    call(Slip::OtherEditionIs2013, any_codeword, no_edition,
        "no edition: 12, and nothing is read as one of 13"),
    call(Slip::OtherEditionIs2018, any_codeword, no_edition,
        "no edition: 12, and nothing is read as one of 18"),
    call(Slip::OutputBeforeProfile, any_codeword, |call, rng| {
        no_profile(call, rng);
        wrong_output(call, rng);
    }, "no profile, and an output as long as no word: 1, and not 2"),
    call(Slip::LengthsComparedFirst, any_codeword, |call, rng| {
        no_edition(call, rng);
        wrong_output(call, rng);
    }, "no edition, and an output not as long as the word: 12, and not 2"),
];

impl CallNearMiss {
    /// Calls, with words of the profile, that the slip gets wrong.
    pub fn calls(&self, profile: &Profile, count: usize, rng: &mut Rng) -> Vec<Call> {
        let built = (0..ATTEMPTS).filter_map(|_| self.attempt(profile, rng));
        built.filter(|call| self.gets_wrong(call)).take(count).collect()
    }

    /// What its calls are called.
    pub fn title(&self) -> String {
        format!("near miss {:?}: {}", self.slip, self.name)
    }

    fn attempt(&self, profile: &Profile, rng: &mut Rng) -> Option<Call> {
        let mut call = Call::of(profile, (self.build)(profile, rng)?);
        (self.fault)(&mut call, rng);
        Some(call)
    }

    /// Whether the slip answers the call otherwise than the right converter.
    fn gets_wrong(&self, call: &Call) -> bool {
        call.slipped_answer(Some(self.slip)) != call.answer()
    }
}

#[cfg(test)]
mod tests;
