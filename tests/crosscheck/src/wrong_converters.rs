//! Converters with a slip (02, T-04 and T-06), for tests that the calls of a section tell them from the right one.

use coder::near_miss::Slip;
use coder::near_miss_calls::{Call, CONVERTER_NEAR_MISSES, NUMBER_NEAR_MISSES};
use coder::near_miss_conversion::LINE_RULE_SLIPS;

/// Slips that show only with an edition, a profile or an output length that is wrong.
pub const OF_ARGUMENTS: [Slip; 10] = [
    Slip::OutputUntested,
    Slip::LongerOutputTaken,
    Slip::OutputAfterSymbols,
    Slip::OutputLast,
    Slip::EditionAfterProfile,
    Slip::EditionLast,
    Slip::OtherEditionIs2013,
    Slip::OtherEditionIs2018,
    Slip::OutputBeforeProfile,
    Slip::LengthsComparedFirst,
];

/// Slips that show only in words that are refused before they are read, or are unreadable.
pub const OF_UNREAD_WORDS: [Slip; 7] = [
    Slip::UnreadableIsNotClean,
    Slip::ErasuresUnfilled,
    Slip::NotCleanBeforeErasures,
    Slip::NotCleanBeforeSymbols,
    Slip::ErasuresBeforeSymbols,
    Slip::ThreeAllowed,
    Slip::UnreadableBeforeErasures,
];

/// Every slip of a converter but these.
pub fn every_slip_but(others: &[Slip]) -> Vec<Slip> {
    let near_misses = CONVERTER_NEAR_MISSES.iter().chain(&NUMBER_NEAR_MISSES);
    let slips = near_misses.map(|near_miss| near_miss.slip).chain(LINE_RULE_SLIPS);
    slips.filter(|slip| !others.contains(slip)).collect()
}

/// Drops the slips with which the call is answered, or its output left, otherwise than it should be.
pub fn retain_untold(slips: &mut Vec<Slip>, call: &Call) {
    let right = call.answer();
    slips.retain(|&slip| call.slipped_answer(Some(slip)) == right);
}
