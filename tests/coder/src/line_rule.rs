//! The line rules (02, T-06: Calmer words on the pair): which of a pair's balancing choices the encoder takes.

use crate::balance::BalancingChoice;
use crate::peak::peak;
use crate::refusal::Refusal;

/// "Version 1 stays available to boxes already sold, and the caller names the version."
#[derive(Debug, Clone, Copy, PartialEq, Eq)]
pub enum LineRule {
    /// 01's: the first balancing choice.
    One,
    /// "The line rule of version 2 asks for the smallest swing."
    Two,
}

pub const LINE_RULES: [LineRule; 2] = [LineRule::One, LineRule::Two];

impl LineRule {
    /// "14, line rule neither 1 nor 2".
    pub fn lookup(number: u8) -> Result<LineRule, Refusal> {
        match number {
            1 => Ok(LineRule::One),
            2 => Ok(LineRule::Two),
            _ => Err(Refusal::LineRule),
        }
    }

    /// The number that names the rule.
    pub fn number(self) -> u8 {
        match self {
            LineRule::One => 1,
            LineRule::Two => 2,
        }
    }
}

/// A codeword of a pair, and the balancing choice that makes it.
pub type Choice = (BalancingChoice, Vec<u8>);

/// The one that the rule takes of a pair's codewords, which are all of them, in the order of trying. 01: "The
/// choice used is the first whose w has weight equal to middle". T-06: "Under version 2 the writer takes, of
/// all balancing choices, one with the least peak, then the lowest s, then the lowest v." "The rule that the
/// writer finds a choice holds for both."
pub fn taken(rule: LineRule, q: u8, words: &[Choice]) -> &Choice {
    let taken = match rule {
        LineRule::One => words.first(),
        LineRule::Two => {
            words.iter().min_by_key(|(choice, word)| (peak(q, word), choice.s, choice.v))
        }
    };
    taken.expect("01: a balancing choice always exists")
}
