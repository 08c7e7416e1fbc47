//! The numbers of refusals (01, "Operations and their numbers").

use std::fmt;

/// What a buffer holds before a call, so that a byte changed by a refusal shows.
pub const FILLER: u8 = 170;

/// "1 profile; 2 length; 3 symbol; 4 unreadable; 5 sheet length; 6 unsound sheet; 7 box number;
/// 8 no free cell; 9 line form; 10 no such record." T-01: "11, more than two marks". T-03: "12, edition
/// neither 13 nor 18". T-04: "13, the word reads but as mended or filled". T-06: "14, line rule neither 1 nor
/// 2".
#[derive(Debug, Clone, Copy, PartialEq, Eq)]
pub enum Refusal {
    Profile,
    Length,
    Symbol,
    /// T-08: "The reader's refusal 4 reports the count too .. the other refusals still return a
    /// number only."
    Unreadable {
        tried: usize,
    },
    QueueLength,
    UnsoundQueue,
    BoxNumber,
    NoFreeCell,
    LineForm,
    NoSuchRecord,
    Erasures,
    Edition,
    /// The word reads, but not as clean.
    NotClean,
    LineRule,
}

impl Refusal {
    /// "A refusal returns its number only."
    pub fn number(self) -> u8 {
        match self {
            Refusal::Profile => 1,
            Refusal::Length => 2,
            Refusal::Symbol => 3,
            Refusal::Unreadable { .. } => 4,
            Refusal::QueueLength => 5,
            Refusal::UnsoundQueue => 6,
            Refusal::BoxNumber => 7,
            Refusal::NoFreeCell => 8,
            Refusal::LineForm => 9,
            Refusal::NoSuchRecord => 10,
            Refusal::Erasures => 11,
            Refusal::Edition => 12,
            Refusal::NotClean => 13,
            Refusal::LineRule => 14,
        }
    }

    /// The same where no position is counted (02, T-09).
    pub fn without_count(self) -> Refusal {
        match self {
            Refusal::Unreadable { .. } => Refusal::Unreadable { tried: 0 },
            _ => self,
        }
    }
}

/// "For a refused one: R, a space and the number." T-08: "boxlines prints no count."
impl fmt::Display for Refusal {
    fn fmt(&self, text: &mut fmt::Formatter) -> fmt::Result {
        write!(text, "R {}", self.number())
    }
}

/// Refuses where the condition fails; a chain of these is an order of refusals.
pub fn require(condition: bool, refusal: Refusal) -> Result<(), Refusal> {
    if condition {
        Ok(())
    } else {
        Err(refusal)
    }
}
