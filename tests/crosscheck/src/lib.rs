//! Compares a coder's entry points, and the program boxlines, with the separately written coder:
//! every answer, and every byte of every buffer after each call. The seeds are fixed.

mod calls;
mod calm;
mod compare;
mod every_word;
mod heavy;
mod lines;
mod pairs;
mod parallel;
mod received;
mod refusals;
mod sheets;
#[cfg(test)]
mod wrong_converters;

use coder::edition::Edition;
use fogzurt::EntryPoints;

pub use calls::{number_of, packed};
pub use compare::{Checked, Mismatch};

/// A part of the run; what it did, in words.
pub type Section = fn(&EntryPoints) -> Checked<String>;

/// The quick run; boxlines is the program, whatever the entry points are.
pub const QUICK: [Section; 7] = [
    refusals::check,
    pairs::check,
    heavy::check,
    calm::check,
    sheets::check,
    |_| lines::check(),
    received::check,
];

/// All received words of profile 1, in each edition.
pub const LONG: [Section; 2] = [
    |tried| every_word::check(tried, Edition::Of2013),
    |tried| every_word::check(tried, Edition::Of2018),
];

/// What holds another coder to the separate one: the quick run's calls, with fewer received words.
pub const YARDSTICK: [Section; 6] = [
    refusals::check,
    pairs::check,
    heavy::check,
    calm::check,
    sheets::check,
    received::check_fewer,
];
