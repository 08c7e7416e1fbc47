//! Cases of words as they are stored, for tests that they tell a decoder with a slip from the right one.

use coder::profile::Profile;
use coder::text::symbols;

use super::Told;
use crate::case_file::CaseFile;

/// A case, and the line that answers it.
pub struct Stored {
    pub told: Told,
    pub word: Vec<u8>,
    pub lengths: [usize; 2],
    pub expected: String,
}

impl Stored {
    /// Whether a decoder is told this profile and its edition, and every length is right.
    pub fn is_right_call(&self, profile: &Profile) -> bool {
        self.told == [profile.edition.number(), profile.number]
            && self.word.len() == profile.word_length()
            && self.lengths == [profile.k(); 2]
    }
}

/// The cases of a file.
pub fn stored(file: &CaseFile) -> Vec<Stored> {
    let [input, expected] =
        [&file.input, &file.expected].map(|bytes| std::str::from_utf8(bytes).unwrap());
    let cases = input.lines().zip(expected.lines());
    cases
        .map(|(case, expected)| {
            let fields: Vec<&str> = case.split(' ').collect();
            Stored {
                told: [fields[0], fields[1]].map(|field| field.parse().unwrap()),
                word: symbols(fields[2]),
                lengths: [fields[3], fields[4]].map(|field| field.parse().unwrap()),
                expected: expected.to_string(),
            }
        })
        .collect()
}
