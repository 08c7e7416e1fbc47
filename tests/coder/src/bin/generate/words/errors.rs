//! Words for the error of a corrected symbol (02, T-02: received minus sent). They come after all others
//! and have a seed of their own, so that the words before are those that were stored before.

use std::iter::repeat_with;

use coder::decode::replaced;
use coder::edition::Edition;
use coder::examples::ERRORS;
use coder::near_misses::ERROR_NEAR_MISSES;
use coder::random_words::codeword;
use coder::rng::Rng;

use super::{add_word, cases_by_hand, near_misses};
use crate::case_file::CaseFile;

const SEED: u64 = 0x6572_726f;

/// Words of each near miss and profile: one, since the rows with every position and level of a
/// codeword tell them too.
const OF_EACH_NEAR_MISS: usize = 1;

pub fn add_groups(file: &mut CaseFile) {
    let rng = &mut Rng::new(SEED);
    let edition = Edition::Of2013;
    file.group("T-02, here and below: 01's word with one symbol too high or too low, by hand");
    cases_by_hand(file, edition, &ERRORS);
    near_misses(file, edition, &ERROR_NEAR_MISSES, OF_EACH_NEAR_MISS, rng);
    check_symbols(file, edition, rng);
}

/// Codewords with every α, so that β has every level too, and each of both at every other level.
pub fn check_symbols(file: &mut CaseFile, edition: Edition, rng: &mut Rng) {
    file.group("each check symbol, sent as every level, at every other level");
    for profile in edition.profiles() {
        let checks = [profile.m() + 1, profile.m() + 2];
        for alpha in 0..profile.q {
            let has_alpha = |word: &Vec<u8>| word[checks[0] - 1] == alpha;
            let words = repeat_with(|| codeword(profile, rng));
            let word = words.into_iter().find(has_alpha).expect("there is no end of words");
            for position in checks {
                let others = (0..profile.q).filter(|&level| level != word[position - 1]);
                for level in others {
                    add_word(file, profile, &replaced(&word, position, level));
                }
            }
        }
    }
}

#[cfg(test)]
mod tests {
    use std::collections::BTreeSet;

    use coder::edition::profiles_of_both;
    use coder::profile::Profile;

    /// Which errors stand in the words of a profile: of w, of α and of β.
    type Errors = [BTreeSet<i16>; 3];

    /// The errors of all words of this profile that are corrected.
    fn errors_in(profile: &Profile, input: &str, expected: &str) -> Errors {
        let mut errors = Errors::default();
        let of_profile = format!("{} {} ", profile.edition.number(), profile.number);
        for (case, answer) in input.lines().zip(expected.lines()) {
            let answer: Vec<&str> = answer.split(' ').collect();
            if case.starts_with(&of_profile) && answer[0] == "M" {
                let position: usize = answer[1].parse().unwrap();
                errors[position.saturating_sub(profile.m())].insert(answer[3].parse().unwrap());
            }
        }
        errors
    }

    /// "from −(q−1) to q−1 and never 0, for check symbols as well": each of them is in the file, of w
    /// and of each check symbol, in each edition.
    #[test]
    fn every_error_stands_in_the_words() {
        let file = super::super::make();
        let [input, expected] =
            [&file.input, &file.expected].map(|bytes| std::str::from_utf8(bytes).unwrap());
        for profile in profiles_of_both() {
            let highest = i16::from(profile.q) - 1;
            let every: BTreeSet<i16> = (-highest..=highest).filter(|&error| error != 0).collect();
            assert_eq!(errors_in(profile, input, expected), [(); 3].map(|()| every.clone()));
        }
    }
}
