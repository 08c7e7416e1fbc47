//! lines: question marks (02, T-01: marks) in lines of boxlines.

use coder::erased_words::with_erasures;
use coder::erasure::{erased_at, ERASURE};
use coder::lines::LONGEST_LINE;
use coder::profile::PROFILES;
use coder::random_words::encoded;
use coder::rng::Rng;

use crate::case_file::CaseFile;
use crate::line_forms::{add, add_all, good_line, line, spliced, LONG};

const SEED: u64 = 0x6d61_726b;

/// Erasures, and other symbols changed; and how many words of each profile have so many.
const COUNTS: [([usize; 2], usize); 6] =
    [([1, 0], 40), ([2, 0], 60), ([1, 1], 15), ([2, 1], 25), ([3, 0], 15), ([9, 0], 5)];

/// Has a seed of its own, so that the lines before are those that were stored before.
pub fn add_groups(file: &mut CaseFile) {
    let rng = &mut Rng::new(SEED);
    everywhere(file, rng);
    file.group("words with one to nine ?, some with a symbol changed");
    for profile in &PROFILES {
        for (counts, words) in COUNTS {
            for _ in 0..words {
                add(file, line(profile.number, &with_erasures(profile, counts, rng)));
            }
        }
    }
    lengths(file);
    order(file, rng);
}

/// One and two question marks at every place of a line, the profile's and the space's among them.
fn everywhere(file: &mut CaseFile, rng: &mut Rng) {
    let lines = PROFILES.map(|profile| good_line(&profile, rng));
    file.group("T-01, here and below: ? at every place of a good line of each profile");
    for good in &lines {
        for index in 0..good.len() {
            add(file, spliced(good, index, 1, b"?"));
        }
    }
    file.group("? put in at every place, two side by side, and two of which one is the last");
    for good in &lines {
        for index in 0..good.len() {
            let last = spliced(good, good.len() - 1, 1, b"?");
            add_all(
                file,
                [
                    spliced(good, index, 0, b"?"),
                    spliced(good, index, 2, b"??"),
                    spliced(&last, index, 1, b"?"),
                ],
            );
        }
    }
}

/// Lines of question marks about the limit, and far longer ones.
fn lengths(file: &mut CaseFile) {
    file.group("lines of ? alone, and after each profile, of 3 to 110 bytes");
    for length in 3..=110 {
        let marks = "?".repeat(length - 2);
        add(file, format!("??{marks}"));
        for profile in &PROFILES {
            add(file, format!("{} {marks}", profile.number));
        }
    }
    file.group("lines too long, with a ? at the end or all of ?, each followed by a good line");
    for length in [LONGEST_LINE + 1, 2 * LONGEST_LINE, LONG] {
        let mut long = b"4 ".to_vec();
        long.resize(length, b'3');
        add(file, spliced(&long, length - 1, 1, b"?"));
        add(file, format!("4 {}", "?".repeat(length - 2)));
        add(file, "1 ?111111111111111102");
    }
}

/// The order of refusals: 9, 1, 2, 3, 11, 4.
fn order(file: &mut CaseFile, rng: &mut Rng) {
    file.group("every profile digit with words of every length N, N-1 and N+1, three ? in them");
    for profile in &PROFILES {
        let word = erased_at(&encoded(profile, rng), &[2, 5, profile.word_length()]);
        for digit in 0..=9 {
            add(file, line(digit, &word));
            add(file, line(digit, &word[1..]));
            add(file, line(digit, &[&word[..], &[ERASURE]].concat()));
        }
    }
    file.group("every digit beside one to three ?, and a byte that makes the line malformed");
    for profile in &PROFILES {
        let good = good_line(profile, rng);
        for marks in ["?", "??", "???"] {
            let marked = spliced(&good, 4, marks.len(), marks.as_bytes());
            add_all(file, b"0123456789x ".map(|byte| spliced(&marked, 3, 1, &[byte])));
        }
    }
}
