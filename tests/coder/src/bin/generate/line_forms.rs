//! lines: a stream for the line program boxlines with every edge of a line's form.

use coder::lines::{answer, boxlines, LONGEST_LINE};
use coder::profile::{Profile, PROFILES};
use coder::random_words::{encoded, with_changes};
use coder::rng::Rng;
use coder::text::digits;

use crate::case_file::CaseFile;
use crate::line_erasures;

const SEED: u64 = 0x6c69_6e65;

/// The length of the longest lines.
pub const LONG: usize = 10_000;

/// Bytes that stand at every place of a good line.
const EVERYWHERE: [u8; 4] = [0, 13, 32, 255];

/// Bytes that stand at the ends of a good line's fields: a tab, signs, the bytes on both sides of
/// the digits, letters, and bytes above 127.
const AT_FIELDS: &[u8] = b"\t+-.,/:?ACMRaz~\x7f\x80\xa0\xb2";

/// Short lines that are nearly of the form, and some that are.
const SHORT: [&str; 26] = [
    "1", " ", "1 ", "11", "  ", " 1", "1  ", "1 1 ", " 1 1", "1  1", "1\t1", "\t1 1", "+1 1",
    "-1 1", "1 +1", "1 -1", "1 1.", "01 1", "1,1", "C 1", "R 9", "1 ?", "1 1", "0 0", "9 9", "4 7",
];

pub fn make() -> CaseFile {
    let mut file = CaseFile::default();
    let rng = &mut Rng::new(SEED);
    file.group("short lines");
    for line in SHORT {
        add(&mut file, line);
    }
    profile_digits(&mut file, rng);
    lengths(&mut file, rng);
    edges(&mut file, rng);
    file.group("words with 0 to 3 symbols changed");
    for profile in &PROFILES {
        for count in 0..200 {
            let word = with_changes(profile, count % 4, rng);
            add(&mut file, line(profile.number, &word));
        }
    }
    line_erasures::add_groups(&mut file);
    assert_eq!(boxlines(&file.input).as_bytes(), file.expected);
    file
}

/// Adds the case of one line.
pub fn add(file: &mut CaseFile, line: impl AsRef<[u8]>) {
    let expected = answer(line.as_ref());
    file.case(line, &expected);
}

/// Adds the cases of several lines.
pub fn add_all<const COUNT: usize>(file: &mut CaseFile, lines: [Vec<u8>; COUNT]) {
    for line in lines {
        add(file, line);
    }
}

/// profile, one space, the symbols of a word.
pub fn line(profile: u8, word: &[u8]) -> String {
    format!("{profile} {}", digits(word))
}

/// A line with a random codeword of the profile.
pub fn good_line(profile: &Profile, rng: &mut Rng) -> Vec<u8> {
    line(profile.number, &encoded(profile, rng)).into_bytes()
}

/// Every digit as the profile of a word of every profile, as it is, one symbol short and one long.
fn profile_digits(file: &mut CaseFile, rng: &mut Rng) {
    file.group("every profile digit with words of every length N, N-1 and N+1");
    for profile in &PROFILES {
        let word = encoded(profile, rng);
        for digit in 0..=9 {
            add(file, line(digit, &word));
            add(file, line(digit, &word[1..]));
            add(file, line(digit, &[&word[..], &[0]].concat()));
        }
    }
}

/// Lines of every length about the limit, and far longer ones, each followed by a good line.
fn lengths(file: &mut CaseFile, rng: &mut Rng) {
    file.group("lines of 0 to 110 bytes, each followed by a good line");
    let good = good_line(&PROFILES[0], rng);
    let longest = good_line(&PROFILES[3], rng);
    for length in 0..=110 {
        let padded: Vec<u8> = longest.iter().copied().chain([b'0'; 9]).take(length).collect();
        add(file, padded);
        add(file, &good);
    }
    file.group("lines too long, of 102 and of 10,000 bytes, each followed by a good line");
    for length in [LONGEST_LINE + 1, 2 * LONGEST_LINE, 2 * LONGEST_LINE + 1, LONG] {
        for byte in *b"0 1\r\0\xff" {
            let mut long = longest.clone();
            long.resize(length, byte);
            add(file, long);
            add(file, vec![byte; length]);
            add(file, &good);
        }
    }
}

/// Good lines with one byte replaced, put in, left out or doubled.
fn edges(file: &mut CaseFile, rng: &mut Rng) {
    let lines = PROFILES.map(|profile| good_line(&profile, rng));
    file.group("bytes 0, 13, 32 and 255 at every place of a good line of each profile");
    for good in &lines {
        for index in 0..good.len() {
            add_all(file, EVERYWHERE.map(|byte| spliced(good, index, 1, &[byte])));
        }
    }
    file.group("those bytes, signs, letters, tabs and more about the ends of both fields");
    for good in &lines {
        for index in [0, 1, 2, good.len() - 1, good.len()] {
            for &byte in EVERYWHERE.iter().chain(AT_FIELDS) {
                add_all(file, [0, 1].map(|removed| spliced(good, index, removed, &[byte])));
            }
        }
    }
    file.group("a byte left out, or doubled, at every place");
    for good in &lines {
        for index in 0..good.len() {
            let doubled = spliced(good, index, 0, &[good[index]]);
            add_all(file, [spliced(good, index, 1, &[]), doubled]);
        }
    }
    file.group("every digit at places 3, 4 and last");
    for good in &lines {
        for index in [2, 3, good.len() - 1] {
            add_all(file, b"0123456789".map(|digit| spliced(good, index, 1, &[digit])));
        }
    }
}

/// The line with up to `removed` bytes from the index on replaced by others.
pub fn spliced(line: &[u8], index: usize, removed: usize, bytes: &[u8]) -> Vec<u8> {
    let rest = (index + removed).min(line.len());
    [&line[..index], bytes, &line[rest..]].concat()
}
