//! lines: short streams for the line program boxlines, which differ in how they end; and one that is
//! longer than the program's buffers, so that reads cut lines and the output fills up. It begins
//! with 01's example and ends with a line that is not ended.

use coder::erased_words::with_erasures;
use coder::examples::{BOXLINES_INPUT, BOXLINES_OUTPUT};
use coder::lines::{boxlines, LONGEST_LINE};
use coder::profile::PROFILES;
use coder::random_words::with_changes;
use coder::rng::Rng;

use crate::case_file::CaseFile;
use crate::line_forms::{add, line, LONG};

const SEED: u64 = 0x6c6f_6e68;

/// What boxlines reads and writes at a time.
const BUFFER: usize = 65_536;

/// Empty lines: their answers are four times as long, and fill the output within the first read.
/// So many that both ends of a buffer fall within words of the lines after them.
const EMPTY_LINES: usize = 17_054;

/// How many symbols of a word are erased (02, T-01: marked), and how many others changed.
const ERASED_AND_CHANGED: [[usize; 2]; 5] = [[3, 0], [1, 1], [2, 1], [1, 0], [2, 0]];

/// A good line of profile 1 (01's zero word).
const GOOD: &[u8] = b"1 1111111111111111102";

/// A line of the form and of this length, for the limit of 101 bytes; its word is refused with 4.
fn of_length(length: usize) -> Vec<u8> {
    let mut line = b"4 ".to_vec();
    line.resize(length, b'0');
    line
}

/// The short streams.
pub fn endings() -> impl Iterator<Item = CaseFile> {
    let [longest, too_long, long] = [LONGEST_LINE, LONGEST_LINE + 1, LONG].map(of_length);
    let streams: [(&str, &[&[u8]]); 14] = [
        ("empty input", &[]),
        ("a single byte 10", &[b"\n"]),
        ("two bytes 10", &[b"\n\n"]),
        ("a good line, ended", &[GOOD, b"\n"]),
        ("a good line, not ended", &[GOOD]),
        ("two good lines, the second not ended", &[GOOD, b"\n", GOOD]),
        ("a single byte 49, not ended", &[b"1"]),
        ("a byte 13 after the last byte 10", &[GOOD, b"\n\r"]),
        ("a line of 101 bytes, not ended", &[&longest]),
        ("a line of 102 bytes, not ended", &[&too_long]),
        ("a line of 102 bytes, ended", &[&too_long, b"\n"]),
        ("a line of 10,000 bytes, not ended", &[&long]),
        ("a line of 10,000 bytes, ended, then a good line, not ended", &[&long, b"\n", GOOD]),
        ("a good line, then a line of 10,000 bytes, not ended", &[GOOD, b"\n", &long]),
    ];
    streams.map(|(name, parts)| CaseFile::stream(name, parts.concat())).into_iter()
}

/// The long stream.
pub fn long() -> CaseFile {
    let mut file = CaseFile::default();
    let rng = &mut Rng::new(SEED);
    file.group("the example of 01");
    for (line, answer) in BOXLINES_INPUT.lines().zip(BOXLINES_OUTPUT.lines()) {
        file.case(line, answer);
    }
    file.group("a word of profile 2, then empty lines: an answer is cut where the output is full");
    add(&mut file, line(2, &with_changes(&PROFILES[1], 0, rng)));
    for _ in 0..EMPTY_LINES {
        add(&mut file, "");
    }
    file.group("words with 0 to 3 symbols changed, some of them cut by a read");
    for count in (0..4).cycle() {
        for profile in &PROFILES {
            add(&mut file, line(profile.number, &with_changes(profile, count, rng)));
        }
        if file.input.len() > 2 * BUFFER + BUFFER / 8 {
            break;
        }
    }
    file.group(
        "T-01: words with one to three erasures, some with a symbol changed; the last not ended",
    );
    for counts in ERASED_AND_CHANGED {
        for profile in [&PROFILES; 10].into_iter().flatten() {
            add(&mut file, line(profile.number, &with_erasures(profile, counts, rng)));
        }
    }
    file.input.pop();
    check(&file);
    file
}

/// That the buffers' ends fall within a word and within an answer, and that the answers are those
/// of the whole stream.
fn check(file: &CaseFile) {
    for end in [BUFFER, 2 * BUFFER] {
        assert!(file.input[end - 8..end + 8].iter().all(u8::is_ascii_digit), "a read cuts a word");
    }
    assert_ne!(file.expected[BUFFER - 1], b'\n', "the output is full within an answer");
    assert_eq!(boxlines(&file.input).as_bytes(), file.expected);
}
