//! The order of refusals of each operation, and that "a refusal .. writes no buffer". Where number 14 stands in
//! that of encoding is in `line_rules`.

use coder::convert::convert;
use coder::decode::{decode, replaced};
use coder::encode::encode;
use coder::erasure::erased_at;
use coder::lines::boxlines;
use coder::list::CELL;
use coder::queue;
use coder::refusal::{Refusal, FILLER};

const RIGHT_MESSAGE: &[u8] = &[0; 5];
const RIGHT_WORD: &[u8] = &[1, 1, 1, 1, 1, 1, 1, 1, 1, 1, 1, 1, 1, 1, 1, 1, 1, 0, 2];
const UNREADABLE: &[u8] = &[0; 19];

fn is_untouched(buffer: &[u8]) -> bool {
    buffer.iter().all(|&byte| byte == FILLER)
}

/// The number of a refusal.
fn number<T: std::fmt::Debug>(answer: Result<T, Refusal>) -> u8 {
    answer.expect_err("the call is to be refused").number()
}

/// Numbers that name no edition.
const OTHER_EDITIONS: [u8; 8] = [0, 1, 12, 14, 17, 19, 31, 255];

/// Every edition, and what a call is refused with that both editions refuse with this number. T-03: "12,
/// edition neither 13 nor 18, before 1."
fn by_edition(number: u8) -> impl Iterator<Item = (u8, u8)> {
    [(13, number), (18, number)].into_iter().chain(OTHER_EDITIONS.map(|edition| (edition, 12)))
}

#[test]
fn encode_refuses_in_order() {
    let bad_symbol: &[u8] = &[0, 0, 0, 0, 3];
    let short: &[u8] = &[255; 4];
    for (profile, first, second, length, expected) in [
        (0, short, bad_symbol, 18, 1),
        (5, RIGHT_MESSAGE, RIGHT_MESSAGE, 19, 1),
        (255, RIGHT_MESSAGE, RIGHT_MESSAGE, 19, 1),
        (1, short, bad_symbol, 19, 2),
        (1, bad_symbol, short, 19, 2),
        (1, bad_symbol, RIGHT_MESSAGE, 18, 2),
        (1, RIGHT_MESSAGE, RIGHT_MESSAGE, 20, 2),
        (2, RIGHT_MESSAGE, RIGHT_MESSAGE, 19, 2),
        (1, bad_symbol, RIGHT_MESSAGE, 19, 3),
        (1, RIGHT_MESSAGE, &[255, 0, 0, 0, 0], 19, 3),
    ] {
        for (edition, expected) in by_edition(expected) {
            for rule in [1, 2] {
                let mut output = vec![FILLER; length];
                let answer = encode(edition, profile, rule, first, second, &mut output);
                assert_eq!(number(answer), expected);
                assert!(is_untouched(&output));
            }
        }
    }
    for edition in OTHER_EDITIONS {
        let mut output = vec![FILLER; 19];
        let answer = encode(edition, 1, 1, RIGHT_MESSAGE, RIGHT_MESSAGE, &mut output);
        assert_eq!(number(answer), 12);
        assert!(is_untouched(&output));
    }
}

#[test]
fn decode_refuses_in_order() {
    let bad_symbol: &[u8] = &[3; 19];
    let short: &[u8] = &[255; 18];
    let with = |position: usize, symbol: u8| replaced(RIGHT_WORD, position, symbol);
    let erased = |word: &[u8], positions: &[usize]| erased_at(word, positions);
    for (profile, word, lengths, expected) in [
        (0, short, [4, 4], 1),
        (5, RIGHT_WORD, [5, 5], 1),
        (1, short, [5, 5], 2),
        (1, bad_symbol, [5, 4], 2),
        (1, bad_symbol, [6, 5], 2),
        (4, RIGHT_WORD, [45, 45], 2),
        (1, bad_symbol, [5, 5], 3),
        (1, &with(19, 254), [5, 5], 3),
        (1, &[254; 19], [5, 5], 3),
        (0, &[255; 19], [5, 5], 1),
        (1, &[255; 19], [5, 4], 2),
        (1, &[255; 20], [5, 5], 2),
        (1, &erased(&with(1, 3), &[2, 3, 4]), [5, 5], 3),
        (1, &erased(&with(19, 254), &[1, 2]), [5, 5], 3),
        (1, &[255; 19], [5, 5], 11),
        (1, &erased(RIGHT_WORD, &[1, 18, 19]), [5, 5], 11),
        (1, &erased(UNREADABLE, &[1, 2, 3]), [5, 5], 11),
        (1, &erased(UNREADABLE, &[1, 2]), [5, 5], 4),
        (1, UNREADABLE, [5, 5], 4),
    ] {
        for (edition, expected) in by_edition(expected) {
            let [mut first, mut second] = lengths.map(|length| vec![FILLER; length]);
            assert_eq!(number(decode(edition, profile, word, &mut first, &mut second)), expected);
            assert!(is_untouched(&first) && is_untouched(&second));
        }
    }
    for edition in OTHER_EDITIONS {
        let (mut first, mut second) = ([FILLER; 5], [FILLER; 5]);
        assert_eq!(number(decode(edition, 1, RIGHT_WORD, &mut first, &mut second)), 12);
        assert!(is_untouched(&first) && is_untouched(&second));
    }
}

/// T-04: "The order of reading applies, with 2 also for an output not N long, and nothing is written on a
/// refusal. Errors: 13, the word reads but as mended or filled, after 4."
#[test]
fn convert_refuses_in_order() {
    let bad_symbol: &[u8] = &[3; 19];
    let short: &[u8] = &[255; 18];
    let with = |position: usize, symbol: u8| replaced(RIGHT_WORD, position, symbol);
    for (profile, word, length, expected) in [
        (0, short, 18, 1),
        (5, RIGHT_WORD, 19, 1),
        (255, RIGHT_WORD, 0, 1),
        (1, short, 19, 2),
        (1, short, 18, 2),
        (1, RIGHT_WORD, 18, 2),
        (1, RIGHT_WORD, 20, 2),
        (1, bad_symbol, 0, 2),
        (1, &[255; 19], 20, 2),
        (1, UNREADABLE, 18, 2),
        (1, &with(1, 0), 18, 2),
        (2, RIGHT_WORD, 19, 2),
        (2, RIGHT_WORD, 55, 2),
        (1, bad_symbol, 19, 3),
        (1, &erased_at(&with(1, 254), &[2, 3, 4]), 19, 3),
        (1, &erased_at(&with(1, 3), &[2]), 19, 3),
        (1, &erased_at(RIGHT_WORD, &[1, 18, 19]), 19, 11),
        (1, &erased_at(UNREADABLE, &[1, 2, 3]), 19, 11),
        (1, &erased_at(UNREADABLE, &[1, 2]), 19, 4),
        (1, &erased_at(&with(1, 0), &[2]), 19, 4),
        (1, UNREADABLE, 19, 4),
        (1, &with(1, 0), 19, 13),
        (1, &with(18, 1), 19, 13),
        (1, &with(19, 0), 19, 13),
        (1, &erased_at(RIGHT_WORD, &[1]), 19, 13),
        (1, &erased_at(RIGHT_WORD, &[18, 19]), 19, 13),
    ] {
        for (edition, expected) in by_edition(expected) {
            let mut output = vec![FILLER; length];
            assert_eq!(number(convert(edition, profile, word, &mut output)), expected);
            assert!(is_untouched(&output));
        }
    }
    for edition in OTHER_EDITIONS {
        let mut output = vec![FILLER; 19];
        assert_eq!(number(convert(edition, 1, RIGHT_WORD, &mut output)), 12);
        assert!(is_untouched(&output));
    }
}

/// A sheet of R = 1 with this many records.
fn sheet_with(records: usize) -> Vec<u8> {
    let mut buffer = vec![FILLER; 2 * CELL];
    queue::format(&mut buffer).unwrap();
    for _ in 0..records {
        queue::enqueue(&mut buffer, 1, 1, RIGHT_WORD).unwrap();
    }
    buffer
}

/// A sheet whose length is wrong, an unsound one, and sound ones, empty and full.
fn sheets() -> [Vec<u8>; 4] {
    let mut unsound = sheet_with(1);
    unsound[2] = 1;
    [vec![FILLER; 2 * CELL - 1], unsound, sheet_with(0), sheet_with(1)]
}

#[test]
fn format_refuses_lengths() {
    for length in [0, 1, 103, 104, 207, 209, 26_623, 26_625, 26_728] {
        let mut buffer = vec![FILLER; length];
        assert_eq!(number(queue::format(&mut buffer)), 5);
        assert!(is_untouched(&buffer));
    }
}

#[test]
fn enqueue_refuses_in_order() {
    let [wrong_length, unsound, empty, full] = sheets();
    let short: &[u8] = &[255; 18];
    for (buffer, box_number, profile, word, expected) in [
        (&wrong_length, 0, 0, short, 5),
        (&unsound, 0, 0, short, 6),
        (&full, 0, 0, short, 7),
        (&empty, 41, 0, short, 7),
        (&empty, 255, 0, short, 7),
        (&full, 1, 0, short, 1),
        (&empty, 40, 5, short, 1),
        (&full, 1, 1, short, 2),
        (&full, 1, 1, &[3; 19], 3),
        (&full, 1, 1, &[254; 19], 3),
        (&full, 1, 1, &[255; 19], 8),
        (&full, 1, 1, UNREADABLE, 8),
    ] {
        let mut after = buffer.clone();
        assert_eq!(number(queue::enqueue(&mut after, box_number, profile, word)), expected);
        assert_eq!(&after, buffer);
    }
}

#[test]
fn peek_and_dequeue_refuse_in_order() {
    let [wrong_length, unsound, empty, full] = sheets();
    for (buffer, record, length, expected) in [
        (&wrong_length, 0, 103, 5),
        (&unsound, 0, 103, 6),
        (&empty, 1, 105, 2),
        (&empty, 1, 0, 2),
        (&empty, 1, CELL, 10),
        (&full, 0, 103, 2),
        (&full, 0, CELL, 10),
        (&full, 2, CELL, 10),
        (&full, 257, CELL, 10),
    ] {
        let mut output = vec![FILLER; length];
        assert_eq!(number(queue::peek(buffer, record, &mut output)), expected);
        if buffer != &full || length != CELL {
            let mut after = buffer.clone();
            assert_eq!(number(queue::dequeue(&mut after, &mut output)), expected);
            assert_eq!(&after, buffer);
        }
        assert!(is_untouched(&output));
    }
}

/// "A line not of this form gives 9, an empty one included; then the order of Read. A longer line
/// gives a single 9 .. The end of input straight after a byte 10 is not a line."
#[test]
fn lines_are_cut_and_refused_in_order() {
    let good = "1 1111111111111111102\n1 1111111111111111102";
    let longest = format!("5 {}", "9".repeat(99));
    let long = "1".repeat(10_000);
    for (input, expected) in [
        ("", ""),
        ("\n", "R 9\n"),
        ("\n\n1\n1 ", "R 9\nR 9\nR 9\nR 9\n"),
        (good, "1 C 0 0 0 00000 00000\n1 C 0 0 0 00000 00000\n"),
        (&format!("{good}\n"), "1 C 0 0 0 00000 00000\n1 C 0 0 0 00000 00000\n"),
        ("1  1\n1 1 \n1\t1\n1 1\r\n", "R 9\nR 9\nR 9\nR 9\n"),
        ("0 9", "R 1\n"),
        (&longest, "R 1\n"),
        (&format!("{longest}9"), "R 9\n"),
        (&format!("{long}\n0 9"), "R 9\nR 1\n"),
        (&format!("{}\n{long}", &long[..203]), "R 9\nR 9\n"),
        ("1 9", "R 2\n"),
        ("1 1111111111111111103", "R 3\n"),
        ("1 0000000000000000000", "R 4\n"),
        ("? 1111111111111111102\n1?1111111111111111102\n?\n??\n???", "R 9\n".repeat(5).as_str()),
        ("1 ?\n5 ???\n0 ?", "R 2\nR 1\nR 1\n"),
        ("1 ????????????????113", "R 3\n"),
        ("1 ???????????????????", "R 11\n"),
        (&format!("5 {}", "?".repeat(99)), "R 1\n"),
        (&format!("4 {}", "?".repeat(100)), "R 9\n"),
    ] {
        assert_eq!(boxlines(input.as_bytes()), expected);
    }
}
