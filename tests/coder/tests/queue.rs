//! What 01 says of the sheet's bytes. That any sequence of calls answers as the list does is tried
//! where the vectors are made, call by call.

use coder::list::CELL;
use coder::queue::{dequeue, enqueue, format, is_sound, records};

/// A formatted sheet with a record of each of these profiles; the words need not be readable.
fn sheet(capacity: usize, profiles: &[(u8, usize)]) -> Vec<u8> {
    let mut buffer = vec![170; (capacity + 1) * CELL];
    format(&mut buffer).unwrap();
    for &(profile, length) in profiles {
        enqueue(&mut buffer, 1, profile, &vec![2; length]).unwrap();
    }
    buffer
}

/// "Only that cell, cell 0 and the former last cell may change."
#[test]
fn enqueue_changes_three_cells_at_most() {
    let mut buffer = sheet(4, &[]);
    for expected in [vec![0, 1], vec![0, 1, 2], vec![0, 2, 3], vec![0, 3, 4]] {
        let before = buffer.clone();
        enqueue(&mut buffer, 40, 1, &[1; 19]).unwrap();
        let mut cells: Vec<usize> = (0..5).collect();
        cells.retain(|cell| before[cell * CELL..][..CELL] != buffer[cell * CELL..][..CELL]);
        assert_eq!(cells, expected);
    }
}

/// "Take off zeroes the cell and puts it first on the free chain", and it "is used again".
#[test]
fn a_cell_taken_off_is_the_next_one_used() {
    let mut buffer = sheet(4, &[(4, 99), (1, 19)]);
    dequeue(&mut buffer, &mut [170; CELL]).unwrap();
    assert_eq!(buffer[..2], [2, 1]);
    assert_eq!(buffer[CELL], 3);
    assert!(buffer[CELL + 1..2 * CELL].iter().all(|&byte| byte == 0));
    enqueue(&mut buffer, 1, 1, &[2; 19]).unwrap();
    assert_eq!(buffer[..2], [2, 3]);
    assert_eq!(buffer[2 * CELL], 1);
}

/// "Words are kept as received and need not be readable."
#[test]
fn an_unreadable_word_is_kept() {
    assert_eq!(records(&sheet(1, &[(4, 99)])).unwrap()[0].word, [2; 99]);
}

/// T-01: "Sheets may keep any number of marks."
#[test]
fn any_number_of_erasures_is_kept() {
    let mut buffer = sheet(4, &[]);
    for erasures in [1, 2, 3, 99] {
        let word = [&vec![255; erasures][..], &vec![6; 99 - erasures]].concat();
        enqueue(&mut buffer, 1, 4, &word).unwrap();
        assert_eq!(records(&buffer).unwrap().back().unwrap().word, word);
    }
}

/// Whether a sheet with the used chain 1, 2 (profiles 1 and 4) and the free chain 3, 4 is still
/// sound with one byte of a cell set.
fn sound_with(cell: usize, byte: usize, value: u8) -> bool {
    let mut buffer = sheet(4, &[(1, 19), (4, 99)]);
    buffer[cell * CELL + byte] = value;
    is_sound(&buffer)
}

#[test]
#[rustfmt::skip]
fn soundness_is_what_the_paragraph_says() {
    for (cell, byte, value) in [
        (0, 0, 1), (1, 1, 40), (1, 2, 4), (1, 3, 0), (2, 101, 0),
        // Erasures.
        (1, 3, 255), (1, 21, 255), (2, 3, 255), (2, 101, 255),
    ] {
        assert!(sound_with(cell, byte, value), "{cell} {byte} {value}");
    }
    for (cell, byte, value) in [
        // The chains.
        (0, 0, 0), (0, 0, 2), (0, 0, 5), (0, 1, 0), (0, 1, 1), (0, 1, 4), (1, 0, 0), (1, 0, 1),
        (1, 0, 3), (2, 0, 1), (2, 0, 3), (3, 0, 0), (3, 0, 3), (4, 0, 3), (4, 0, 255),
        // Zeros.
        (0, 2, 1), (0, 103, 1), (1, 22, 1), (1, 103, 1), (2, 102, 1), (3, 1, 1), (4, 103, 1),
        // A record's fields.
        (1, 1, 0), (1, 1, 41), (1, 2, 0), (1, 2, 5), (1, 3, 3), (1, 21, 3), (2, 2, 3), (2, 101, 7),
        // 255 where no symbol stands, and what is no erasure.
        (0, 2, 255), (1, 1, 255), (1, 2, 255), (1, 22, 255), (1, 103, 255), (2, 102, 255),
        (3, 1, 255), (4, 103, 255), (1, 3, 254), (1, 21, 254), (2, 101, 254),
    ] {
        assert!(!sound_with(cell, byte, value), "{cell} {byte} {value}");
    }
}
