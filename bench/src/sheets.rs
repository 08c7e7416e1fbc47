//! The four operations on sheets of three capacities (01: R).

use std::hint::black_box;
use std::time::Duration;

use coder::list::CELL;
use coder::profile::PROFILES;
use coder::rng::Rng;
use fogzurt::{EntryPoints, LIBRARY};

use crate::fast_coder::FAST;
use crate::race::{time, Race};

const CAPACITIES: [usize; 3] = [1, 16, 255];

/// Records over all sheets of one capacity, at least.
const RECORDS: usize = 1000;

/// What is measured, in the order of a turn: every sheet is formatted, filled, looked through and
/// emptied, so that enqueue and dequeue meet every state of a sheet.
const OPERATIONS: [&str; 4] = ["format", "enqueue", "peek", "dequeue"];

pub fn race_capacities() {
    for capacity in CAPACITIES {
        let sheets = RECORDS.div_ceil(capacity);
        let records = sheets * capacity;
        let words = words(capacity);
        let mut memory = vec![0; sheets * (capacity + 1) * CELL];
        let mut others = memory.clone();
        let races = Race::new(
            [sheets, records, records, records],
            || turn(&FAST, &mut memory, &words),
            || turn(&LIBRARY, &mut others, &words),
        );
        assert!(memory == others, "the coders left different sheets");
        for (race, operation) in races.iter().zip(OPERATIONS) {
            println!("{}", race.row(&format!("R = {capacity}, {operation}"), None));
        }
    }
}

/// A word of each profile by turns, with its profile's number.
fn words(capacity: usize) -> Vec<(u64, Vec<u8>)> {
    let rng = &mut Rng::new(capacity as u64);
    let profiles = PROFILES.iter().cycle().take(capacity);
    profiles
        .map(|profile| (u64::from(profile.number), rng.word(profile.q, profile.word_length())))
        .collect()
}

/// Times each operation on all the sheets in the memory, which have a record for each word.
fn turn(
    coder: &EntryPoints,
    memory: &mut [u8],
    words: &[(u64, Vec<u8>)],
) -> [Duration; OPERATIONS.len()] {
    let length = (words.len() + 1) * CELL;
    let out = &mut [0; CELL];
    let format = time(|| {
        for sheet in memory.chunks_mut(length) {
            assert!((coder.format)(black_box(sheet)) == 0);
        }
    });
    let enqueue = time(|| {
        for sheet in memory.chunks_mut(length) {
            for (profile, word) in words {
                assert!((coder.enqueue)(black_box(sheet), 1, *profile, word) == 0);
            }
        }
    });
    let peek = time(|| {
        for sheet in memory.chunks(length) {
            for record in 1..=words.len() as u64 {
                assert!((coder.peek)(black_box(sheet), record, black_box(out)) == 0);
            }
        }
    });
    let dequeue = time(|| {
        for sheet in memory.chunks_mut(length) {
            for _ in words {
                assert!((coder.dequeue)(black_box(sheet), black_box(out)) == 0);
            }
        }
    });
    [format, enqueue, peek, dequeue]
}
