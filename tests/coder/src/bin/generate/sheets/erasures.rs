//! Queues whose words have erasures (02, T-01: marks). They come after all others, so that the calls
//! without erasures are those that were stored before.

use coder::erased_words::erased;
use coder::erasure::ERASURE;
use coder::list::CELL;
use coder::profile::PROFILES;

use super::calls::Call;
use super::{Maker, DEQUEUE, PEEK};
use crate::case_file::{row_for, PROFILE_NUMBERS};

/// The capacities of the random runs, and how many calls each has.
const RANDOM_RUNS: [(usize, usize); 3] = [(2, 200), (16, 500), (255, 600)];

/// Cell, byte and value: what is written into a queue with the used list 1, 2, 3 of profiles 1, 4,
/// 2, every symbol erased, and the free list 4, 5.
#[rustfmt::skip]
const DAMAGES: [(usize, usize, u8); 31] = [
    // Cell 0, and links.
    (0, 0, 255), (0, 1, 255), (0, 2, 255), (0, 103, 255), (1, 0, 255), (3, 0, 255), (5, 0, 255),
    // The box and the profile. Profile 4 takes the zeros after cell 1's word for symbols.
    (1, 1, 255), (1, 2, 255), (2, 1, 255), (2, 2, 255), (1, 2, 4), (2, 2, 3), (3, 2, 3),
    // The first and the last symbol, as a level, the highest level and beyond.
    (1, 3, 0), (1, 3, 2), (1, 3, 3), (1, 3, 254), (1, 21, 0), (1, 21, 254), (2, 101, 6),
    (2, 101, 7), (2, 101, 254), (3, 57, 254),
    // The zeros after the last symbol, and free cells.
    (1, 22, 255), (1, 103, 255), (2, 102, 255), (3, 58, 255), (4, 1, 255), (4, 103, 255),
    (5, 3, 255),
];

impl Maker {
    pub fn erasures(&mut self) {
        self.erased_words();
        self.order_of_refusals("refusals of words with erasures", Maker::calls_with_erasures);
        self.damaged_erasures();
        self.every_byte_erased();
        self.with_erasures = true;
        for (capacity, calls) in RANDOM_RUNS {
            self.random_run("random calls with erasures", capacity, calls);
        }
    }

    /// "Sheets may keep any number of marks."
    fn erased_words(&mut self) {
        self.file.group(
            "T-01, here and below: words with one, two, three and all symbols erased, entered, \
             looked at and taken off",
        );
        self.start(16);
        for profile in &PROFILES {
            for count in [1, 2, 3, profile.word_length()] {
                let word = self.rng.word(profile.q, profile.word_length());
                let word = erased(&word, count, &mut self.rng);
                self.call(Call::Enqueue(profile.number, profile.number, word));
            }
        }
        self.calls((1..=17).map(|record| Call::Peek(record, CELL)));
        self.calls([DEQUEUE; 17]);
    }

    /// Words with erasures and with faults beside them.
    fn calls_with_erasures(&mut self) -> Vec<Call> {
        let mut calls = Vec::new();
        for profile in PROFILE_NUMBERS {
            let row = row_for(profile);
            let all = vec![ERASURE; row.word_length()];
            let one = erased(&self.rng.word(row.q, row.word_length()), 1, &mut self.rng);
            let words = [
                one,
                all.clone(),
                all[1..].to_vec(),
                [&all[..], &[ERASURE]].concat(),
                [&all[1..], &[row.q]].concat(),
                [&[254], &all[1..]].concat(),
            ];
            for box_number in [1, 0] {
                calls.extend(
                    words.iter().map(|word| Call::Enqueue(box_number, profile, word.clone())),
                );
            }
        }
        calls
    }

    /// DAMAGES, one after the other.
    fn damaged_erasures(&mut self) {
        self.file.group("erasures written from outside, and taken away: used list 1, 2, 3, erased");
        self.start(5);
        for profile in [1, 4, 2] {
            let word = vec![ERASURE; row_for(profile).word_length()];
            self.call(Call::Enqueue(profile, profile, word));
        }
        for (cell, byte, value) in DAMAGES {
            self.poke_and_repair(cell * CELL + byte, value);
        }
    }

    /// A byte of a queue of two cells can be 255 in the word, and nowhere else.
    fn every_byte_erased(&mut self) {
        self.file.group("255 at every byte of a queue with one used and one free cell");
        self.start(2);
        let enqueue = self.enqueue_of(3);
        self.call(enqueue);
        self.set_every_byte(ERASURE, PEEK);
    }
}
