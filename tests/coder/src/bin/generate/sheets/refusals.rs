//! Calls with every fault of their arguments, alone and together, on queues of every state.

use coder::list::{CELL, LAST_BOX};
use coder::profile::PROFILES;

use super::calls::Call;
use super::{Maker, DEQUEUE};
use crate::case_file::{row_for, PROFILE_NUMBERS};

/// A queue on which the order of refusals is tried: its name, its length, how many records it has,
/// and whether it is damaged.
type State = (&'static str, usize, usize, bool);

const STATES: [State; 5] = [
    ("wrong length", 3 * CELL - 1, 0, false),
    ("unsound", 3 * CELL, 1, true),
    ("full", 3 * CELL, 2, false),
    ("empty", 3 * CELL, 0, false),
    ("one record and room", 3 * CELL, 1, false),
];

impl Maker {
    /// Every fault of these calls' arguments, alone and together, on a queue of a wrong length, an
    /// unsound one, and sound ones. A call that changes the queue is followed by a new queue.
    pub fn order_of_refusals(&mut self, name: &str, calls: fn(&mut Maker) -> Vec<Call>) {
        for state in STATES {
            self.file.group(format!("{name}, alone and together, in 01's order: {}", state.0));
            self.prepare(state);
            for call in calls(self) {
                let before = self.buffer.clone();
                self.call(call);
                if self.buffer != before {
                    self.prepare(state);
                }
            }
        }
    }

    /// A new queue in this state.
    fn prepare(&mut self, (_, length, records, is_damaged): State) {
        self.calls([Call::New(length), Call::Format]);
        self.fill(records);
        if is_damaged {
            self.call(Call::Poke(2, 1));
        }
    }

    /// Calls of each kind, with none, one and several faults of their arguments.
    pub fn calls_with_faults(&mut self) -> Vec<Call> {
        let mut calls = Vec::new();
        for profile in PROFILE_NUMBERS {
            let row = row_for(profile);
            let right = self.rng.word(row.q, row.word_length());
            for box_number in [1, LAST_BOX, 0, LAST_BOX + 1, 255] {
                let words = word_variants(row.q, &right);
                calls.extend(words.map(|word| Call::Enqueue(box_number, profile, word)));
            }
        }
        for length in [CELL, CELL - 1, CELL + 1, 0, 2 * CELL] {
            let peeks = [1, 2, 3, 0, 255].map(|record| Call::Peek(record, length));
            calls.extend(peeks);
            calls.push(Call::Dequeue(length));
        }
        calls
    }

    /// "Any box number may come with any profile."
    pub fn every_box(&mut self) {
        self.file.group("every box number, and those beyond, with every profile");
        self.start(16);
        for profile in &PROFILES {
            for box_number in (0..=LAST_BOX + 1).chain([255]) {
                let word = self.rng.word(profile.q, profile.word_length());
                let profile = profile.number;
                self.calls([Call::Enqueue(box_number, profile, word), DEQUEUE]);
            }
        }
    }
}

/// A word of N symbols, and with each fault: short, long, empty, a symbol out of range at either
/// end, and long with a symbol out of range. 255 would be no fault, but an erasure.
fn word_variants(q: u8, word: &[u8]) -> [Vec<u8>; 7] {
    let last = word.len() - 1;
    [
        word.to_vec(),
        word[1..].to_vec(),
        [word, &[0]].concat(),
        vec![],
        [&word[..last], &[q]].concat(),
        [&[254], &word[1..]].concat(),
        [word, &[254]].concat(),
    ]
}
