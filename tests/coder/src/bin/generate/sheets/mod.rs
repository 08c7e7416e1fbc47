//! sheets: runs of calls on the queue (01: the sheet), refused calls and damage among them.

mod calls;
mod damage;
mod erasures;
mod refusals;
mod runs;

use coder::erased_words::erased;
use coder::list::{RecordList, CELL, LAST_BOX};
use coder::profile::PROFILES;
use coder::rng::Rng;

use crate::case_file::{row_for, CaseFile};
use calls::Call;

const SEED: u64 = 0x7368_6565;

/// Buffers that are too short, too long or no multiple of a cell, and some that are right.
const LENGTHS: [usize; 17] = [
    0, 1, 103, 104, 105, 207, 208, 209, 311, 312, 313, 416, 13_312, 26_623, 26_624, 26_625, 26_728,
];

/// Calls that a queue with a record does not refuse.
const PEEK: Call = Call::Peek(1, CELL);
const DEQUEUE: Call = Call::Dequeue(CELL);

pub fn make() -> CaseFile {
    let mut maker = Maker::default();
    maker.layouts();
    maker.one_cell();
    maker.order_of_refusals("refusals", Maker::calls_with_faults);
    maker.every_box();
    maker.every_damage();
    maker.other_orders();
    maker.every_byte();
    maker.long_damage();
    maker.random_runs();
    maker.full_day();
    maker.erasures();
    maker.file
}

/// The file in the making, the queue that its calls are made on, the list that it must answer as,
/// and whether random words have erasures.
struct Maker {
    file: CaseFile,
    buffer: Vec<u8>,
    list: RecordList,
    rng: Rng,
    with_erasures: bool,
}

impl Default for Maker {
    fn default() -> Maker {
        let (file, list) = (CaseFile::default(), RecordList::new(0));
        Maker { file, buffer: Vec::new(), list, rng: Rng::new(SEED), with_erasures: false }
    }
}

impl Maker {
    /// A new, formatted queue of this capacity (01: R).
    fn start(&mut self, capacity: usize) {
        self.calls([Call::New((capacity + 1) * CELL), Call::Format]);
    }

    /// An enqueue that only 5, 6 or 8 can refuse; the word is any word of its profile.
    fn enqueue(&mut self) -> Call {
        let profile = self.rng.from_one_to(PROFILES.len()) as u8;
        self.enqueue_of(profile)
    }

    /// The same with a given profile.
    fn enqueue_of(&mut self, profile: u8) -> Call {
        let row = row_for(profile);
        let box_number = self.rng.from_one_to(usize::from(LAST_BOX)) as u8;
        let mut word = self.rng.word(row.q, row.word_length());
        if self.with_erasures {
            let count = *self.rng.pick(&[0, 1, 2, 3, word.len()]);
            word = erased(&word, count, &mut self.rng);
        }
        Call::Enqueue(box_number, profile, word)
    }

    /// Enqueues this many records.
    fn fill(&mut self, count: usize) {
        for _ in 0..count {
            let enqueue = self.enqueue();
            self.call(enqueue);
        }
    }

    /// Buffers of every length in LENGTHS, before and after they are formatted.
    fn layouts(&mut self) {
        self.file
            .group("format by length, each length also with every other call, before and after");
        for length in LENGTHS {
            let enqueue = self.enqueue_of(1);
            let uses = [enqueue, PEEK, DEQUEUE];
            self.call(Call::New(length));
            for _ in 0..2 {
                self.calls(uses.clone());
                self.call(Call::Format);
            }
        }
    }

    /// "R = 1: enter, enter gives 8, take off, enter succeeds."
    fn one_cell(&mut self) {
        self.file.group("case of 01: R = 1, the cell is used again");
        self.start(1);
        let enqueue = self.enqueue_of(1);
        self.calls([enqueue.clone(), enqueue.clone(), DEQUEUE, enqueue]);
    }
}
