//! Long runs of calls: random ones on queues of several capacities, and a day on the largest.

use coder::erasure::ERASURE;
use coder::list::CELL;

use super::calls::Call;
use super::{Maker, DEQUEUE};

/// The capacities of the random runs, and how many calls each has.
const RANDOM_RUNS: [(usize, usize); 5] = [(1, 300), (2, 400), (3, 500), (16, 900), (255, 1500)];

/// How often a full queue of 255 records is rotated by one record: more than six times round.
const ROTATIONS: usize = 1600;

impl Maker {
    pub fn random_runs(&mut self) {
        for (capacity, calls) in RANDOM_RUNS {
            self.random_run("random calls", capacity, calls);
        }
    }

    /// Random calls on a queue that fills and drains by turns; some refused, some on damage.
    pub fn random_run(&mut self, name: &str, capacity: usize, calls: usize) {
        self.file.group(format!("{name}, R = {capacity}"));
        self.start(capacity);
        for count in 0..calls {
            let filling = (count / (2 * capacity + 3)).is_multiple_of(2);
            match self.rng.below(20) {
                0 => self.random_damage(),
                1 => self.random_fault(),
                2 | 3 => {
                    let record = self.rng.below((capacity + 2).min(256)) as u8;
                    self.call(Call::Peek(record, CELL));
                }
                draw => {
                    let call = if filling == (draw < 15) { self.enqueue() } else { DEQUEUE };
                    self.call(call);
                }
            }
        }
    }

    /// Any byte, set to any value and back; half of the time to 255 where there are erasures.
    fn random_damage(&mut self) {
        let index = self.rng.below(self.buffer.len());
        let any = self.rng.below(256) as u8;
        let value = if self.with_erasures && self.rng.once_in(2) { ERASURE } else { any };
        self.poke_and_repair(index, value);
    }

    /// A call with faults, or with none.
    fn random_fault(&mut self) {
        let calls = self.calls_with_faults();
        let call = self.rng.pick(&calls).clone();
        self.call(call);
    }

    /// Fills 255 cells, goes round them, drains them in two steps, and does so once more with the
    /// free list in the order that this leaves.
    pub fn full_day(&mut self) {
        self.file.group("a day on R = 255 that goes round the cells many times");
        self.start(255);
        for rotations in [ROTATIONS, 0] {
            self.fill(256);
            for count in 0..rotations {
                let enqueue = self.enqueue();
                self.calls([DEQUEUE, enqueue]);
                if count % 8 == 0 {
                    let record = self.rng.from_one_to(255) as u8;
                    self.call(Call::Peek(record, CELL));
                }
            }
            self.calls([DEQUEUE; 100]);
            self.fill(50);
            self.calls([DEQUEUE; 206]);
        }
    }
}
