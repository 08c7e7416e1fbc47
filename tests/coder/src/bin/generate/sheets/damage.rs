//! Queues with a byte written from outside: unsound ones, met and repaired, and sound ones that no
//! call leaves behind.

use coder::list::CELL;
use coder::queue::is_sound;

use super::calls::Call;
use super::{Maker, DEQUEUE, PEEK};

/// Cell, byte and value: what is written into a queue with the used list 1, 2, 3 of profiles 1, 4,
/// 2 and the free list 4, 5. Three of these leave it sound: another box, symbol or profile.
#[rustfmt::skip]
const DAMAGES: [(usize, usize, u8); 49] = [
    // Cell 0: lists that start elsewhere, and bytes that should be zero.
    (0, 0, 0), (0, 0, 2), (0, 0, 4), (0, 0, 6), (0, 0, 255),
    (0, 1, 0), (0, 1, 5), (0, 1, 1), (0, 1, 6), (0, 1, 255), (0, 2, 1), (0, 103, 1),
    // Cell 1, used: a list that ends early, goes round, skips a cell, joins the other or leaves.
    (1, 0, 0), (1, 0, 1), (1, 0, 3), (1, 0, 4), (1, 0, 5), (1, 0, 6),
    // Its box, profile and symbols, and the byte after the last symbol.
    (1, 1, 0), (1, 1, 41), (1, 1, 40), (1, 2, 0), (1, 2, 5), (1, 2, 4), (1, 3, 3), (1, 3, 2),
    (1, 21, 3), (1, 22, 1), (1, 103, 1),
    // Cell 2, used, with the longest word; profile 3 is too short for its symbols.
    (2, 0, 0), (2, 0, 1), (2, 0, 2), (2, 2, 3), (2, 3, 7), (2, 101, 7), (2, 102, 1), (2, 103, 1),
    // Cell 3, the last used one.
    (3, 0, 1), (3, 0, 3), (3, 0, 4), (3, 0, 5),
    // Cells 4 and 5, free.
    (4, 0, 0), (4, 0, 4), (4, 0, 1), (4, 1, 1), (4, 103, 1),
    (5, 0, 4), (5, 0, 3), (5, 2, 1),
];

/// Cell and next cell, written into a queue with the used list 1 to 128 and the free list 129 to
/// 255: lists that do not end, share a cell or miss one.
#[rustfmt::skip]
const LONG_DAMAGES: [(usize, u8); 16] = [
    (128, 1), (128, 128), (128, 64), (128, 129), (128, 255), (127, 0), (64, 66), (1, 0),
    (255, 255), (255, 129), (255, 128), (255, 1), (254, 0), (200, 202), (129, 0), (130, 128),
];

/// Cell, byte and value: what turns an empty queue of four cells, byte by byte, into one with the
/// used list 4, 3 and the free list 2, 1.
#[rustfmt::skip]
const OTHER_ORDERS: [(usize, usize, u8); 10] = [
    (0, 1, 2), (2, 0, 1), (1, 0, 0), (3, 0, 0), (0, 0, 4), (4, 0, 3),
    (3, 1, 7), (3, 2, 1), (4, 1, 8), (4, 2, 1),
];

impl Maker {
    /// Pokes a byte, makes calls and pokes it back. A queue that is still sound is only looked at.
    pub fn poke_and_repair(&mut self, index: usize, value: u8) {
        let before = self.buffer[index];
        self.call(Call::Poke(index, value));
        self.call(PEEK);
        if !is_sound(&self.buffer) {
            let enqueue = self.enqueue();
            self.calls([enqueue, DEQUEUE]);
        }
        self.call(Call::Poke(index, before));
        self.call(PEEK);
    }

    /// DAMAGES, one after the other.
    pub fn every_damage(&mut self) {
        self.file
            .group("damage of every kind, met and repaired: used list 1, 2, 3, free list 4, 5");
        self.start(5);
        for profile in [1, 4, 2] {
            let enqueue = self.enqueue_of(profile);
            self.call(enqueue);
        }
        for (cell, byte, value) in DAMAGES {
            self.poke_and_repair(cell * CELL + byte, value);
        }
    }

    /// OTHER_ORDERS, then calls that show both lists.
    pub fn other_orders(&mut self) {
        self.file.group("a sound queue that no call leaves behind: used list 4, 3, free list 2, 1");
        self.start(4);
        for (cell, byte, value) in OTHER_ORDERS {
            self.calls([Call::Poke(cell * CELL + byte, value), PEEK]);
        }
        self.fill(3);
        self.calls([DEQUEUE; 5]);
    }

    /// No byte can be 254 in a queue of two cells.
    pub fn every_byte(&mut self) {
        self.file.group("254 at every byte of a queue with one used and one free cell");
        self.start(2);
        let enqueue = self.enqueue_of(2);
        self.call(enqueue);
        self.set_every_byte(254, DEQUEUE);
    }

    /// Pokes a value into every byte by turns, with a call in between, and takes the record off.
    pub fn set_every_byte(&mut self, value: u8, call: Call) {
        for index in 0..self.buffer.len() {
            let before = Call::Poke(index, self.buffer[index]);
            self.calls([Call::Poke(index, value), call.clone(), before]);
        }
        self.call(DEQUEUE);
    }

    /// LONG_DAMAGES, one after the other.
    pub fn long_damage(&mut self) {
        self.file.group("damage of long lists: R = 255, used list 1 to 128, free list 129 to 255");
        self.start(255);
        self.fill(128);
        for (cell, next) in LONG_DAMAGES {
            self.poke_and_repair(cell * CELL, next);
        }
    }
}
