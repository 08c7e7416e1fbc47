//! The model of the queue: "a first-in first-out list of at most R records".

use std::collections::VecDeque;

use crate::profile::Profile;
use crate::refusal::{require, Refusal};

/// The bytes of a cell, and of a record that is copied out.
pub const CELL: usize = 104;

/// Box numbers run from 1 to this.
pub const LAST_BOX: u8 = 40;

/// What a used cell holds after byte 0.
#[derive(Debug, Clone, PartialEq, Eq)]
pub struct Record {
    pub box_number: u8,
    pub profile: u8,
    pub word: Vec<u8>,
}

impl Record {
    /// "7 if the box is not 1 to 40, then 1, then 2 if the word is not N long, then 3". "Any box
    /// number may come with any profile." T-01: "Sheets may keep any number of marks."
    pub fn new(box_number: u8, profile: u8, word: &[u8]) -> Result<Record, Refusal> {
        require((1..=LAST_BOX).contains(&box_number), Refusal::BoxNumber)?;
        let row = Profile::lookup(profile)?;
        require(word.len() == row.word_length(), Refusal::Length)?;
        row.require_received(word)?;
        Ok(Record { box_number, profile, word: word.to_vec() })
    }

    /// "A used cell has the box number (1 to 40) in byte 1, the profile in byte 2, N symbols from
    /// byte 3, then zeros." Byte 0 is zero, as in "copied out with byte 0 as zero".
    pub fn to_cell(&self) -> [u8; CELL] {
        let mut cell = [0; CELL];
        cell[1] = self.box_number;
        cell[2] = self.profile;
        cell[3..3 + self.word.len()].copy_from_slice(&self.word);
        cell
    }

    /// The record in a used cell, where its bytes after byte 0 are one.
    pub fn from_cell(cell: &[u8]) -> Option<Record> {
        let profile = Profile::lookup(cell[2]).ok()?;
        let record = Record::new(cell[1], cell[2], &cell[3..3 + profile.word_length()]).ok()?;
        (record.to_cell()[1..] == cell[1..]).then_some(record)
    }
}

/// "a first-in first-out list of at most R records".
#[derive(Debug, Clone, PartialEq, Eq)]
pub struct RecordList {
    pub capacity: usize,
    pub records: VecDeque<Record>,
}

impl RecordList {
    /// The list of "an empty laid-out sheet".
    pub fn new(capacity: usize) -> RecordList {
        RecordList { capacity, records: VecDeque::new() }
    }

    /// 01: enter. "8 is met only with R records in it".
    pub fn enqueue(&mut self, record: Record) -> Result<(), Refusal> {
        require(self.records.len() < self.capacity, Refusal::NoFreeCell)?;
        self.records.push_back(record);
        Ok(())
    }

    /// 01: look, "record number from 1".
    pub fn peek(&self, number: usize) -> Result<&Record, Refusal> {
        let index = number.checked_sub(1).ok_or(Refusal::NoSuchRecord)?;
        self.records.get(index).ok_or(Refusal::NoSuchRecord)
    }

    /// 01: take off, "always the first".
    pub fn dequeue(&mut self) -> Result<Record, Refusal> {
        self.records.pop_front().ok_or(Refusal::NoSuchRecord)
    }
}
