//! Calls on one queue: how a call is written, what it answers, and the list that must answer alike.

use std::fmt;

use coder::list::{Record, RecordList, CELL};
use coder::queue;
use coder::refusal::{Refusal, FILLER};
use coder::text::EMPTY_WORD;

use super::Maker;

/// One call, or one act on the buffer between calls.
#[derive(Debug, Clone)]
pub enum Call {
    /// A new buffer of this length, every byte FILLER.
    New(usize),
    Format,
    /// Box number, profile and word.
    Enqueue(u8, u8, Vec<u8>),
    /// A record, into an output of this length.
    Peek(u8, usize),
    /// Into an output of this length.
    Dequeue(usize),
    /// Writes one byte of the buffer, from outside: index and value.
    Poke(usize, u8),
}

impl fmt::Display for Call {
    fn fmt(&self, line: &mut fmt::Formatter) -> fmt::Result {
        match self {
            Call::New(length) => write!(line, "N {length}"),
            Call::Format => write!(line, "F"),
            Call::Enqueue(number, profile, word) => {
                write!(line, "E {number} {profile} {}", hexadecimal(word))
            }
            Call::Peek(record, length) => write!(line, "L {record} {length}"),
            Call::Dequeue(length) => write!(line, "T {length}"),
            Call::Poke(index, value) => write!(line, "P {index} {value}"),
        }
    }
}

/// Two digits for each byte, so that any byte can stand in a word.
fn hexadecimal(word: &[u8]) -> String {
    if word.is_empty() {
        return EMPTY_WORD.to_string();
    }
    word.iter().map(|byte| format!("{byte:02x}")).collect()
}

/// h = (h · 31 + byte) mod 65521 over all bytes, from h = 1.
fn digest(bytes: &[u8]) -> u32 {
    bytes.iter().fold(1, |hash, &byte| (hash * 31 + u32::from(byte)) % 65521)
}

impl Maker {
    /// Makes the call and adds its case: the call's line; then the number (0 if not refused), the
    /// digest of the whole buffer and the digest of the output buffer.
    pub fn call(&mut self, call: Call) {
        let mut output = match call {
            Call::Peek(_, length) | Call::Dequeue(length) => vec![FILLER; length],
            _ => Vec::new(),
        };
        let answer = self.apply(&call, &mut output);
        self.follow(&call, answer, &output);
        let number = answer.map_or_else(Refusal::number, |()| 0);
        let expected = format!("{number} {} {}", digest(&self.buffer), digest(&output));
        self.file.case(call.to_string(), &expected);
    }

    /// Makes several calls.
    pub fn calls(&mut self, calls: impl IntoIterator<Item = Call>) {
        calls.into_iter().for_each(|call| self.call(call));
    }

    /// Makes the call on the bytes alone.
    fn apply(&mut self, call: &Call, output: &mut [u8]) -> Result<(), Refusal> {
        match call {
            Call::New(length) => self.buffer = vec![FILLER; *length],
            Call::Format => queue::format(&mut self.buffer)?,
            Call::Enqueue(number, profile, word) => {
                queue::enqueue(&mut self.buffer, *number, *profile, word)?
            }
            Call::Peek(record, _) => queue::peek(&self.buffer, usize::from(*record), output)?,
            Call::Dequeue(_) => queue::dequeue(&mut self.buffer, output)?,
            Call::Poke(index, value) => self.buffer[*index] = *value,
        }
        Ok(())
    }

    /// Does the same to the list, and insists that the answer, the record copied out and the list
    /// that the buffer now holds are the same. A queue that is not sound must have refused the
    /// call for that; what is written from outside and leaves it sound becomes the list.
    fn follow(&mut self, call: &Call, answer: Result<(), Refusal>, output: &[u8]) {
        let records = match queue::records(&self.buffer) {
            Ok(records) => records,
            Err(refusal) => {
                let from_outside = matches!(call, Call::New(_) | Call::Poke(..));
                assert!(from_outside || answer == Err(refusal), "{call}");
                return;
            }
        };
        let copied = |record: &Record| assert_eq!(record.to_cell(), output, "{call}");
        let expected = match call {
            Call::New(_) | Call::Format => {
                self.list = RecordList::new(self.buffer.len() / CELL - 1);
                Ok(())
            }
            Call::Poke(..) => {
                self.list.records = records.clone();
                Ok(())
            }
            Call::Enqueue(number, profile, word) => {
                Record::new(*number, *profile, word).and_then(|record| self.list.enqueue(record))
            }
            _ if output.len() != CELL => Err(Refusal::Length),
            Call::Peek(record, _) => self.list.peek(usize::from(*record)).map(copied),
            Call::Dequeue(_) => {
                self.list.dequeue().as_ref().map(copied).map_err(|&refusal| refusal)
            }
        };
        assert_eq!(answer, expected, "{call}");
        assert_eq!(records, self.list.records, "{call}");
    }
}

/// Written and worked out by hand: 1·31 + 170 is the digest of one filler byte, 201·31 + 170 of two.
#[test]
fn a_run_of_calls() {
    let mut maker = Maker::default();
    let enqueue = |word: &[u8]| Call::Enqueue(41, 0, word.to_vec());
    maker.calls([
        Call::New(1),
        Call::Format,
        Call::Dequeue(2),
        enqueue(&[0, 6, 255]),
        enqueue(&[]),
    ]);
    assert_eq!(maker.file.input, b"N 1\nF\nT 2\nE 41 0 0006ff\nE 41 0 -\n");
    assert_eq!(maker.file.expected, b"0 201 1\n5 201 1\n5 201 6401\n5 201 1\n5 201 1\n");
}
