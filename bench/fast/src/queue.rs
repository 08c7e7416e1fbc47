//! The queue in a lent buffer (01: the sheet). Each operation looks at every cell once.

use coder::list::{CELL, LAST_BOX};
use coder::refusal::{require, Refusal};

use crate::cell::{holds_record, is_free, is_head, BOX, FIRST_FREE, FIRST_USED, PROFILE, WORD};
use crate::code::{highest_received, shape};

/// The used cells of a sound queue, in the order of the list.
struct UsedCells {
    numbers: [u8; 256],
    count: usize,
}

/// 01: lay out.
pub fn format(buffer: &mut [u8]) -> Result<(), Refusal> {
    let capacity = capacity(buffer)?;
    buffer.fill(0);
    buffer[FIRST_FREE] = 1;
    for number in 1..capacity {
        buffer[number * CELL] = (number + 1) as u8;
    }
    Ok(())
}

/// 01: enter.
pub fn enqueue(
    buffer: &mut [u8],
    box_number: u64,
    profile: u64,
    word: &[u8],
) -> Result<(), Refusal> {
    let used = used_cells(buffer)?;
    require((1..=u64::from(LAST_BOX)).contains(&box_number), Refusal::BoxNumber)?;
    let shape = shape(profile)?;
    require(word.len() == shape.word_length, Refusal::Length)?;
    require(highest_received(word) <= shape.q, Refusal::Symbol)?;
    let taken = buffer[FIRST_FREE];
    require(taken != 0, Refusal::NoFreeCell)?;
    let cell = cell_mut(buffer, taken);
    let next_free = std::mem::take(&mut cell[0]);
    cell[BOX] = box_number as u8;
    cell[PROFILE] = profile as u8;
    cell[WORD..WORD + word.len()].copy_from_slice(word);
    buffer[FIRST_FREE] = next_free;
    let link = used.last().map_or(FIRST_USED, |last| usize::from(last) * CELL);
    buffer[link] = taken;
    Ok(())
}

/// 01: look.
pub fn peek(buffer: &[u8], record: u64, out: &mut [u8]) -> Result<(), Refusal> {
    copy_out(buffer, record, out).map(|_| ())
}

/// 01: take off.
pub fn dequeue(buffer: &mut [u8], out: &mut [u8]) -> Result<(), Refusal> {
    let number = copy_out(buffer, 1, out)?;
    let next_free = buffer[FIRST_FREE];
    let cell = cell_mut(buffer, number);
    let next_used = cell[0];
    cell.fill(0);
    cell[0] = next_free;
    buffer[FIRST_USED] = next_used;
    buffer[FIRST_FREE] = number;
    Ok(())
}

/// Copies a record out; the number of its cell.
fn copy_out(buffer: &[u8], record: u64, out: &mut [u8]) -> Result<u8, Refusal> {
    let used = used_cells(buffer)?;
    require(out.len() == CELL, Refusal::Length)?;
    let number = used.at(record).ok_or(Refusal::NoSuchRecord)?;
    out.copy_from_slice(cell(buffer, number));
    out[0] = 0;
    Ok(number)
}

impl UsedCells {
    /// The cell of a record, counted from 1.
    fn at(&self, record: u64) -> Option<u8> {
        let index = usize::try_from(record).ok()?.checked_sub(1)?;
        self.numbers[..self.count].get(index).copied()
    }

    fn last(&self) -> Option<u8> {
        self.at(self.count as u64)
    }
}

/// 01: R.
fn capacity(buffer: &[u8]) -> Result<usize, Refusal> {
    let cells = buffer.len() / CELL;
    let fits = buffer.len().is_multiple_of(CELL) && (2..=256).contains(&cells);
    require(fits, Refusal::QueueLength)?;
    Ok(cells - 1)
}

fn cell(buffer: &[u8], number: u8) -> &[u8] {
    &buffer[usize::from(number) * CELL..][..CELL]
}

fn cell_mut(buffer: &mut [u8], number: u8) -> &mut [u8] {
    &mut buffer[usize::from(number) * CELL..][..CELL]
}

/// The used list of a sound queue: walks both lists, marks the cells seen, and looks at each once.
fn used_cells(buffer: &[u8]) -> Result<UsedCells, Refusal> {
    let capacity = capacity(buffer)?;
    let mut walk = Walk { buffer, capacity, seen: [false; 256] };
    let mut used = UsedCells { numbers: [0; 256], count: 0 };
    walk.list(buffer[FIRST_USED], holds_record, |number| {
        used.numbers[used.count] = number;
        used.count += 1;
    })?;
    let mut free = 0;
    walk.list(buffer[FIRST_FREE], is_free, |_| free += 1)?;
    let is_sound = used.count + free == capacity && is_head(cell(buffer, 0));
    require(is_sound, Refusal::UnsoundQueue)?;
    Ok(used)
}

struct Walk<'a> {
    buffer: &'a [u8],
    capacity: usize,
    seen: [bool; 256],
}

impl Walk<'_> {
    /// Follows a list from its first cell; each must be new, within the queue and as it should be.
    fn list(
        &mut self,
        first: u8,
        is_right: impl Fn(&[u8]) -> bool,
        mut visit: impl FnMut(u8),
    ) -> Result<(), Refusal> {
        let mut number = first;
        while number != 0 {
            let is_new = usize::from(number) <= self.capacity && !self.seen[usize::from(number)];
            require(is_new, Refusal::UnsoundQueue)?;
            self.seen[usize::from(number)] = true;
            let cell = cell(self.buffer, number);
            require(is_right(cell), Refusal::UnsoundQueue)?;
            visit(number);
            number = cell[0];
        }
        Ok(())
    }
}
