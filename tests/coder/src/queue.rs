//! The queue in a lent buffer (01: the sheet): its bytes, the test that they are sound, and the
//! four operations. The list beside it, which it must answer as, is in `list`.

use std::collections::VecDeque;

use crate::list::{Record, CELL};
use crate::refusal::{require, Refusal};

/// Where a linked list (01: chain) starts in cell 0: "byte 0 is the first used cell, byte 1 the
/// first free cell".
const FIRST_USED: usize = 0;
const FIRST_FREE: usize = 1;

/// "5 if the length is not 104 times a number from 2 to 256"; otherwise R, one less than that
/// number.
pub fn capacity(length: usize) -> Result<usize, Refusal> {
    let cells = length / CELL;
    let fits = length.is_multiple_of(CELL) && (2..=256).contains(&cells);
    require(fits, Refusal::QueueLength)?;
    Ok(cells - 1)
}

/// The bytes of one cell.
fn cell(buffer: &[u8], number: usize) -> &[u8] {
    &buffer[number * CELL..(number + 1) * CELL]
}

/// The bytes of one cell, to be changed.
fn cell_mut(buffer: &mut [u8], number: usize) -> &mut [u8] {
    &mut buffer[number * CELL..(number + 1) * CELL]
}

/// The cells of a linked list (01: chain), from its first on. "In cells 1 to R byte 0 is the next
/// cell; zero ends a chain." None if it leaves the cells 1 to R or does not end.
fn linked_cells(buffer: &[u8], first: u8) -> Option<Vec<usize>> {
    let last = buffer.len() / CELL - 1;
    let mut cells = Vec::new();
    let mut next = usize::from(first);
    while next != 0 {
        if next > last || cells.len() == last {
            return None;
        }
        cells.push(next);
        next = usize::from(cell(buffer, next)[0]);
    }
    Some(cells)
}

/// The cells of the used and of the free list, where both end.
fn used_and_free(buffer: &[u8]) -> Option<(Vec<usize>, Vec<usize>)> {
    let used = linked_cells(buffer, buffer[FIRST_USED])?;
    let free = linked_cells(buffer, buffer[FIRST_FREE])?;
    Some((used, free))
}

/// "A sheet is sound if this holds, both chains end, and each cell 1 to R is on exactly one chain
/// once." The length is one that `capacity` takes.
pub fn is_sound(buffer: &[u8]) -> bool {
    let Some((used, free)) = used_and_free(buffer) else {
        return false;
    };
    let times = |number: usize| used.iter().chain(&free).filter(|&&other| other == number).count();
    let zero_from =
        |number: usize, start: usize| cell(buffer, number)[start..].iter().all(|&byte| byte == 0);
    zero_from(0, 2)
        && (1..buffer.len() / CELL).all(|number| times(number) == 1)
        && used.iter().all(|&number| Record::from_cell(cell(buffer, number)).is_some())
        && free.iter().all(|&number| zero_from(number, 1))
}

/// "5, then 6 if unsound", with which every operation but layout begins; otherwise the cells of
/// the used and of the free list.
fn require_sound(buffer: &[u8]) -> Result<(Vec<usize>, Vec<usize>), Refusal> {
    capacity(buffer.len())?;
    require(is_sound(buffer), Refusal::UnsoundQueue)?;
    used_and_free(buffer).ok_or(Refusal::UnsoundQueue)
}

/// The list that a sound queue holds: the records of its used cells, in the order of the chain.
pub fn records(buffer: &[u8]) -> Result<VecDeque<Record>, Refusal> {
    let (used, _) = require_sound(buffer)?;
    used.iter()
        .map(|&number| Record::from_cell(cell(buffer, number)).ok_or(Refusal::UnsoundQueue))
        .collect()
}

/// 01: lay out. "An empty laid-out sheet has its free chain 1, 2, up to R."
pub fn format(buffer: &mut [u8]) -> Result<(), Refusal> {
    let last = capacity(buffer.len())?;
    buffer.fill(0);
    buffer[FIRST_FREE] = 1;
    for number in 1..last {
        cell_mut(buffer, number)[0] = (number + 1) as u8;
    }
    Ok(())
}

/// 01: enter. "5, then 6 .. then 7 .. then 1, then 2 .. then 3, then 8 if the free chain is empty.
/// The first free cell goes to the end of the used chain, and the word is copied into that cell
/// from its fourth byte on."
pub fn enqueue(buffer: &mut [u8], box_number: u8, profile: u8, word: &[u8]) -> Result<(), Refusal> {
    let (used, free) = require_sound(buffer)?;
    let record = Record::new(box_number, profile, word)?;
    let &taken = free.first().ok_or(Refusal::NoFreeCell)?;
    buffer[FIRST_FREE] = cell(buffer, taken)[0];
    cell_mut(buffer, taken).copy_from_slice(&record.to_cell());
    match used.last() {
        Some(&last) => cell_mut(buffer, last)[0] = taken as u8,
        None => buffer[FIRST_USED] = taken as u8,
    }
    Ok(())
}

/// "5, 6, then 2 if the output is not 104 bytes, then 10 if there is no such record. The cell is
/// copied out with byte 0 as zero." The number of the cell copied.
fn copy_out(buffer: &[u8], record: usize, output: &mut [u8]) -> Result<usize, Refusal> {
    let (used, _) = require_sound(buffer)?;
    require(output.len() == CELL, Refusal::Length)?;
    require((1..=used.len()).contains(&record), Refusal::NoSuchRecord)?;
    let number = used[record - 1];
    output.copy_from_slice(cell(buffer, number));
    output[0] = 0;
    Ok(number)
}

/// 01: look, "record number from 1".
pub fn peek(buffer: &[u8], record: usize, output: &mut [u8]) -> Result<(), Refusal> {
    copy_out(buffer, record, output).map(|_| ())
}

/// 01: take off, "always the first". "Take off zeroes the cell and puts it first on the free
/// chain."
pub fn dequeue(buffer: &mut [u8], output: &mut [u8]) -> Result<(), Refusal> {
    let number = copy_out(buffer, 1, output)?;
    buffer[FIRST_USED] = cell(buffer, number)[0];
    cell_mut(buffer, number).fill(0);
    cell_mut(buffer, number)[0] = buffer[FIRST_FREE];
    buffer[FIRST_FREE] = number as u8;
    Ok(())
}
