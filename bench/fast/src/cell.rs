//! What the bytes of a sound queue's cells may be.

use coder::list::{CELL, LAST_BOX};

use crate::code::{
    highest, highest_received, shape, Profile1, Profile2, Profile3, Profile4, Shape,
};

/// Where a record's fields stand in its cell; byte 0 is the number of the next cell.
pub const BOX: usize = 1;
pub const PROFILE: usize = 2;
pub const WORD: usize = 3;

/// Where a linked list (01: chain) starts, in cell 0.
pub const FIRST_USED: usize = 0;
pub const FIRST_FREE: usize = 1;

/// Whether a used cell's bytes after byte 0 are those of a record.
#[inline]
pub fn holds_record(cell: &[u8]) -> bool {
    let limits = USED_LIMITS.get(usize::from(cell[PROFILE]).wrapping_sub(1));
    let is_within = limits.is_some_and(|limits| is_within(cell, limits));
    cell[BOX] != 0 && (is_within || holds_erasures(cell))
}

/// Whether a free cell is zero after byte 0.
#[inline]
pub fn is_free(cell: &[u8]) -> bool {
    is_within(cell, &FREE_LIMITS)
}

/// Whether cell 0 is zero after its two links.
#[inline]
pub fn is_head(cell: &[u8]) -> bool {
    is_within(cell, &HEAD_LIMITS)
}

/// The highest value of each byte of a cell: any link, and then what its owner allows.
type Limits = [u8; CELL];

const FREE_LIMITS: Limits = {
    let mut limits = [0; CELL];
    limits[0] = u8::MAX;
    limits
};

static HEAD_LIMITS: Limits = {
    let mut limits = FREE_LIMITS;
    limits[FIRST_FREE] = u8::MAX;
    limits
};

static USED_LIMITS: [Limits; 4] = [
    used_limits(Profile1::<13>::SHAPE),
    used_limits(Profile2::<13>::SHAPE),
    used_limits(Profile3::<13>::SHAPE),
    used_limits(Profile4::<13>::SHAPE),
];

const fn used_limits(shape: Shape) -> Limits {
    let mut limits = FREE_LIMITS;
    limits[BOX] = LAST_BOX;
    limits[PROFILE] = u8::MAX;
    let mut index = 0;
    while index < shape.word_length {
        limits[WORD + index] = shape.q - 1;
        index += 1;
    }
    limits
}

/// Compares all bytes and not only up to the first that is wrong, several at once.
#[inline]
fn is_within(cell: &[u8], limits: &Limits) -> bool {
    let excess = |(&byte, &limit): (&u8, &u8)| byte.saturating_sub(limit);
    cell.iter().zip(limits).map(excess).fold(0, |any, excess| any | excess) == 0
}

/// Whether a used cell that is not within its limits is so because of erasures alone.
#[cold]
fn holds_erasures(cell: &[u8]) -> bool {
    shape(u64::from(cell[PROFILE])).is_ok_and(|shape| {
        let (word, zeros) = cell[WORD..].split_at(shape.word_length);
        cell[BOX] <= LAST_BOX && highest_received(word) <= shape.q && highest(zeros) == 0
    })
}
