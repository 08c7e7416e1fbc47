//! The static library's C entry points (`include/fogzurt.h` documents them) as safe Rust functions.
//! A slice is passed as its pointer and its length, so what the header asks of a caller holds:
//! no pointer is null, no length is false, and no buffer that is written overlaps another. Beside
//! them, where the program boxlines stands.

mod answer;

use std::env;
use std::path::PathBuf;

pub use answer::{PackedAnswer, PositionAndSymbol};

/// A decoder: told the edition, the profile and the word, it writes the messages.
pub type Decode = fn(u64, u64, &[u8], &mut [u8], &mut [u8]) -> PackedAnswer;

/// The eight functions of a coder: the library's, or those of another that answers in the same way. Encode,
/// both decoders and convert are told the edition first, and then the profile; encode is then told the line rule.
pub struct EntryPoints {
    pub encode: fn(u64, u64, u64, &[u8], &[u8], &mut [u8]) -> u64,
    pub decode: Decode,
    pub syndrome_decode: Decode,
    pub convert: fn(u64, u64, &[u8], &mut [u8]) -> u64,
    pub format: fn(&mut [u8]) -> u64,
    pub enqueue: fn(&mut [u8], u64, u64, &[u8]) -> u64,
    pub peek: fn(&[u8], u64, &mut [u8]) -> u64,
    pub dequeue: fn(&mut [u8], &mut [u8]) -> u64,
}

pub const LIBRARY: EntryPoints = EntryPoints {
    encode,
    decode: |edition, profile, word, first, second| {
        decode_by(fogzurt_decode, [edition, profile], word, [first, second])
    },
    syndrome_decode: |edition, profile, word, first, second| {
        decode_by(fogzurt_syndrome_decode, [edition, profile], word, [first, second])
    },
    convert,
    format,
    enqueue,
    peek,
    dequeue,
};

/// Names another program to run in place of crates/boxlines/out/boxlines.
const PROGRAM: &str = "FOGZURT_BOXLINES";

/// The program boxlines, if it was built (`rt run` in crates/boxlines).
pub fn boxlines() -> Option<PathBuf> {
    let built = [env!("CARGO_MANIFEST_DIR"), "..", "..", "crates", "boxlines", "out", "boxlines"];
    let path = env::var_os(PROGRAM).map_or_else(|| built.iter().collect(), PathBuf::from);
    path.is_file().then_some(path)
}

#[rustfmt::skip]
extern "C" {
    fn fogzurt_encode(
        edition: u64, profile: u64, rule: u64, first: *const u8, first_len: usize,
        second: *const u8, second_len: usize, out: *mut u8, out_len: usize,
    ) -> u64;
    fn fogzurt_decode(
        edition: u64, profile: u64, word: *const u8, word_len: usize,
        first: *mut u8, first_len: usize, second: *mut u8, second_len: usize,
    ) -> u64;
    fn fogzurt_syndrome_decode(
        edition: u64, profile: u64, word: *const u8, word_len: usize,
        first: *mut u8, first_len: usize, second: *mut u8, second_len: usize,
    ) -> u64;
    fn fogzurt_convert(
        edition: u64, profile: u64, word: *const u8, word_len: usize,
        out: *mut u8, out_len: usize,
    ) -> u64;
    fn fogzurt_sheet_format(sheet: *mut u8, sheet_len: usize) -> u64;
    fn fogzurt_sheet_enqueue(
        sheet: *mut u8, sheet_len: usize, box_number: u64, profile: u64,
        word: *const u8, word_len: usize,
    ) -> u64;
    fn fogzurt_sheet_peek(
        sheet: *const u8, sheet_len: usize, record: u64, out: *mut u8, out_len: usize,
    ) -> u64;
    fn fogzurt_sheet_dequeue(
        sheet: *mut u8, sheet_len: usize, out: *mut u8, out_len: usize,
    ) -> u64;
}

/// 01: write, by a line rule of 02, T-06. 0, or the number of the refusal.
fn encode(
    edition: u64,
    profile: u64,
    rule: u64,
    first: &[u8],
    second: &[u8],
    out: &mut [u8],
) -> u64 {
    let ((a, a_len), (b, b_len)) = (lent(first), lent(second));
    let (out, length) = (out.as_mut_ptr(), out.len());
    // SAFETY: here and below every pointer comes with the length of its own slice.
    unsafe { fogzurt_encode(edition, profile, rule, a, a_len, b, b_len, out, length) }
}

/// A decoder, as C has it.
type LentDecode =
    unsafe extern "C" fn(u64, u64, *const u8, usize, *mut u8, usize, *mut u8, usize) -> u64;

/// 01: read; and 02, T-09: the reader that doesn't try places.
fn decode_by(
    decode: LentDecode,
    [edition, profile]: [u64; 2],
    word: &[u8],
    [first, second]: [&mut [u8]; 2],
) -> PackedAnswer {
    let (word, length) = lent(word);
    let (a, a_len) = (first.as_mut_ptr(), first.len());
    let (b, b_len) = (second.as_mut_ptr(), second.len());
    PackedAnswer(unsafe { decode(edition, profile, word, length, a, a_len, b, b_len) })
}

/// 02, T-04: the converter. 0, or the number of the refusal.
fn convert(edition: u64, profile: u64, word: &[u8], out: &mut [u8]) -> u64 {
    let (word, length) = lent(word);
    unsafe { fogzurt_convert(edition, profile, word, length, out.as_mut_ptr(), out.len()) }
}

/// 01: lay out. 0, or the number of the refusal.
fn format(sheet: &mut [u8]) -> u64 {
    unsafe { fogzurt_sheet_format(sheet.as_mut_ptr(), sheet.len()) }
}

/// 01: enter. 0, or the number of the refusal.
fn enqueue(sheet: &mut [u8], box_number: u64, profile: u64, word: &[u8]) -> u64 {
    let (bytes, length) = (sheet.as_mut_ptr(), sheet.len());
    let (word, word_len) = lent(word);
    unsafe { fogzurt_sheet_enqueue(bytes, length, box_number, profile, word, word_len) }
}

/// 01: look. 0, or the number of the refusal.
fn peek(sheet: &[u8], record: u64, out: &mut [u8]) -> u64 {
    let (bytes, length) = lent(sheet);
    unsafe { fogzurt_sheet_peek(bytes, length, record, out.as_mut_ptr(), out.len()) }
}

/// 01: take off. 0, or the number of the refusal.
fn dequeue(sheet: &mut [u8], out: &mut [u8]) -> u64 {
    let (bytes, length) = (sheet.as_mut_ptr(), sheet.len());
    unsafe { fogzurt_sheet_dequeue(bytes, length, out.as_mut_ptr(), out.len()) }
}

/// A slice that is read, as C has it.
fn lent(slice: &[u8]) -> (*const u8, usize) {
    (slice.as_ptr(), slice.len())
}
