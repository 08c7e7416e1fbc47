//! Converting (02, T-04): decoding in one edition, and encoding in the other. T-06: "T-04 keeps to version 1."

use coder::decode::Kind;
use coder::refusal::{require, Refusal};

use crate::code::MAX_K;
use crate::{decode, encode, shape};

const LINE_RULE: u64 = 1;

/// Writes the word that the other edition's encoder makes of the messages of a codeword. Refusals 12, 1, 2,
/// 3, 11, 4 and 13, in this order.
pub fn convert(edition: u64, profile: u64, word: &[u8], out: &mut [u8]) -> Result<(), Refusal> {
    let other = other(edition)?;
    let shape = shape(profile)?;
    require(out.len() == shape.word_length, Refusal::Length)?;
    let (mut first, mut second) = ([0; MAX_K], [0; MAX_K]);
    let (first, second) = (&mut first[..shape.message_length], &mut second[..shape.message_length]);
    let answer = decode(edition, profile, word, first, second)?;
    require(answer.decoded.kind == Kind::Clean, Refusal::NotClean)?;
    encode(other, profile, LINE_RULE, first, second, out)
}

/// The other edition's number.
fn other(edition: u64) -> Result<u64, Refusal> {
    match edition {
        13 => Ok(18),
        18 => Ok(13),
        _ => Err(Refusal::Edition),
    }
}
