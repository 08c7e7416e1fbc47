//! The line program boxlines (01, "The line program").

use crate::decode::{decode, Answer};
use crate::edition::Edition;
use crate::profile::Profile;
use crate::refusal::{require, Refusal};
use crate::text::symbol;

/// "a line of at most 101 bytes", the byte 10 that ends it not counted.
pub const LONGEST_LINE: usize = 101;

/// The value of a decimal digit.
fn digit(byte: u8) -> Result<u8, Refusal> {
    require(byte.is_ascii_digit(), Refusal::LineForm)?;
    Ok(byte - b'0')
}

/// "A line is a decimal digit (the profile), one space and one or more decimal digits (symbols);
/// a line of at most 101 bytes .. A line not of this form gives 9". The profile and the word, of
/// which a symbol may be a mark (T-01).
fn parse(line: &[u8]) -> Result<(u8, Vec<u8>), Refusal> {
    require((3..=LONGEST_LINE).contains(&line.len()), Refusal::LineForm)?;
    require(line[1] == b' ', Refusal::LineForm)?;
    let word: Option<Vec<u8>> = line[2..].iter().map(|&byte| symbol(byte)).collect();
    Ok((digit(line[0])?, word.ok_or(Refusal::LineForm)?))
}

/// "Output for a good line: profile", and what its word is answered; T-08: "boxlines prints no
/// count". A bad line "gives 9 .. then the order of Read". T-03: "boxlines and sheets stay with edition
/// 13."
fn good_answer(line: &[u8]) -> Result<String, Refusal> {
    let (profile, word) = parse(line)?;
    let k = Profile::lookup(profile)?.k();
    let (mut first, mut second) = (vec![0; k], vec![0; k]);
    let edition = Edition::Of2013.number();
    let Answer { decoded, .. } = decode(edition, profile, &word, &mut first, &mut second)?;
    Ok(format!("{profile} {}", decoded.answer(&first, &second)))
}

/// The answer to one line.
pub fn answer(line: &[u8]) -> String {
    good_answer(line).unwrap_or_else(|refusal| refusal.to_string())
}

/// The lines of the input, each "ended by byte 10 or the end of input". "The end of input straight
/// after a byte 10 is not a line."
fn split(input: &[u8]) -> Vec<&[u8]> {
    let mut lines: Vec<&[u8]> = input.split(|&byte| byte == b'\n').collect();
    if lines.last().is_some_and(|last| last.is_empty()) {
        lines.pop();
    }
    lines
}

/// All that boxlines prints. "Each output line ends with byte 10. Empty input prints nothing."
pub fn boxlines(input: &[u8]) -> String {
    split(input).into_iter().map(|line| answer(line) + "\n").collect()
}
