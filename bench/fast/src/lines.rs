//! One line of the program boxlines: the answer to its bytes.

use coder::decode::{Answer as Decoding, Kind, Sent};
use coder::erasure::ERASURE;
use coder::refusal::{require, Refusal};
use coder::text::ERASURE_BYTE;

use crate::code::{highest, MAX_K};
use crate::{decode, shape};

/// The longest answer is profile 4's, as in `4 F 98 6 99 6 0 `, two messages of 45, a space and byte 10.
pub const LONGEST_ANSWER: usize = 108;

/// What is left of a question mark when the digit 0 is taken from it.
const MARK: u8 = ERASURE_BYTE - b'0';

/// T-03: "boxlines and sheets stay with edition 13."
const EDITION: u64 = 13;

/// The longest word.
const WORD: usize = 99;

/// An answer line in the making.
struct Answer<'a> {
    bytes: &'a mut [u8; LONGEST_ANSWER],
    length: usize,
}

/// Writes the answer to a line, byte 10 included, and gives its length. A line too long for the
/// form may be handed over cut, as long as it stays too long.
pub fn answer(line: &[u8], bytes: &mut [u8; LONGEST_ANSWER]) -> usize {
    let mut answer = Answer { bytes, length: 0 };
    if let Err(refusal) = answer.decoded(line) {
        answer.length = 0;
        answer.put(b"R ");
        answer.number(usize::from(refusal.number()));
    }
    answer.put(b"\n");
    answer.length
}

impl Answer<'_> {
    fn put(&mut self, bytes: &[u8]) {
        self.bytes[self.length..][..bytes.len()].copy_from_slice(bytes);
        self.length += bytes.len();
    }

    /// A number below 100.
    fn number(&mut self, number: usize) {
        if number >= 10 {
            self.put(&[b'0' + (number / 10) as u8]);
        }
        self.put(&[b'0' + (number % 10) as u8]);
    }

    /// A position and the symbol sent there, a space before each.
    fn sent(&mut self, Sent { position, symbol }: Sent) {
        self.put(b" ");
        self.number(position);
        self.put(&[b' ', b'0' + symbol]);
    }

    /// A space and the error, which is below 10 in size: 0, or a sign and a digit.
    fn error(&mut self, error: i16) {
        let digit = b'0' + error.unsigned_abs() as u8;
        match error {
            0 => self.put(b" 0"),
            1.. => self.put(&[b' ', b'+', digit]),
            _ => self.put(&[b' ', b'-', digit]),
        }
    }

    /// A space and the digits of a message.
    fn message(&mut self, message: &[u8]) {
        self.put(b" ");
        let digits = &mut self.bytes[self.length..][..message.len()];
        for (digit, symbol) in digits.iter_mut().zip(message) {
            *digit = b'0' + symbol;
        }
        self.length += message.len();
    }

    /// The answer to a good line.
    fn decoded(&mut self, line: &[u8]) -> Result<(), Refusal> {
        let [profile, b' ', digits @ ..] = line else {
            return Err(Refusal::LineForm);
        };
        let digit = |byte: u8| byte.wrapping_sub(b'0');
        let has_form = profile.is_ascii_digit() && (1..=WORD).contains(&digits.len());
        require(has_form, Refusal::LineForm)?;
        let mut word = [0; WORD];
        let word = &mut word[..digits.len()];
        for (symbol, &byte) in word.iter_mut().zip(digits) {
            *symbol = digit(byte);
        }
        if highest(word) > 9 {
            erase_marks(word)?;
        }
        let number = u64::from(digit(*profile));
        let length = shape(number)?.message_length;
        let (mut first, mut second) = ([0; MAX_K], [0; MAX_K]);
        let (first, second) = (&mut first[..length], &mut second[..length]);
        let Decoding { decoded, .. } = decode(EDITION, number, word, first, second)?;
        self.put(&[*profile]);
        match decoded.kind {
            Kind::Clean => self.put(b" C 0 0"),
            Kind::Corrected(sent) => {
                self.put(b" M");
                self.sent(sent);
            }
            Kind::Filled(one, other) => {
                self.put(b" F");
                self.sent(one);
                other.into_iter().for_each(|other| self.sent(other));
            }
        }
        self.error(decoded.error);
        self.message(first);
        self.message(second);
        Ok(())
    }
}

/// Puts erasures in place of question marks; every other byte has to be a digit.
#[cold]
fn erase_marks(word: &mut [u8]) -> Result<(), Refusal> {
    let unmarked = |symbol: u8| if symbol == MARK { 0 } else { symbol };
    let highest = word.iter().fold(0, |highest, &symbol| highest.max(unmarked(symbol)));
    require(highest <= 9, Refusal::LineForm)?;
    for symbol in word {
        *symbol = if *symbol == MARK { ERASURE } else { *symbol };
    }
    Ok(())
}
