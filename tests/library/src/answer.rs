//! The one integer that decoding answers.

use std::fmt;

/// Eight bytes, as the header has them, the lowest first: number, kind, position, symbol sent there,
/// second position, symbol sent there, error, and how many positions were tried.
#[derive(Debug, Clone, Copy, PartialEq, Eq)]
pub struct PackedAnswer(pub u64);

/// The kinds of words that were read; a refusal's is 0. 01 calls a corrected word mended, and 02's
/// kind F is a filled one.
const CLEAN: u8 = 1;
const CORRECTED: u8 = 2;
const FILLED: u8 = 3;

/// A position, counted from 1, and the symbol sent there.
pub type PositionAndSymbol = (usize, u8);

/// What stands where there is none.
const NONE: PositionAndSymbol = (0, 0);

/// The error's byte, which holds a two's complement.
const ERROR: usize = 6;

/// The byte of the count of positions tried.
const TRIED: usize = 7;

impl PackedAnswer {
    const fn of(number: u8, kind: u8, sent: [PositionAndSymbol; 2]) -> PackedAnswer {
        let [(position, symbol), (second, second_symbol)] = sent;
        PackedAnswer(u64::from_le_bytes([
            number,
            kind,
            position as u8,
            symbol,
            second as u8,
            second_symbol,
            0,
            0,
        ]))
    }

    /// The word is refused with this number of 01 or 02.
    pub const fn refused(number: u8) -> PackedAnswer {
        PackedAnswer::of(number, 0, [NONE; 2])
    }

    /// The word is a codeword.
    pub const fn clean() -> PackedAnswer {
        PackedAnswer::of(0, CLEAN, [NONE; 2])
    }

    /// A codeword differs from the word in one position, and has this symbol there.
    pub const fn corrected(position: usize, symbol: u8) -> PackedAnswer {
        PackedAnswer::of(0, CORRECTED, [(position, symbol), NONE])
    }

    /// A codeword agrees with the word at all positions but those erased, one or two in rising
    /// order, and has these symbols there.
    pub fn filled(one: PositionAndSymbol, other: Option<PositionAndSymbol>) -> PackedAnswer {
        PackedAnswer::of(0, FILLED, [one, other.unwrap_or(NONE)])
    }

    /// The same with this error (02: the fault): the symbol received minus the symbol sent. All but
    /// corrected words carry 0.
    pub const fn with_error(self, error: i8) -> PackedAnswer {
        let mut bytes = self.0.to_le_bytes();
        bytes[ERROR] = error as u8;
        PackedAnswer(u64::from_le_bytes(bytes))
    }

    /// The same with this count (02: tried places). All but words that were corrected in w, and some
    /// of those refused with 4, carry 0; and what decoding by syndromes answers always does.
    pub const fn with_tried(self, tried: u8) -> PackedAnswer {
        let mut bytes = self.0.to_le_bytes();
        bytes[TRIED] = tried;
        PackedAnswer(u64::from_le_bytes(bytes))
    }

    /// 0 if the word was read, else the number of the refusal.
    pub const fn number(self) -> u64 {
        self.0 & 255
    }
}

impl fmt::Display for PackedAnswer {
    fn fmt(&self, text: &mut fmt::Formatter) -> fmt::Result {
        let PackedAnswer(packed) = *self;
        let [number, kind, position, symbol, second, second_symbol, error, tried] =
            packed.to_le_bytes();
        write!(
            text,
            "{packed} (number {number}, kind {kind}, position {position}, symbol {symbol}, \
             second position {second}, symbol {second_symbol}, error {}, tried {tried})",
            error as i8
        )
    }
}
