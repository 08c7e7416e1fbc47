//! Words as text, in the lines of boxlines and in the vectors.

use crate::erasure::ERASURE;

/// How an empty word is written in the vectors, where fields are separated by spaces.
pub const EMPTY_WORD: &str = "-";

/// T-01: "In boxlines a mark is a question mark." So it is in the vectors.
pub const ERASURE_BYTE: u8 = b'?';

/// "the digits of a word run together". A symbol is below 10, or an erasure.
pub fn digits(word: &[u8]) -> String {
    if word.is_empty() {
        return EMPTY_WORD.to_string();
    }
    word.iter().map(|&symbol| char::from(byte(symbol))).collect()
}

/// T-02: "with its sign (+1 in 01's mended line), and prints 0 plain".
pub fn signed(number: i16) -> String {
    match number {
        0 => "0".to_string(),
        _ => format!("{number:+}"),
    }
}

/// The byte that a symbol is written as.
fn byte(symbol: u8) -> u8 {
    match symbol {
        ERASURE => ERASURE_BYTE,
        _ => b'0' + symbol,
    }
}

/// The word that is written so.
pub fn symbols(digits: &str) -> Vec<u8> {
    if digits == EMPTY_WORD {
        return Vec::new();
    }
    digits.bytes().map(|byte| symbol(byte).expect("a digit or a question mark")).collect()
}

/// The symbol that a byte is written for: that of a decimal digit, or an erasure.
pub fn symbol(byte: u8) -> Option<u8> {
    match byte {
        ERASURE_BYTE => Some(ERASURE),
        _ => byte.is_ascii_digit().then(|| byte - b'0'),
    }
}
