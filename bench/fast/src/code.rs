//! The code with its parameters as constants, so that remainders mod q and the rows of the check
//! matrix are worked out when the program is compiled.

use coder::refusal::Refusal;

use crate::for_profile;

pub type Profile1<const EDITION: u64> = Code<3, 3, 8, EDITION>;
pub type Profile2<const EDITION: u64> = Code<3, 4, 26, EDITION>;
pub type Profile3<const EDITION: u64> = Code<5, 3, 24, EDITION>;
pub type Profile4<const EDITION: u64> = Code<7, 3, 48, EDITION>;

/// The most check symbols and the most symbols of a component, and the longest message.
pub const MAX_R: usize = 4;
pub const MAX_N: usize = 48;
pub const MAX_K: usize = 45;

/// The longest w, padded.
pub const MAX_M: usize = 104;

/// w in sixteen bits, zero after its m symbols. No sum of products passes 97 · 6 · 6.
pub type Symbols = [i16; MAX_M];

/// What a caller needs to know of a profile.
#[derive(Debug, Clone, Copy)]
pub struct Shape {
    pub q: u8,
    pub message_length: usize,
    pub word_length: usize,
}

/// The shape of the profile with this number, in either edition.
#[inline]
pub fn shape(profile: u64) -> Result<Shape, Refusal> {
    for_profile!(13, profile, shape())
}

/// The code over Q levels whose components have N symbols, R of them check symbols, of edition 13 or 18
/// (02, T-03).
pub struct Code<const Q: usize, const R: usize, const N: usize, const EDITION: u64>;

impl<const Q: usize, const R: usize, const N: usize, const EDITION: u64> Code<Q, R, N, EDITION> {
    /// Whether w is integrated from its end, and every difference is so of the other sign.
    pub const FROM_END: bool = EDITION == 18;

    /// 01: k, m, N.
    pub const K: usize = N - R;
    pub const M: usize = 2 * N + 1;
    pub const LENGTH: usize = Self::M + 2;

    /// n and m rounded up to whole vectors of eight; the entries beyond are zero.
    pub const PADDED_N: usize = N.next_multiple_of(8);
    pub const PADDED_M: usize = Self::M.next_multiple_of(8);

    /// 01: middle.
    pub const BALANCING_VALUE: i16 = (Self::M * (Q - 1) / 2) as i16;

    /// 01: (q−1)/2 times (2−m), mod q. What is added to 2−m is a multiple of q.
    pub const DELTA: i16 = ((Q - 1) / 2 * (2 + Q * Self::M - Self::M) % Q) as i16;

    /// The positions of a component that hold the message, in rising order, then zeros.
    pub const MESSAGE_POSITIONS: &'static [usize; MAX_N] = &Self::message_positions();

    /// The check matrix: entry [row][i − 1] is digit `row` of position i, lowest first; the last
    /// of the R rows is 1.
    pub const ROWS: &'static [[i16; MAX_N]; MAX_R] = &Self::rows();

    /// Both syndromes as sums over w: the first component's R rows, then the second's.
    pub const SYNDROME_ROWS: &'static [Symbols; 2 * MAX_R] = &Self::syndrome_rows();

    pub const SHAPE: Shape =
        Shape { q: Q as u8, message_length: Self::K, word_length: Self::LENGTH };

    fn shape() -> Result<Shape, Refusal> {
        Ok(Self::SHAPE)
    }

    /// Whether every symbol is below q.
    pub fn has_symbols(word: &[u8]) -> bool {
        highest(word) < Q as u8
    }

    /// A number from 0 on, mod q.
    pub fn mod_q(number: i16) -> i16 {
        (number as u16 % Q as u16) as i16
    }

    /// A number from −q² on, mod q.
    pub fn reduce(number: i16) -> i16 {
        Self::mod_q(number + (Q * Q) as i16)
    }

    /// The sums of w at odd and at even positions (counted from 1, as in 01).
    pub fn parity_sums(w: &Symbols) -> [i16; 2] {
        let w = &w[..Self::PADDED_M];
        let odd = dot(&ODD_POSITIONS[..Self::PADDED_M], w);
        [odd, w.iter().sum::<i16>() - odd]
    }

    /// 01: "place 2 and the places 1, q, q², up to q^(r−2)".
    const fn is_check(position: usize) -> bool {
        position <= 2 || position == Q || (R == 4 && position == Q * Q)
    }

    const fn message_positions() -> [usize; MAX_N] {
        let mut positions = [0; MAX_N];
        let (mut position, mut count) = (1, 0);
        while position <= N {
            if !Self::is_check(position) {
                positions[count] = position;
                count += 1;
            }
            position += 1;
        }
        positions
    }

    const fn rows() -> [[i16; MAX_N]; MAX_R] {
        let mut rows = [[0; MAX_N]; MAX_R];
        let mut position = 1;
        while position <= N {
            let (mut row, mut rest) = (0, position);
            while row < R - 1 {
                rows[row][position - 1] = (rest % Q) as i16;
                rest /= Q;
                row += 1;
            }
            rows[R - 1][position - 1] = 1;
            position += 1;
        }
        rows
    }

    /// Symbol i of the first component is w[2i − 1] − w[2i − 2] mod q, and of the second
    /// w[2i] − w[2i − 1], with w counted from 0; in edition 18 both are of the other sign.
    const fn syndrome_rows() -> [Symbols; 2 * MAX_R] {
        let mut sums = [[0; MAX_M]; 2 * MAX_R];
        let mut row = 0;
        while row < R {
            let mut i = 1;
            while i <= N {
                let digit = Self::ROWS[row][i - 1];
                let entry = if Self::FROM_END { -digit } else { digit };
                sums[row][2 * i - 1] += entry;
                sums[row][2 * i - 2] -= entry;
                sums[R + row][2 * i] += entry;
                sums[R + row][2 * i - 1] -= entry;
                i += 1;
            }
            row += 1;
        }
        sums
    }
}

/// 1 at odd positions, 0 at even ones.
static ODD_POSITIONS: Symbols = {
    let mut row = [0; MAX_M];
    let mut index = 0;
    while index < MAX_M {
        row[index] = 1;
        index += 2;
    }
    row
};

/// The highest symbol of a word; 0 for none. Unlike a search it looks at several at once.
#[inline]
pub fn highest(word: &[u8]) -> u8 {
    word.iter().fold(0, |highest, &symbol| highest.max(symbol))
}

/// The highest of the levels' successors; an erasure (255) counts as 0. It is at most q where every
/// symbol is one that may be received.
#[inline]
pub fn highest_received(word: &[u8]) -> u8 {
    word.iter().fold(0, |highest, &symbol| highest.max(symbol.wrapping_add(1)))
}

/// A row times w.
#[inline]
pub fn dot(row: &[i16], w: &[i16]) -> i16 {
    row.iter().zip(w).map(|(&entry, &symbol)| entry * symbol).sum()
}
