//! A second encoder, in which the check symbols of a component (01: half) are not looked for: the
//! check row sums of the message (01: user word) at its positions are worked out symbol by symbol in
//! eight-bit numbers (02, T-05), and the check symbols are solved for. One step can be got wrong on
//! purpose. Without a slip it must make what the search in `component` finds; with one it shows that a
//! pair tells the right encoder from that near miss.

use crate::balance::balanced_words;
use crate::codeword::{interleave, with_check_symbols, Messages};
use crate::component::{column, placed};
use crate::profile::Profile;
use crate::slip::Slip;

/// The slips of T-05, and the profiles in which each does harm. A sum that is not reduced passes 127 in
/// profiles 3 and 4 only, and 255 in profile 4 only. That a sum of exactly q stays q is no slip here: while
/// q is prime, the check symbols come out the same.
pub const SUM_SLIPS: [(Slip, &[u8]); 13] = [
    (Slip::SumReducedAtEnd, &[4]),
    (Slip::SumSaturates, &[4]),
    (Slip::SumInSignedByte, &[3, 4]),
    (Slip::SumReducedByOneLess, &[1, 2, 3, 4]),
    (Slip::SumLessOnce, &[1, 2, 3, 4]),
    (Slip::SumLessOnceReducedAtEnd, &[4]),
    (Slip::SumLessOnceEach, &[3, 4]),
    (Slip::SumLessInTwoSteps, &[4]),
    (Slip::SumOfOnesLeft, &[1, 2, 3, 4]),
    (Slip::SumOfOnesReducedAtEnd, &[4]),
    (Slip::SumOfResiduesLeft, &[1, 2, 3, 4]),
    (Slip::SumLastProductLeft, &[1, 2, 3, 4]),
    (Slip::SumCarriedOver, &[1, 2, 3, 4]),
];

/// The word that the encoder makes of two messages with this slip, or with none.
pub fn encode(profile: &Profile, messages: &Messages, slip: Option<Slip>) -> Vec<u8> {
    let x = interleave(profile.edition, &components(profile, messages, slip));
    let mut words = balanced_words(profile.edition, profile.q, &x);
    let (_, w) = words.next().expect("01: a choice always exists");
    with_check_symbols(profile, &w)
}

/// The components that the encoder makes of two messages with this slip, or with none.
pub fn components(profile: &Profile, messages: &Messages, slip: Option<Slip>) -> [Vec<u8>; 2] {
    let encoder = Encoder { profile, slip };
    let [first, second] = messages.each_ref().map(|message| placed(profile, message));
    let nothing = vec![0; profile.r];
    let sums = encoder.sums(&first, &nothing);
    let carried = if slip == Some(Slip::SumCarriedOver) { &sums } else { &nothing };
    let other_sums = encoder.sums(&second, carried);
    [encoder.completed(&first, &sums), encoder.completed(&second, &other_sums)]
}

/// The number, with q taken off once where it is not below q.
fn less_once(q: u8, number: u8) -> u8 {
    if number < q {
        number
    } else {
        number - q
    }
}

struct Encoder<'a> {
    profile: &'a Profile,
    slip: Option<Slip>,
}

impl Encoder<'_> {
    /// 01: the check row sums, one symbol after the other, from what is carried before the first.
    fn sums(&self, symbols: &[u8], carried: &[u8]) -> Vec<u8> {
        let mut sums = carried.to_vec();
        for (i, &symbol) in symbols.iter().enumerate() {
            for (row, entry) in column(self.profile, i + 1).into_iter().enumerate() {
                sums[row] = self.carried(row, sums[row], entry, symbol);
            }
        }
        sums.iter().map(|&sum| self.at_end(sum)).collect()
    }

    /// "nothing on the way passes 255, and after each symbol what is carried is below q and equal mod q
    /// to the sum so far".
    fn carried(&self, row: usize, carried: u8, entry: u8, symbol: u8) -> u8 {
        let q = self.profile.q;
        let is_of_ones = row == self.profile.r - 1;
        let product = entry.checked_mul(symbol).expect("levels are few");
        let sum = carried.wrapping_add(product);
        match self.slip {
            Some(Slip::SumReducedAtEnd | Slip::SumInSignedByte) => sum,
            Some(Slip::SumSaturates) => carried.saturating_add(product),
            Some(Slip::SumReducedByOneLess) => sum % (q - 1),
            Some(Slip::SumLessOnce | Slip::SumLessOnceReducedAtEnd) => less_once(q, sum),
            Some(Slip::SumLessOnceEach) => {
                less_once(q, carried.wrapping_add(less_once(q, product)))
            }
            Some(Slip::SumLessInTwoSteps) => {
                let product = less_once(q, less_once(2 * q, product));
                less_once(q, carried.wrapping_add(product))
            }
            Some(Slip::SumOfOnesLeft | Slip::SumOfOnesReducedAtEnd) if is_of_ones => sum,
            Some(Slip::SumOfResiduesLeft) => carried.wrapping_add(product % q),
            Some(Slip::SumLastProductLeft) => (carried % q).wrapping_add(product),
            _ => carried.checked_add(product).expect("nothing passes 255") % q,
        }
    }

    /// What the check symbols are worked out from: what is carried after the last symbol, but for slips.
    fn at_end(&self, carried: u8) -> u8 {
        let q = self.profile.q;
        match self.slip {
            Some(
                Slip::SumReducedAtEnd
                | Slip::SumSaturates
                | Slip::SumLessOnceReducedAtEnd
                | Slip::SumOfOnesReducedAtEnd,
            ) => carried % q,
            Some(Slip::SumInSignedByte) => (carried as i8).rem_euclid(q as i8) as u8,
            _ => carried,
        }
    }

    /// a − b mod q of two levels, in a byte. What is no level may wrap.
    fn minus(&self, a: u8, b: u8) -> u8 {
        if a < b {
            a.wrapping_add(self.profile.q.wrapping_sub(b))
        } else {
            a - b
        }
    }

    /// The message at its positions, and the check symbols that make these sums 0. Of the positions 1,
    /// q, q², .. each has a 1 in a digit row of its own, and takes that row's sum away. A symbol at
    /// position 2 is counted twice in the row of position 1, where it is taken away again: together they
    /// take it once off the sum of ones, so it is what the others leave there.
    fn completed(&self, placed: &[u8], sums: &[u8]) -> Vec<u8> {
        let mut component = placed.to_vec();
        let (&ones, digits) = sums.split_last().expect("a component has check symbols");
        let mut position = 1;
        // The row of the highest digit is the first.
        for &sum in digits.iter().rev() {
            component[position - 1] = self.minus(0, sum);
            position *= usize::from(self.profile.q);
        }
        let at_2 = digits.iter().fold(ones, |rest, &sum| self.minus(rest, sum));
        component[0] = self.minus(self.minus(component[0], at_2), at_2);
        component[1] = at_2;
        component
    }
}

#[cfg(test)]
mod tests;
