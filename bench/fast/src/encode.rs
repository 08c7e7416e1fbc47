//! Encoding (01: write), in O(q·m).

use coder::refusal::{require, Refusal};

use crate::code::{dot, Code, Symbols, MAX_M, MAX_N};
use crate::for_profile;

/// Writes the encoded word of two messages, by line rule 1 or 2. Refusals 12, 1, 14, 2 and 3, in this order.
pub fn encode(
    edition: u64,
    profile: u64,
    rule: u64,
    first: &[u8],
    second: &[u8],
    out: &mut [u8],
) -> Result<(), Refusal> {
    for_profile!(edition, profile, encode(rule, first, second, out))
}

impl<const Q: usize, const R: usize, const N: usize, const EDITION: u64> Code<Q, R, N, EDITION> {
    pub(crate) fn encode(
        rule: u64,
        first: &[u8],
        second: &[u8],
        out: &mut [u8],
    ) -> Result<(), Refusal> {
        match (rule, Self::FROM_END) {
            (1, false) => Self::encode_by(Self::first_balancing_choice, first, second, out),
            (1, true) => Self::encode_by(Self::first_balancing_choice_from_end, first, second, out),
            (2, _) => Self::encode_by(Self::least_peak, first, second, out),
            _ => Err(Refusal::LineRule),
        }
    }

    /// By a rule: it finds the choice that is taken, its s and the index from which on 1 more is added or, in edition
    /// 18, before which. Each rule has a function of its own, so that none slows down the other.
    fn encode_by(
        rule: impl Fn(&Symbols) -> (i16, usize),
        first: &[u8],
        second: &[u8],
        out: &mut [u8],
    ) -> Result<(), Refusal> {
        require(first.len() == Self::K && second.len() == Self::K, Refusal::Length)?;
        require(out.len() == Self::LENGTH, Refusal::Length)?;
        require(Self::has_symbols(first) && Self::has_symbols(second), Refusal::Symbol)?;
        let (first, second) = (Self::component(first), Self::component(second));
        if Self::FROM_END {
            let sums = Self::integrate_from_end(&first, &second);
            let (s, start) = rule(&sums);
            Self::write_word(&sums, |index| s + i16::from(index < start), out);
        } else {
            let sums = Self::integrate(&first, &second);
            let (s, start) = rule(&sums);
            Self::write_word(&sums, |index| s + i16::from(start <= index), out);
        }
        Ok(())
    }

    /// 01: the half of a user word. The check symbols solve the check rows: the one at q^j, j ≥ 1,
    /// is alone in row j, and the ones at 1 and 2 share row 0 and the last row.
    fn component(message: &[u8]) -> [i16; MAX_N] {
        let mut component = [0; MAX_N];
        for (&position, &symbol) in Self::MESSAGE_POSITIONS.iter().zip(message) {
            component[position - 1] = i16::from(symbol);
        }
        let symbols = &component[..Self::PADDED_N];
        let row_sums =
            Self::ROWS.each_ref().map(|row| Self::mod_q(dot(&row[..Self::PADDED_N], symbols)));
        let (digit, mut sum) = (row_sums[0], row_sums[R - 1]);
        let mut power = Q;
        for row_sum in &row_sums[1..R - 1] {
            let symbol = Self::reduce(-row_sum);
            component[power - 1] = symbol;
            sum = Self::mod_q(sum + symbol);
            power *= Q;
        }
        component[1] = Self::reduce(sum - digit);
        component[0] = Self::reduce(digit - 2 * sum);
        component
    }

    /// w before balancing: the running sums of 0, b1, b′1, b2, b′2, .. mod q.
    fn integrate(first: &[i16; MAX_N], second: &[i16; MAX_N]) -> Symbols {
        let mut sums = [0; MAX_M];
        let mut sum = 0;
        for i in 0..N {
            sums[2 * i + 1] = sum + first[i];
            sum += first[i] + second[i];
            sums[2 * i + 2] = sum;
        }
        for sum in &mut sums[..Self::M] {
            *sum = Self::mod_q(*sum);
        }
        sums
    }

    /// The same of edition 18: the sums from the end of b1, b′1, b2, b′2, .., 0 mod q.
    fn integrate_from_end(first: &[i16; MAX_N], second: &[i16; MAX_N]) -> Symbols {
        let mut sums = [0; MAX_M];
        let mut sum = 0;
        for i in (0..N).rev() {
            sums[2 * i + 1] = sum + second[i];
            sum += first[i] + second[i];
            sums[2 * i] = sum;
        }
        for sum in &mut sums[..Self::M] {
            *sum = Self::mod_q(*sum);
        }
        sums
    }

    /// The first (s, v) that balances: s, and the index of position v. Adding s and 1 more from v on weighs, at
    /// v = 1, what adding s + 1 does; going from v to v + 1 takes 1 from symbol v, or adds q − 1 where it was 0.
    fn first_balancing_choice(sums: &Symbols) -> (i16, usize) {
        let mut at_first: i16 = sums[..Self::M].iter().sum();
        for s in 0..Q as i16 {
            let wrapping = Q as i16 - 1 - s;
            let wrapped: i16 = sums[..Self::M].iter().map(|&sum| i16::from(sum == wrapping)).sum();
            at_first += Self::M as i16 - Q as i16 * wrapped;
            let mut weight = at_first;
            for (index, &sum) in sums[..Self::M].iter().enumerate() {
                if weight == Self::BALANCING_VALUE {
                    return (s, index);
                }
                weight += if sum == wrapping { Q as i16 - 1 } else { -1 };
            }
        }
        unreachable!("01: a balancing choice always exists")
    }

    /// The same of edition 18, where the index is v. At v = 0 only s is added; going from v to v + 1 adds 1 to symbol
    /// v + 1, or takes q − 1 where it was the highest. What all symbols weigh with 1 more is the next s.
    fn first_balancing_choice_from_end(sums: &Symbols) -> (i16, usize) {
        let mut at_first: i16 = sums[..Self::M].iter().sum();
        for s in 0..Q as i16 {
            let wrapping = Q as i16 - 1 - s;
            let mut weight = at_first;
            for (index, &sum) in sums[..Self::M].iter().enumerate() {
                if weight == Self::BALANCING_VALUE {
                    return (s, index);
                }
                weight += if sum == wrapping { 1 - Q as i16 } else { 1 };
            }
            at_first = weight;
        }
        unreachable!("02: a balancing choice always exists")
    }

    /// w, where so much is added at an index, then α and β.
    #[inline(always)]
    fn write_word(sums: &Symbols, added: impl Fn(usize) -> i16, out: &mut [u8]) {
        let mut w = [0; MAX_M];
        for (index, (symbol, &sum)) in w[..Self::M].iter_mut().zip(sums).enumerate() {
            let level = sum + added(index);
            *symbol = if level < Q as i16 { level } else { level - Q as i16 };
        }
        let [odd, even] = Self::parity_sums(&w);
        for (byte, &symbol) in out.iter_mut().zip(&w[..Self::M]) {
            *byte = symbol as u8;
        }
        out[Self::M] = Self::mod_q(odd + Self::DELTA) as u8;
        out[Self::M + 1] = Self::mod_q(even) as u8;
    }
}
