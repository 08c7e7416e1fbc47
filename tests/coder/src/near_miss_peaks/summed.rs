//! The running digital sums of a word whose first symbols are those of one word, and whose last ones are those of
//! another; and the peak of such a word, each step of which can be got wrong.

use crate::balance::{add, integrate};
use crate::codeword::with_check_symbols;
use crate::line_rule_slip::LineRuleSlip;
use crate::near_miss::printed_delta;

use super::Encoder;

/// The lowest and the highest running digital sum of some places.
#[derive(Clone, Copy)]
struct Extremes {
    low: i32,
    high: i32,
}

impl Extremes {
    const OF_NONE: Extremes = Extremes { low: i32::MAX, high: i32::MIN };

    fn and(self, other: Extremes) -> Extremes {
        Extremes { low: self.low.min(other.low), high: self.high.max(other.high) }
    }

    /// The same with so much added to every sum.
    fn moved(self, by: i32) -> Extremes {
        Extremes { low: self.low.saturating_add(by), high: self.high.saturating_add(by) }
    }
}

/// A word of m symbols, and what holds of the first i of them, i from 0 to m.
pub struct Summed {
    w: Vec<u8>,
    /// What they add up to, and those at odd places alone.
    weights: Vec<u32>,
    odd_weights: Vec<u32>,
    /// The running digital sum, how low and high it was up to there, and how low and high it is after.
    sums: Vec<i32>,
    before: Vec<Extremes>,
    after: Vec<Extremes>,
}

/// The first symbols of one word, so many, and the last ones of another.
pub struct Joined<'a> {
    pub first: &'a Summed,
    pub last: &'a Summed,
    pub cut: usize,
}

impl Joined<'_> {
    pub fn w(&self) -> Vec<u8> {
        [&self.first.w[..self.cut], &self.last.w[self.cut..]].concat()
    }

    pub fn weight(&self) -> u32 {
        self.added_up(|word| &word.weights)
    }

    fn added_up(&self, weights: fn(&Summed) -> &[u32]) -> u32 {
        let [first, last] = [self.first, self.last].map(weights);
        first[self.cut] + last[last.len() - 1] - last[self.cut]
    }

    /// How much lower the last symbols' sums are in their own word.
    fn rise(&self) -> i32 {
        self.first.sums[self.cut] - self.last.sums[self.cut]
    }

    /// The running digital sum of all m symbols, and how low and high it is on the way.
    fn whole(&self) -> (i32, Extremes) {
        let after = self.last.after[self.cut].moved(self.rise());
        let end = self.last.sums[self.last.w.len()] + self.rise();
        (end, self.first.before[self.cut].and(after))
    }
}

impl Encoder<'_> {
    /// The symbols of x integrated with this s.
    pub fn summed(&self, s: u8, x: &[u8]) -> Summed {
        let (q, m) = (self.profile.q, x.len());
        let mut x = x.to_vec();
        let s_at = if self.is_2018() { m } else { 1 };
        x[s_at - 1] = add(q, x[s_at - 1], s);
        let w = integrate(self.profile.edition, q, &x);
        let (mut weights, mut odd_weights, mut sums) = (vec![0], vec![0], vec![0]);
        for (i, &symbol) in w.iter().enumerate() {
            let odd = if i % 2 == 0 { u32::from(symbol) } else { 0 };
            weights.push(weights[i] + u32::from(symbol));
            odd_weights.push(odd_weights[i] + odd);
            sums.push(sums[i] + self.step(symbol));
        }
        let mut before = vec![self.at(0, 0)];
        let mut after = vec![Extremes::OF_NONE; m + 1];
        for i in 1..=m {
            before.push(before[i - 1].and(self.at(i, sums[i])));
        }
        for i in (0..m).rev() {
            after[i] = after[i + 1].and(self.at(i + 1, sums[i + 1]));
        }
        Summed { w, weights, odd_weights, sums, before, after }
    }

    /// What a symbol adds to the running digital sum: "twice the sum of the first i symbols minus i times (q−1)".
    fn step(&self, symbol: u8) -> i32 {
        let (symbol, highest) = (i32::from(symbol), i32::from(self.profile.q) - 1);
        match self.slip {
            Some(LineRuleSlip::SumNotDoubled) => symbol - highest,
            Some(LineRuleSlip::SwingHalved) => symbol - highest / 2,
            _ => 2 * symbol - highest,
        }
    }

    /// The sum at a place, if the peak is over it: "over the N places".
    fn at(&self, place: usize, sum: i32) -> Extremes {
        let m = self.profile.m();
        let counts = match self.slip {
            Some(LineRuleSlip::PeakOfW) => (1..=m).contains(&place),
            Some(LineRuleSlip::PeakUpToM1) => (1..m).contains(&place),
            Some(LineRuleSlip::PeakWithoutAlpha) => place > 0 && place != m + 1,
            Some(LineRuleSlip::PeakWithoutBeta) => place > 0 && place != m + 2,
            Some(LineRuleSlip::PeakWithoutM) => place > 0 && place != m,
            Some(LineRuleSlip::PeakFromSecond) => place > 1,
            Some(LineRuleSlip::PeakFromZero) => true,
            _ => place > 0,
        };
        if counts {
            Extremes { low: sum, high: sum }
        } else {
            Extremes::OF_NONE
        }
    }

    /// α and β, of the sum at odd places and that at even places.
    fn check_symbols(&self, odd: u32, even: u32) -> [u8; 2] {
        let (q, n) = (i64::from(self.profile.q), self.profile.n as i64);
        let (odd, delta) = (i64::from(odd), i64::from(self.profile.delta()));
        let alpha = match self.slip {
            Some(LineRuleSlip::AlphaWithoutDelta) => odd,
            Some(LineRuleSlip::AlphaByPrintedDelta) => odd + i64::from(printed_delta(self.profile)),
            Some(LineRuleSlip::AlphaOfComplement) => (n + 1) * (q - 1) - odd + delta,
            _ => odd + delta,
        };
        let [alpha, beta] = [alpha, i64::from(even)].map(|sum| sum.rem_euclid(q) as u8);
        match self.slip {
            Some(LineRuleSlip::BetaBeforeAlpha) => [beta, alpha],
            _ => [alpha, beta],
        }
    }

    /// "the peak is the largest size of it".
    pub fn peak(&self, joined: &Joined) -> i32 {
        if let Some(
            LineRuleSlip::PeakAddedUp
            | LineRuleSlip::SwingInSignedByte
            | LineRuleSlip::SwingFromEnd,
        ) = self.slip
        {
            return self.peak_of_word(&with_check_symbols(self.profile, &joined.w()));
        }
        let Joined { first, last, cut } = *joined;
        let measured = match self.slip {
            Some(LineRuleSlip::RaisedInOtherOrder) => Joined { first: last, last: first, cut },
            Some(LineRuleSlip::OneAddedLate) => {
                Joined { first, last, cut: self.profile.m().min(cut + 1) }
            }
            _ => Joined { first, last, cut },
        };
        let (end, extremes) = measured.whole();
        let (m, odd) = (self.profile.m(), measured.added_up(|word| &word.odd_weights));
        let [alpha, beta] = self.check_symbols(odd, measured.weight() - odd);
        let at_alpha = end + self.step(alpha);
        let at_beta = at_alpha + self.step(beta);
        let checks = self.at(m + 1, at_alpha).and(self.at(m + 2, at_beta));
        self.size(extremes.and(checks))
    }

    /// The largest size of sums that are as low and as high as this.
    fn size(&self, extremes: Extremes) -> i32 {
        let Extremes { low, high } = match self.slip {
            Some(LineRuleSlip::PlacesFromZero) => extremes.moved(i32::from(self.profile.q) - 1),
            _ => extremes,
        };
        match self.slip {
            Some(LineRuleSlip::PeakAbove) => high,
            Some(LineRuleSlip::PeakBelow) => -low,
            Some(LineRuleSlip::PeakBetween) => high - low,
            Some(LineRuleSlip::PeakInByte) => high.max(-low) % 256,
            _ => high.max(-low),
        }
    }

    /// The same of a whole word, symbol by symbol, for slips that need more than the lowest and the highest sum.
    fn peak_of_word(&self, word: &[u8]) -> i32 {
        let steps = word.iter().map(|&symbol| self.step(symbol));
        let steps: Vec<i32> = match self.slip {
            Some(LineRuleSlip::SwingFromEnd) => steps.rev().collect(),
            _ => steps.collect(),
        };
        let sizes = steps.into_iter().scan(0, |sum: &mut i32, step| {
            *sum += step;
            Some(if self.slips(LineRuleSlip::SwingInSignedByte) {
                i32::from(*sum as i8).abs()
            } else {
                sum.abs()
            })
        });
        match self.slip {
            Some(LineRuleSlip::PeakAddedUp) => sizes.sum(),
            _ => sizes.max().unwrap_or(0),
        }
    }
}
