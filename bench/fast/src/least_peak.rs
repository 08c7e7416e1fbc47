//! Line rule 2 (02, T-06: Calmer words on the pair): "of all balancing choices, one with the least peak, then the
//! lowest s, then the lowest v." In O(q·m), with all shifts side by side.
//!
//! A choice is a shift s and an index: before the index w is raised by s and from it on by s + 1, or in edition 18
//! the other way round. Sums here are of symbols less (q−1)/2 each, which is half of 02's swing. As w is balanced, its
//! sum up to a position is that of the rest, negated. So the peak over w is the largest size of a sum of first
//! symbols, up to the index, or of last symbols, down to it, and both are known for all indices from one pass from
//! either end. At α the swing is that of α alone, and at β it is 0 again.

use std::array::from_fn;

use crate::code::{Code, Symbols, MAX_M};

#[cfg(test)]
mod tests;

/// Room for the shifts, of which q are in use, and as much for the levels, of which two make a pair.
const SHIFTS: usize = 8;
const PAIRS: usize = SHIFTS * SHIFTS;

/// A byte for each shift of one end of w, then for each shift of the other end.
const LANES: usize = 2 * SHIFTS;

#[derive(Clone, Copy)]
#[repr(align(16))]
struct Lanes([u8; LANES]);

/// For a shift that is not in use and a choice that does not balance: more than any peak.
const NONE: u8 = u8::MAX;

/// Sums wrap around, but a peak below this is the true one. No step is more than 3, so a sum that leaves the range
/// of a byte is 126, 127 or 128 in size on the way, which a byte still tells. Two sums of smaller size are opposite
/// where their bytes are.
const EXACT: u8 = 126;

/// As many symbols from both ends: their sums, and the largest size of a sum on the way.
#[derive(Clone, Copy)]
struct Ends {
    sums: Lanes,
    peaks: Lanes,
}

impl Ends {
    /// No symbols; as many shifts are in use at each end.
    const fn none(in_use: [usize; 2]) -> Ends {
        let mut ends = Ends { sums: Lanes([0; LANES]), peaks: Lanes([0; LANES]) };
        let mut lane = 0;
        while lane < LANES {
            if lane % SHIFTS >= in_use[lane / SHIFTS] {
                ends.peaks.0[lane] = NONE;
            }
            lane += 1;
        }
        ends
    }

    /// One symbol more from each end.
    #[inline(always)]
    fn extend(&mut self, steps: &Lanes) {
        for lane in 0..LANES {
            let sum = self.sums.0[lane].wrapping_add(steps.0[lane]);
            let size = sum.min(sum.wrapping_neg());
            self.sums.0[lane] = sum;
            self.peaks.0[lane] = self.peaks.0[lane].max(size);
        }
    }

    /// The same with the other end first.
    fn swapped(&self) -> Ends {
        let swapped = |lanes: &Lanes| Lanes(from_fn(|lane| lanes.0[lane ^ SHIFTS]));
        Ends { sums: swapped(&self.sums), peaks: swapped(&self.peaks) }
    }

    /// Puts in place of the peaks those of the choices that part w here: these symbols are on one side of the index,
    /// and all others, which are `rest`, on the other.
    #[inline(always)]
    fn meet(&mut self, rest: &Ends, least: &mut Lanes) {
        for lane in 0..LANES {
            let balances = self.sums.0[lane] == rest.sums.0[lane].wrapping_neg();
            let none = u8::from(balances).wrapping_sub(1);
            let peak = self.peaks.0[lane].max(rest.peaks.0[lane]) | none;
            self.peaks.0[lane] = peak;
            least.0[lane] = least.0[lane].min(peak);
        }
    }
}

/// A peak, at its shift and its end: the least, then that of the lowest s, then the one nearer to the front.
fn first_least(least: &Lanes) -> (u8, usize, bool) {
    let mut key = i16::MAX;
    for lane in 0..LANES {
        let rank = 2 * (lane % SHIFTS) + lane / SHIFTS;
        key = key.min(i16::from(least.0[lane]) << 4 | rank as i16);
    }
    ((key >> 4) as u8, (key >> 1) as usize % SHIFTS, key & 1 == 0)
}

impl<const Q: usize, const R: usize, const N: usize, const EDITION: u64> Code<Q, R, N, EDITION> {
    /// The level in the middle, by which a symbol counts less.
    const HALF: i16 = (Q as i16 - 1) / 2;

    /// No symbols yet; and the index before all symbols. The index behind them all is of no choice.
    const START: Ends = Ends::none([Q, Q]);
    const AT_FRONT: Ends = Ends::none([Q, 0]);

    /// What a symbol from the front and one from the end add to the sums, and the same with the end first. A first
    /// symbol is raised as before the index, a last one as from it on.
    const STEPS: &'static [[Lanes; PAIRS]; 2] = &[Self::steps(0), Self::steps(SHIFTS)];

    const fn steps(front_lanes: usize) -> [Lanes; PAIRS] {
        let mut steps = [Lanes([0; LANES]); PAIRS];
        let mut pair = 0;
        while pair < PAIRS {
            let (front, end) = (pair / SHIFTS, pair % SHIFTS);
            let mut s = 0;
            while s < SHIFTS {
                let [before, after] = Self::raised(s as i16);
                let lanes = &mut steps[pair].0;
                lanes[front_lanes ^ s] = Self::step(front as i16, before) as u8;
                lanes[front_lanes ^ SHIFTS ^ s] = Self::step(end as i16, after) as u8;
                s += 1;
            }
            pair += 1;
        }
        steps
    }

    /// What is added before the index and from it on.
    const fn raised(s: i16) -> [i16; 2] {
        if Self::FROM_END {
            [s + 1, s]
        } else {
            [s, s + 1]
        }
    }

    /// What a symbol so raised adds to a sum.
    const fn step(symbol: i16, raised: i16) -> i16 {
        (symbol + raised) % Q as i16 - Self::HALF
    }

    /// The steps of the symbols that have so many others before and after them.
    #[inline(always)]
    fn steps_after(sums: &Symbols, count: usize, front_second: bool) -> &'static Lanes {
        let (front, end) = (sums[count] as usize, sums[Self::M - 1 - count] as usize);
        &Self::STEPS[usize::from(front_second)][(SHIFTS * front + end) % PAIRS]
    }

    /// The choice of rule 2: its s and its index. Up to the middle the ends are kept, and from there on they meet
    /// those that are kept, of as many symbols as are left. α can count only where w's own peak is below its
    /// largest, (q−1)/2.
    #[inline(never)]
    pub(crate) fn least_peak(sums: &Symbols) -> (i16, usize) {
        let mut ends = Self::START;
        let mut kept: [Ends; N] = from_fn(|count| {
            ends.extend(Self::steps_after(sums, count, false));
            ends
        });
        let mut ends = ends.swapped();
        let mut least = Lanes([NONE; LANES]);
        for (count, kept) in (N..).zip(kept.iter_mut().rev()) {
            ends.extend(Self::steps_after(sums, count, true));
            kept.meet(&ends, &mut least);
        }
        ends.extend(Self::steps_after(sums, 2 * N, true));
        let mut at_front = Self::AT_FRONT;
        at_front.meet(&ends, &mut least);

        let (peak, s, is_front) = first_least(&least);
        if i16::from(peak) < Self::HALF || peak >= EXACT {
            return Self::least_peak_by_shift(sums);
        }
        let index = if !is_front {
            N + 1 + position(kept.iter().rev(), peak, SHIFTS + s)
        } else if at_front.peaks.0[s] == peak {
            0
        } else {
            1 + position(kept.iter(), peak, s)
        };
        (s as i16, index)
    }

    /// The same for any w, one shift after the other.
    #[cold]
    fn least_peak_by_shift(sums: &Symbols) -> (i16, usize) {
        let choices = (0..Q as i16).map(|s| {
            let (peak, index) = Self::least_peak_at(sums, s);
            (peak, s, index)
        });
        let (_, s, index) = choices.min().expect("there are shifts");
        (s, index)
    }

    /// The least peak of a shift, and its lowest index.
    fn least_peak_at(sums: &Symbols, s: i16) -> (i16, usize) {
        let [before, after] = Self::raised(s);
        let (peaks, mut off, mut odd) = Self::from_end(sums, after);
        let (mut sum, mut peak) = (0i16, 0);
        let mut least = (i16::MAX, 0);
        for (index, &symbol) in sums[..Self::M].iter().enumerate() {
            if off == 0 {
                let alpha = Self::mod_q(odd + Self::DELTA) - Self::HALF;
                least = least.min((peak.max(peaks[index]).max(alpha.abs()), index));
            }
            sum += Self::step(symbol, before);
            peak = peak.max(sum.abs());
            let change = Self::step(symbol, before) - Self::step(symbol, after);
            off += change;
            odd += if index % 2 == 0 { change } else { 0 };
        }
        least
    }

    /// With all symbols so raised: at each index the largest size of a sum of last symbols, down to it; the sum of
    /// all; and the sum of the levels at odd positions.
    fn from_end(sums: &Symbols, raised: i16) -> (Symbols, i16, i16) {
        let mut peaks = [0; MAX_M];
        let (mut sum, mut peak, mut odd) = (0i16, 0, 0);
        for (index, &symbol) in sums[..Self::M].iter().enumerate().rev() {
            let step = Self::step(symbol, raised);
            sum += step;
            peak = sum.abs().max(peak);
            peaks[index] = peak;
            odd += if index % 2 == 0 { step + Self::HALF } else { 0 };
        }
        (peaks, sum, odd)
    }
}

/// The first of these to have this peak in this lane.
fn position<'a>(mut ends: impl Iterator<Item = &'a Ends>, peak: u8, lane: usize) -> usize {
    ends.position(|ends| ends.peaks.0[lane] == peak).expect("the peak was found at an index")
}
