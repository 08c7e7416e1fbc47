//! Balancing and integration (01, "How a word is made", steps 4 and 5; 002, section III; 02, T-03),
//! for any edition, any number of levels q and any word x.

use crate::edition::Edition;

/// "The weight of a word is the plain sum of its symbols."
pub fn weight(word: &[u8]) -> u32 {
    word.iter().map(|&symbol| u32::from(symbol)).sum()
}

/// 01: middle. "Middle is m(q−1)/2."
pub fn balancing_value(q: u8, m: usize) -> u32 {
    m as u32 * (u32::from(q) - 1) / 2
}

/// a + b mod q.
pub fn add(q: u8, a: u8, b: u8) -> u8 {
    ((u32::from(a) + u32::from(b)) % u32::from(q)) as u8
}

/// a − b mod q.
pub fn subtract(q: u8, a: u8, b: u8) -> u8 {
    (i32::from(a) - i32::from(b)).rem_euclid(i32::from(q)) as u8
}

/// "Integrate: w1 = x1 and wi = w(i−1) + xi mod q." T-03: "integration runs from the end: wm = xm
/// and wi = w(i+1) + xi mod q."
pub fn integrate(edition: Edition, q: u8, x: &[u8]) -> Vec<u8> {
    match edition {
        Edition::Of2013 => x
            .iter()
            .scan(0, |sum, &symbol| {
                *sum = add(q, *sum, symbol);
                Some(*sum)
            })
            .collect(),
        Edition::Of2018 => {
            let mut w = x.to_vec();
            for i in (1..x.len()).rev() {
                w[i - 1] = add(q, w[i], x[i - 1]);
            }
            w
        }
    }
}

/// "differencing w mod q": x1 = w1 and xi = wi − w(i−1) mod q (002, equation 2). T-03: xm = wm and
/// xi = wi − w(i+1) mod q, which is what integration from the end undoes.
pub fn difference(edition: Edition, q: u8, w: &[u8]) -> Vec<u8> {
    let m = w.len();
    match edition {
        Edition::Of2013 => {
            (0..m).map(|i| subtract(q, w[i], if i == 0 { 0 } else { w[i - 1] })).collect()
        }
        Edition::Of2018 => {
            (0..m).map(|i| subtract(q, w[i], if i == m - 1 { 0 } else { w[i + 1] })).collect()
        }
    }
}

/// 01: a choice. "A choice is s from 0 to q−1 and v from 1 to m." T-03: "v runs from 0 to m−1".
#[derive(Debug, Clone, Copy, PartialEq, Eq)]
pub struct BalancingChoice {
    pub s: u8,
    pub v: usize,
}

impl BalancingChoice {
    /// "Add s to x1 and 1 to xv, mod q. Integrate". T-03: "1 is added at xv (nowhere when v is 0),
    /// s is added at xm".
    pub fn apply(self, edition: Edition, q: u8, x: &[u8]) -> Vec<u8> {
        let mut x = x.to_vec();
        let s_at = match edition {
            Edition::Of2013 => 1,
            Edition::Of2018 => x.len(),
        };
        x[s_at - 1] = add(q, x[s_at - 1], self.s);
        if self.v != 0 {
            x[self.v - 1] = add(q, x[self.v - 1], 1);
        }
        integrate(edition, q, &x)
    }

    /// Whether 1 is added to neither component: it stands at x1, which differencing drops, or, in the
    /// 2018 edition, nowhere.
    pub fn adds_nothing(self, edition: Edition) -> bool {
        match edition {
            Edition::Of2013 => self.v == 1,
            Edition::Of2018 => self.v == 0,
        }
    }
}

/// Every choice, "trying s from 0 upward and, for each s, v from 1 upward". T-03: "v runs from 0 to
/// m−1 .. and s is tried before v as now."
pub fn choices(edition: Edition, q: u8, m: usize) -> impl Iterator<Item = BalancingChoice> {
    let vs = match edition {
        Edition::Of2013 => 1..=m,
        Edition::Of2018 => 0..=m - 1,
    };
    (0..q).flat_map(move |s| vs.clone().map(move |v| BalancingChoice { s, v }))
}

/// The choices "whose w has weight equal to middle", each with its w, in the order of trying.
pub fn balanced_words(
    edition: Edition,
    q: u8,
    x: &[u8],
) -> impl Iterator<Item = (BalancingChoice, Vec<u8>)> + '_ {
    choices(edition, q, x.len())
        .map(move |choice| (choice, choice.apply(edition, q, x)))
        .filter(move |(_, w)| weight(w) == balancing_value(q, x.len()))
}
