//! The running digital sum of a word (02, T-06: the swing), and its peak.

/// 02: the swing. "The swing at place i is twice the sum of the first i symbols minus i times (q−1)".
pub fn running_digital_sum(q: u8, word: &[u8], i: usize) -> i32 {
    let sum: i32 = word[..i].iter().map(|&symbol| i32::from(symbol)).sum();
    2 * sum - i as i32 * (i32::from(q) - 1)
}

/// The same at every place, from 1 to the last, symbol by symbol.
pub fn running_digital_sums(q: u8, word: &[u8]) -> Vec<i32> {
    let sums = word.iter().scan(0, |sum, &symbol| {
        *sum += i32::from(symbol);
        Some(*sum)
    });
    (1..).zip(sums).map(|(i, sum)| 2 * sum - i * (i32::from(q) - 1)).collect()
}

/// "the peak is the largest size of it over the N places": of the whole word, α and β among its symbols.
pub fn peak(q: u8, word: &[u8]) -> u32 {
    let sizes = running_digital_sums(q, word).into_iter().map(i32::unsigned_abs);
    sizes.max().unwrap_or(0)
}
