//! Words with levels tried at some of their positions.

/// The lowest `count` digits of a number in base q, the highest of them first.
pub fn digits(q: u8, count: usize, number: usize) -> Vec<u8> {
    let q = usize::from(q);
    (0..count).rev().map(|power| (number / q.pow(power as u32) % q) as u8).collect()
}

/// The word with every assignment of levels to these positions.
pub fn fillings<'a>(
    q: u8,
    word: &'a [u8],
    positions: &'a [usize],
) -> impl Iterator<Item = Vec<u8>> + 'a {
    let count = usize::from(q).pow(positions.len() as u32);
    (0..count).map(move |number| {
        let mut filled = word.to_vec();
        for (&position, symbol) in positions.iter().zip(digits(q, positions.len(), number)) {
            filled[position - 1] = symbol;
        }
        filled
    })
}
