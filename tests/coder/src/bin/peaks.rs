//! The figures of docs/SERVICE-BOOK.md on line rules (02, T-06: Calmer words on the pair): how far the words of each
//! rule swing. For profile 1 every pair is encoded; elsewhere pairs are drawn, from a fixed seed. The rows are those
//! of a table in Markdown.

use std::thread;

use coder::balance::balanced_words;
use coder::codeword::{all_messages, interleave, with_check_symbols, Messages};
use coder::edition::profiles_of_both;
use coder::line_rule::{taken, Choice, LINE_RULES};
use coder::near_miss_sums::components;
use coder::peak::peak;
use coder::profile::Profile;
use coder::rng::Rng;

/// Pairs of each profile but the first.
const PAIRS: usize = 100_000;

const HEAD: &str = "\
| profile | edition | pairs | average peak, rule 1 | rule 2 | worst peak, rule 1 | rule 2 | same word by both, in 100 |
|---|---|---|---|---|---|---|---|";

/// The peaks of the words of all pairs: how many pairs, their sum, and the worst.
#[derive(Default, Clone, Copy)]
struct Peaks {
    pairs: u64,
    sum: u64,
    worst: u32,
}

impl Peaks {
    fn add(&mut self, peak: u32) {
        self.pairs += 1;
        self.sum += u64::from(peak);
        self.worst = self.worst.max(peak);
    }

    fn average(&self) -> f64 {
        self.sum as f64 / self.pairs as f64
    }
}

/// The codewords of a pair. The check symbols are solved for, and not looked for, which is quicker and makes the
/// same ones (`near_miss_sums`); among all balancing choices the rules then choose by the search.
fn quick_codewords(profile: &Profile, messages: &Messages) -> Vec<Choice> {
    let x = interleave(profile.edition, &components(profile, messages, None));
    balanced_words(profile.edition, profile.q, &x)
        .map(|(choice, w)| (choice, with_check_symbols(profile, &w)))
        .collect()
}

/// The peaks of each rule, and how many of the pairs have the same word by both.
fn peaks(profile: &Profile, pairs: impl Iterator<Item = Messages>) -> ([Peaks; 2], u64) {
    let mut peaks = [Peaks::default(); 2];
    let mut same = 0;
    for messages in pairs {
        let words = quick_codewords(profile, &messages);
        let taken = LINE_RULES.map(|rule| taken(rule, profile.q, &words));
        for (peaks, (_, word)) in peaks.iter_mut().zip(taken) {
            peaks.add(peak(profile.q, word));
        }
        same += u64::from(taken[0] == taken[1]);
    }
    (peaks, same)
}

/// The row of a profile.
fn row(profile: &Profile) -> String {
    let rng = &mut Rng::new(22);
    let ([one, two], same) = match profile.number {
        1 => peaks(profile, all_messages(profile)),
        _ => peaks(profile, (0..PAIRS).map(|_| rng.messages(profile))),
    };
    let same = 100.0 * same as f64 / one.pairs as f64;
    format!(
        "| {} | {} | {} | {:.2} | {:.2} | {} | {} | {same:.1} |",
        profile.number,
        profile.edition.number(),
        one.pairs,
        one.average(),
        two.average(),
        one.worst,
        two.worst,
    )
}

fn main() {
    println!("{HEAD}");
    thread::scope(|scope| {
        let rows: Vec<_> =
            profiles_of_both().map(|profile| scope.spawn(move || row(profile))).collect();
        for row in rows {
            println!("{}", row.join().expect("a row is made"));
        }
    });
}
