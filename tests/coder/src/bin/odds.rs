//! The figures of docs/SERVICE-BOOK.md: what all symbols, the odd and the even positions of a
//! codeword add up to, what is answered when two or three symbols of an encoded word are bad, and
//! what when one is bad and one or two others are erased (02, T-01: marked); and what is answered when a
//! word of one edition (02, T-03) is read as one of the other.
//! Bad and erased symbols are at positions, and bad ones arrive as levels, that are drawn evenly. For
//! profile 1 every change of the stated words is tried; elsewhere words and changes are drawn, from
//! a fixed seed. `odds --erasures` and `odds --editions` print the last two tables alone. The words are
//! those of line rule 1 (02, T-06), and with `--rule-2`, alone or beside one of these, those of line rule 2.

use std::process::ExitCode;

use coder::balance::weight;
use coder::codeword::{all_messages, codewords, Messages};
use coder::decode::{replaced, search, Kind};
use coder::edition::profiles_of_both;
use coder::encode::encoded_word;
use coder::erased_words::erased_and_changed;
use coder::erasure::ERASURE;
use coder::line_rule::LineRule;
use coder::profile::{Profile, PROFILES};
use coder::rng::Rng;

/// The speed of the line that the times are for.
const SYMBOLS_A_SECOND: f64 = 2400.0;

/// Which pairs are sent, and how many changes of each word are tried.
enum Plan {
    /// Every change of every `step`-th pair of the profile.
    Every { step: usize },
    /// So many changes of each of so many words.
    Drawn { words: usize, changes: usize },
}

/// How many symbols of a word are erased, and how many others are bad.
#[derive(Clone, Copy)]
struct Damage {
    erased: usize,
    bad: usize,
}

/// What is answered: the names of the counts, in the order of `outcome`.
const OUTCOMES: [&str; 5] =
    ["R 4", "M, another pair", "M, the pair sent", "C, another pair", "C, the pair sent"];

/// The same for a word with erasures.
const ERASED_OUTCOMES: [&str; 3] = ["R 4", "F, another pair", "F, the pair sent"];

fn outcome(profile: &Profile, sent: &Messages, received: &[u8]) -> usize {
    search(profile, received).map_or(0, |(decoded, read)| {
        1 + 2 * usize::from(decoded.kind == Kind::Clean) + usize::from(read == *sent)
    })
}

/// Hands over every word that differs in `count` positions, all of them after `after`.
fn every_change(q: u8, word: &[u8], count: usize, after: usize, see: &mut dyn FnMut(&[u8])) {
    if count == 0 {
        return see(word);
    }
    for position in after + 1..=word.len() {
        for symbol in (0..q).filter(|&symbol| symbol != word[position - 1]) {
            every_change(q, &replaced(word, position, symbol), count - 1, position, see);
        }
    }
}

/// Hands over the word with every choice of `count` positions erased, all of them after `after` and
/// none of them one that differs from what was sent.
fn every_erasure(sent: &[u8], word: &[u8], count: usize, after: usize, see: &mut dyn FnMut(&[u8])) {
    if count == 0 {
        return see(word);
    }
    for position in (after + 1..=word.len()).filter(|&at| word[at - 1] == sent[at - 1]) {
        every_erasure(sent, &replaced(word, position, ERASURE), count - 1, position, see);
    }
}

/// One word's counts of outcomes.
type Counts = [u64; OUTCOMES.len()];

/// The profile that a word is of, the line rule that it is made by, and the profile that it is read as: the
/// same, but for the edition.
#[derive(Clone, Copy)]
struct Way<'a> {
    profile: &'a Profile,
    rule: LineRule,
    reader: &'a Profile,
}

fn counts(
    Way { profile, rule, reader }: Way,
    sent: &Messages,
    Damage { erased, bad }: Damage,
    plan: &Plan,
    rng: &mut Rng,
) -> Counts {
    let word = encoded_word(profile, rule, sent);
    let mut counts = Counts::default();
    let mut see = |received: &[u8]| counts[outcome(reader, sent, received)] += 1;
    match plan {
        Plan::Every { .. } => every_change(profile.q, &word, bad, 0, &mut |changed| {
            every_erasure(&word, changed, erased, 0, &mut see)
        }),
        Plan::Drawn { changes, .. } => {
            (0..*changes).for_each(|_| see(&erased_and_changed(profile, &word, [erased, bad], rng)))
        }
    }
    counts
}

/// The share of an outcome in 100, and its standard error. All words have as many changes, and
/// those of one word are not independent: so the error is that of the mean of the words' shares.
fn share(words: &[Counts], outcome: usize) -> (f64, f64) {
    let shares = words.iter().map(|counts| {
        let all: u64 = counts.iter().sum();
        100.0 * counts[outcome] as f64 / all as f64
    });
    let count = words.len() as f64;
    let mean = shares.clone().sum::<f64>() / count;
    let squares: f64 = shares.map(|share| (share - mean).powi(2)).sum();
    (mean, (squares / (count * (count - 1.0))).sqrt())
}

/// A row of a table: the profile, how many symbols are erased, where some are, and how many are bad,
/// what was tried, and the outcomes in 100, with the standard error where changes were drawn.
fn print_odds(profile: &Profile, rule: LineRule, damage: Damage, plan: &Plan) {
    print!("| {} |", profile.number);
    print_row(Way { profile, rule, reader: profile }, damage, plan);
}

/// The rest of a row.
fn print_row(way: Way, damage: Damage, plan: &Plan) {
    let profile = way.profile;
    let rng = &mut Rng::new(20);
    let (sent, how): (Vec<Messages>, &str) = match plan {
        Plan::Every { step } => (all_messages(profile).step_by(*step).collect(), "every change of"),
        Plan::Drawn { words, .. } => {
            ((0..*words).map(|_| rng.messages(profile)).collect(), "drawn changes of")
        }
    };
    let words: Vec<Counts> = sent.iter().map(|sent| counts(way, sent, damage, plan, rng)).collect();
    let received: u64 = words.iter().flatten().sum();
    let (symbols, outcomes) = match damage {
        Damage { erased: 0, bad } => (bad.to_string(), OUTCOMES.len()),
        Damage { erased, bad } => (format!("{erased} | {bad}"), ERASED_OUTCOMES.len()),
    };
    print!(" {symbols} | {how} {} words: {received} |", words.len());
    for outcome in 0..outcomes {
        match (share(&words, outcome), plan) {
            ((0.0, _), _) => print!(" none |"),
            ((mean, _), Plan::Every { .. }) => print!(" {mean:.3} |"),
            ((mean, error), Plan::Drawn { .. }) => print!(" {mean:.3} ± {error:.3} |"),
        }
    }
    println!();
}

/// The sum of all symbols, and the remainders of the odd and of the even positions, α and β among
/// them; they are the same for every codeword of random pairs, by any balancing choice.
fn print_sums(profile: &Profile, rule: LineRule, words: usize) {
    let rng = &mut Rng::new(21);
    let sums = |word: &[u8]| {
        let odd: u32 = word.iter().step_by(2).map(|&symbol| u32::from(symbol)).sum();
        let q = u32::from(profile.q);
        [weight(word), odd % q, (weight(word) - odd) % q]
    };
    let expected = sums(&encoded_word(profile, rule, &rng.messages(profile)));
    let mut tried = 0;
    while tried < words {
        for (_, word) in codewords(profile, &rng.messages(profile)) {
            assert_eq!(sums(&word), expected, "codeword {word:?}");
            tried += 1;
        }
    }
    let [total, odd, even] = expected;
    let time = 1000.0 * profile.word_length() as f64 / SYMBOLS_A_SECOND;
    println!("| {} | {time:.2} | {total} | {odd} | {even} | {tried} |", profile.number);
}

/// What is answered when two or three symbols are bad.
fn print_bad(rule: LineRule) {
    println!("| profile | bad symbols | tried | {} |", OUTCOMES.join(" | "));
    let bad = |bad: usize| Damage { erased: 0, bad };
    print_odds(&PROFILES[0], rule, bad(2), &Plan::Every { step: 1 });
    print_odds(&PROFILES[0], rule, bad(3), &Plan::Every { step: 59 });
    for profile in &PROFILES[1..] {
        for count in [2, 3] {
            print_odds(profile, rule, bad(count), &Plan::Drawn { words: 1000, changes: 200 });
        }
    }
}

/// What is answered when one symbol is bad and one or two others are erased.
fn print_erased(rule: LineRule) {
    println!("| profile | erased | bad | tried | {} |", ERASED_OUTCOMES.join(" | "));
    let erased = |erased: usize| Damage { erased, bad: 1 };
    print_odds(&PROFILES[0], rule, erased(1), &Plan::Every { step: 1 });
    print_odds(&PROFILES[0], rule, erased(2), &Plan::Every { step: 59 });
    for profile in &PROFILES[1..] {
        for count in [1, 2] {
            print_odds(profile, rule, erased(count), &Plan::Drawn { words: 1000, changes: 1000 });
        }
    }
}

/// What is answered when a word of one edition is read as one of the other, as sent and with one bad
/// symbol.
fn print_editions(rule: LineRule) {
    println!("| profile | sent | read as | bad symbols | tried | {} |", OUTCOMES.join(" | "));
    for profile in profiles_of_both() {
        let reader = profile.in_other_edition();
        let [sent, read] = [profile, &reader].map(|profile| profile.edition.number());
        for (bad, words, changes) in [(0, 4000, 1), (1, 1000, 50)] {
            let plan = match profile.number {
                1 => Plan::Every { step: 1 },
                _ => Plan::Drawn { words, changes },
            };
            print!("| {} | {sent} | {read} |", profile.number);
            print_row(Way { profile, rule, reader: &reader }, Damage { erased: 0, bad }, &plan);
        }
    }
}

fn main() -> ExitCode {
    let arguments: Vec<String> = std::env::args().skip(1).collect();
    let (rules, tables): (Vec<&str>, Vec<&str>) =
        arguments.iter().map(String::as_str).partition(|&argument| argument == "--rule-2");
    let rule = if rules.is_empty() { LineRule::One } else { LineRule::Two };
    match tables[..] {
        [] => {
            println!("| profile | ms a word | total | odd places | even places | words tried |");
            PROFILES.iter().for_each(|profile| print_sums(profile, rule, 10_000));
            print_bad(rule);
            print_erased(rule);
            print_editions(rule);
        }
        ["--erasures"] => print_erased(rule),
        ["--editions"] => print_editions(rule),
        _ => {
            eprintln!("usage: odds [--erasures | --editions] [--rule-2]");
            return ExitCode::FAILURE;
        }
    }
    ExitCode::SUCCESS
}
