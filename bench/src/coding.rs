//! Encoding by both line rules, decoding of clean words, of words with one symbol changed, these by both decoders, and of
//! words with one and two symbols erased, and converting of clean words, in both editions by turns.

use std::hint::black_box;
use std::time::Duration;

use coder::codeword::Messages;
use coder::edition::EDITIONS;
use coder::erased_words::{
    both_checks, like_parity, one_check, one_of_w, one_of_w_and_one_check, unlike_parity, Draw,
};
use coder::erasure::erased_at;
use coder::profile::{Profile, PROFILES};
use coder::random_words::changed;
use coder::rng::Rng;
use fogzurt::{Decode, EntryPoints, LIBRARY};

use crate::fast_coder::FAST;
use crate::race::{time, Race};

/// Pairs of messages for each profile.
const PAIRS: usize = 2000;

/// What is measured, in the order of a turn. Words are converted to the other edition.
const OPERATIONS: [&str; 8] = [
    "encode",
    "encode rule 2",
    "decode clean",
    "decode corrected",
    "decode corrected by syndromes",
    "decode one erasure",
    "decode two erasures",
    "convert",
];

/// Where encoding by rule 1 and by rule 2 stands among them.
const RULE_1: usize = 0;
const RULE_2: usize = 1;

/// Where decoding of the same corrected words stands, by trying positions and by syndromes.
const CORRECTED: usize = 3;
const BY_SYNDROMES: usize = 4;

/// The kinds of received words that are decoded: clean, corrected, and with one and two erasures.
const DECODED: usize = 4;

/// Where words are erased, by turns: in w, of two symbols of like and of unlike parity, and at check
/// symbols.
const ONE_ERASURE: [Draw; 4] = [one_of_w, one_of_w, one_of_w, one_check];
const TWO_ERASURES: [Draw; 4] = [like_parity, unlike_parity, one_of_w_and_one_check, both_checks];

/// The operations of edition 13, then those of edition 18.
const TIMED: usize = EDITIONS.len() * OPERATIONS.len();

/// Prints the rows of all profiles, and gives the line about rule 2 that comes last.
pub fn race_profiles() -> String {
    let by_symbol: Vec<[f64; EDITIONS.len()]> = (0..PROFILES.len())
        .map(|index| race_profile(EDITIONS.map(|edition| &edition.profiles()[index])))
        .collect();
    growth(&by_symbol)
}

/// How the time for a symbol by rule 2 grows. In O(q·m) it may grow with q, from 5 to 7, but not with m, which doubles.
fn growth(by_symbol: &[[f64; EDITIONS.len()]]) -> String {
    let [.., of_3, of_4] = by_symbol else { unreachable!("there are four profiles") };
    let [of_2013, of_2018] = [0, 1].map(|edition| of_4[edition] / of_3[edition]);
    let head = "encode rule 2, library ns a symbol, profile 4 / profile 3";
    format!("{head}: edition 13 {of_2013:5.2}, edition 18 {of_2018:5.2}")
}

/// Prints the rows of edition 13, then those of edition 18, with the library's time over that of edition
/// 13. Both have their turns together, so that the two times are of the same moment. Gives the library's time for
/// a symbol by rule 2, in each edition.
fn race_profile(profiles: [&'static Profile; EDITIONS.len()]) -> [f64; EDITIONS.len()] {
    let inputs = profiles.map(Inputs::new);
    let turn = |coder: &EntryPoints| -> [Duration; TIMED] {
        let times = inputs.each_ref().map(|inputs| inputs.turn(coder));
        times.concat().try_into().expect("each edition has every operation")
    };
    let races = Race::new([PAIRS; TIMED], || turn(&FAST), || turn(&LIBRARY));
    let editions = [0, 1].map(|edition| &races[edition * OPERATIONS.len()..][..OPERATIONS.len()]);
    let [of_2013, of_2018] = editions;
    let symbols = profiles[0].word_length();
    let number = profiles[0].number;
    for (index, (race, operation)) in of_2013.iter().zip(OPERATIONS).enumerate() {
        let row = race.row(&format!("profile {number}, {operation}"), Some(symbols));
        println!("{row}{}", over_other(of_2013, index));
    }
    for (index, (race, operation)) in of_2018.iter().zip(OPERATIONS).enumerate() {
        let row = race.row(&format!("profile {number}, 18, {operation}"), Some(symbols));
        let over_2013 = race.library_over(&of_2013[index]);
        println!("{row}   18 / 13 {over_2013:5.2}{}", over_other(of_2018, index));
    }
    editions.map(|races| races[RULE_2].library_by_symbol(symbols))
}

/// What two rows have more: the library's time by rule 2 over that by rule 1, and its time to decode corrected words over
/// that by syndromes, of the same profile and edition.
fn over_other(races: &[Race], index: usize) -> String {
    let (name, over, under) = match index {
        RULE_2 => ("rule 2 / rule 1", RULE_2, RULE_1),
        BY_SYNDROMES => ("decode / by syndromes", CORRECTED, BY_SYNDROMES),
        _ => return String::new(),
    };
    format!("   {name} {:5.2}", races[over].library_over(&races[under]))
}

/// The numbers of the edition and of the profile.
fn told(profile: &Profile) -> [u64; 2] {
    [profile.edition.number(), profile.number].map(u64::from)
}

/// The word of two messages of a profile, by line rule 1.
pub fn encoded(profile: &Profile, [first, second]: &Messages) -> Vec<u8> {
    let [edition, number] = told(profile);
    let mut word = vec![0; profile.word_length()];
    assert_eq!((FAST.encode)(edition, number, 1, first, second, &mut word), 0);
    word
}

/// How long a decoder takes for all these words, which it reads.
pub fn time_decode(decode: Decode, profile: &Profile, words: &[Vec<u8>]) -> Duration {
    let [edition, number] = told(profile);
    let [mut first, mut second] = [(); 2].map(|()| vec![0; profile.k()]);
    time(|| {
        for word in words {
            let told = black_box([edition, number]);
            let answer = decode(told[0], told[1], word, &mut first, &mut second);
            assert!(answer.number() == 0);
            black_box((&mut first, &mut second));
        }
    })
}

/// Messages of a profile, and received words: theirs, those with one symbol changed, and those with
/// one and two erased.
struct Inputs {
    profile: &'static Profile,
    messages: Vec<Messages>,
    received: [Vec<Vec<u8>>; DECODED],
}

impl Inputs {
    fn new(profile: &'static Profile) -> Inputs {
        let rng = &mut Rng::new(u64::from(profile.number));
        let messages: Vec<Messages> = (0..PAIRS).map(|_| rng.messages(profile)).collect();
        let clean: Vec<Vec<u8>> =
            messages.iter().map(|messages| encoded(profile, messages)).collect();
        let damaged = clean.iter().map(|word| changed(profile, word, 1, rng)).collect();
        let [one_erased, two_erased] = [ONE_ERASURE, TWO_ERASURES].map(|draws| {
            let words = clean.iter().zip(draws.iter().cycle());
            words.map(|(word, draw)| erased_at(word, &draw(profile, rng))).collect()
        });
        Inputs { profile, messages, received: [clean, damaged, one_erased, two_erased] }
    }

    fn turn(&self, coder: &EntryPoints) -> [Duration; OPERATIONS.len()] {
        let [rule_1, rule_2] = [1, 2].map(|rule| self.encode(coder, rule));
        let decode = |words: &Vec<Vec<u8>>| time_decode(coder.decode, self.profile, words);
        let [clean, damaged, one_erased, two_erased] = self.received.each_ref();
        [
            rule_1,
            rule_2,
            decode(clean),
            decode(damaged),
            time_decode(coder.syndrome_decode, self.profile, damaged),
            decode(one_erased),
            decode(two_erased),
            self.convert(coder),
        ]
    }

    fn encode(&self, coder: &EntryPoints, rule: u64) -> Duration {
        let [edition, number] = told(self.profile);
        let mut out = vec![0; self.profile.word_length()];
        time(|| {
            for [first, second] in &self.messages {
                let told = black_box([edition, number, rule]);
                assert!((coder.encode)(told[0], told[1], told[2], first, second, &mut out) == 0);
                black_box(&mut out);
            }
        })
    }

    fn convert(&self, coder: &EntryPoints) -> Duration {
        let [edition, number] = told(self.profile);
        let [clean, ..] = &self.received;
        let mut out = vec![0; self.profile.word_length()];
        time(|| {
            for word in clean {
                let told = black_box([edition, number]);
                assert!((coder.convert)(told[0], told[1], word, &mut out) == 0);
                black_box(&mut out);
            }
        })
    }
}
