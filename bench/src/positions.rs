//! Whether the cost of decoding depends on where the error is: words of profile 4 with a symbol of w changed at its start, in
//! its middle and at its end, by both decoders. The fast coder, which tries positions, stands beside both.

use std::time::Duration;

use coder::profile::{Profile, PROFILES};
use coder::random_words::changed_at;
use coder::rng::Rng;
use fogzurt::{EntryPoints, LIBRARY};

use crate::coding::{encoded, time_decode};
use crate::fast_coder::FAST;
use crate::race::Race;

/// Words for each two positions.
const WORDS: usize = 2000;

/// The positions that are changed by turns, of both halves of w.
const POSITIONS: [[usize; 2]; 3] = [[1, 2], [48, 49], [96, 97]];

/// Each pair of positions by each decoder.
const TIMED: usize = 2 * POSITIONS.len();

pub fn race_positions() {
    let profile = &PROFILES[3];
    let received = POSITIONS.map(|positions| received(profile, positions));
    let turn = |coder: &EntryPoints| -> [Duration; TIMED] {
        let times = [coder.decode, coder.syndrome_decode]
            .map(|decode| received.each_ref().map(|words| time_decode(decode, profile, words)));
        times.concat().try_into().expect("each decoder has every word")
    };
    let races = Race::new([WORDS; TIMED], || turn(&FAST), || turn(&LIBRARY));
    let names = ["decode", "by syndromes"].into_iter();
    let names = names.flat_map(|name| POSITIONS.map(|[one, other]| (name, one, other)));
    for (race, (name, one, other)) in races.iter().zip(names) {
        let row = format!("profile 4, {name}, error at {one} or {other}");
        println!("{}", race.row(&row, Some(profile.word_length())));
    }
}

/// Words with a symbol changed at one of these positions, by turns.
fn received(profile: &Profile, positions: [usize; 2]) -> Vec<Vec<u8>> {
    let rng = &mut Rng::new(positions[0] as u64);
    let turns = positions.iter().cycle().take(WORDS);
    turns
        .map(|&position| {
            let word = encoded(profile, &rng.messages(profile));
            changed_at(profile, &word, &[position], rng)
        })
        .collect()
}
