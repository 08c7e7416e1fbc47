//! That the lines tell steps with a slip from the right one.

use std::collections::BTreeSet;

use coder::edition::profiles_of_both;
use coder::located_near_misses::harmful_slips;
use coder::near_miss_located::position;
use coder::text::symbols;

use super::*;

/// What the step is handed by a line of a profile.
fn handed(profile: &Profile, fields: &[&str]) -> Handed {
    let half = if fields[2] == "0" { Half::Odd } else { Half::Even };
    let levels = symbols(fields[3]);
    let syndromes = [fields[4], fields[5]].map(|rows| match symbols(rows)[..] {
        [low, mid, high, ones] if profile.r == 4 => vec![high, mid, low, ones],
        [low, mid, 0, ones] => vec![mid, low, ones],
        _ => unreachable!("four rows, and no high one for two digits"),
    });
    Handed { half, error: i16::from(levels[0]) - i16::from(levels[1]), syndromes }
}

/// What the step is handed by the lines of a profile, and the position that it has to answer.
fn stored(file: &CaseFile, profile: &Profile) -> Vec<(Handed, usize)> {
    let [input, expected] =
        [&file.input, &file.expected].map(|bytes| std::str::from_utf8(bytes).unwrap());
    let told = [profile.edition.number(), profile.number].map(|number| number.to_string());
    let cases = input.lines().zip(expected.lines());
    cases
        .map(|(case, position)| (case.split(' ').collect::<Vec<&str>>(), position))
        .filter(|(fields, _)| fields[..2] == told)
        .map(|(fields, position)| (handed(profile, &fields), position.parse().unwrap()))
        .collect()
}

/// Every slip of the step answers a line otherwise, in every profile and edition in which it does harm; without
/// one all are right. The lines have every position, and every error.
#[test]
fn every_slip_of_the_step_is_told() {
    let file = make();
    for profile in profiles_of_both() {
        let stored = stored(&file, profile);
        let is_told = |slip| {
            stored.iter().any(|(handed, right)| position(profile, handed, slip) != Some(*right))
        };
        assert!(!is_told(None), "{profile:?}");
        for slip in harmful_slips(profile).into_iter().filter(|slip| slip.is_of_step()) {
            assert!(is_told(Some(slip)), "{slip:?}, {profile:?}");
        }
        let positions: BTreeSet<usize> = stored.iter().map(|(_, position)| *position).collect();
        assert_eq!(positions, (1..=profile.m()).collect());
        let met: BTreeSet<i16> = stored.iter().map(|(handed, _)| handed.error).collect();
        assert_eq!(met, errors(profile).into_iter().collect());
    }
}

/// What was worked out by hand is what differencing and the check rows give.
#[test]
fn cases_by_hand_are_what_is_handed() {
    for (edition, word, handed, position) in LOCATED {
        let profile = &Edition::lookup(edition).unwrap().profiles()[0];
        assert_eq!(line(profile, &symbols(word)), (handed.to_string(), position));
    }
}
