//! All 3^19 received words of profile 1, of one edition, decoded by both decoders and converted. The codewords
//! and their neighbours are marked in a table, a part of it at a time; everything else has to be refused with 4.
//! The table also says which position is found, if any, and so how many are tried (02, T-08); and that
//! converting has to refuse all neighbours with 13 (02, T-04).

use std::ops::Range;

use coder::codeword::{all_messages, codewords, messages_of, with_check_symbols, Messages};
use coder::edition::Edition;
use coder::encode::encoded_word;
use coder::line_rule::LineRule;
use coder::profile::Profile;
use coder::refusal::Refusal;
use coder::tried::tried_up_to;
use fogzurt::{EntryPoints, PackedAnswer};

use crate::calls::{
    convert_word, decode_by, decode_to, decoders, number_of, packed, told, Decoder,
};
use crate::compare::{Checked, Mismatch, FILLER};
use crate::parallel::{run_jobs, sums_of_jobs};

/// Profile 1's N, m and k.
const LENGTH: usize = 19;
const M: usize = 17;
const MESSAGE: usize = 5;

/// The parts of the table: the words that begin with the same four symbols.
const PARTS: usize = 3usize.pow(4);
const WORDS_OF_A_PART: u32 = 3u32.pow(LENGTH as u32 - 4);

/// The words w that are tried in one job.
const WORDS_OF_A_JOB: u32 = 3u32.pow(M as u32 - 5);

/// Every codeword (01: lawful word) as a number in base 3, rising, with its pair.
type Codewords = [(u32, Messages)];

/// The number of a word; its first symbol is the highest digit.
fn value(word: &[u8]) -> u32 {
    word.iter().fold(0, |value, &symbol| value * 3 + u32::from(symbol))
}

/// The word of a number.
fn word<const COUNT: usize>(value: u32) -> [u8; COUNT] {
    let mut rest = value;
    let mut word = [0; COUNT];
    for symbol in word.iter_mut().rev() {
        *symbol = (rest % 3) as u8;
        rest /= 3;
    }
    word
}

pub fn check(tried: &EntryPoints, edition: Edition) -> Checked<String> {
    let profile = &edition.profiles()[0];
    let codewords = list(profile)?;
    let counts = sums_of_jobs("every word of profile 1", PARTS, |part| {
        check_part(tried, profile, &codewords, part as u32 * WORDS_OF_A_PART)
    })?;
    let [clean, corrected, refused] = counts;
    let (sent, received) = (codewords.len(), clean + corrected + refused);
    let [edition, other] = [edition, edition.other()].map(Edition::number);
    Ok(format!(
        "every word of profile 1, edition {edition}: {sent} codewords; {received} received words, \
         {clean} clean, {corrected} corrected, {refused} refused, each by syndromes too; each also \
         converted, {clean} to edition {other}, {corrected} refused with 13, {refused} with 4"
    ))
}

/// The codewords of all pairs by all balancing choices. To be sure that there are no others,
/// every w is also put to 01's four conditions, with its own check symbols.
fn list(profile: &Profile) -> Checked<Vec<(u32, Messages)>> {
    let pairs: Vec<Messages> = all_messages(profile).collect();
    let by_choices = run_jobs("listing codewords", pairs.len(), |job| {
        let words = codewords(profile, &pairs[job]).into_iter();
        Ok(words.map(|(_, word)| (value(&word), pairs[job].clone())).collect::<Vec<_>>())
    })?;
    let by_conditions = run_jobs("trying every w", 3usize.pow(5), |job| {
        let first = job as u32 * WORDS_OF_A_JOB;
        let words = (first..first + WORDS_OF_A_JOB).filter_map(|w| {
            let word = with_check_symbols(profile, &word::<M>(w));
            Some((value(&word), messages_of(profile, &word)?))
        });
        Ok(words.collect::<Vec<_>>())
    })?;
    let [by_choices, by_conditions] = [by_choices, by_conditions].map(|parts| {
        let mut rows = parts.concat();
        rows.sort_unstable();
        rows
    });
    if by_choices != by_conditions {
        return Err(Mismatch(format!(
            "the separate coder has {} codewords by choices, and {} by 01's conditions",
            by_choices.len(),
            by_conditions.len()
        )));
    }
    Ok(by_choices)
}

/// What a word is: its mark in the table.
#[derive(Clone, Copy, PartialEq, Eq)]
enum Mark {
    /// No codeword is within one position.
    Far,
    Codeword,
    /// A codeword but for the symbol at an index, from 0; and what was sent there.
    Neighbour(u8, u8),
}

/// The marks of the words from `first` on.
fn marks(codewords: &Codewords, first: u32) -> Vec<Mark> {
    let mut marks = vec![Mark::Far; WORDS_OF_A_PART as usize];
    let mut set = |word: u32, mark: Mark| {
        if let Some(place) = word.checked_sub(first).and_then(|at| marks.get_mut(at as usize)) {
            assert!(*place == Mark::Far, "two codewords within one position of {word}");
            *place = mark;
        }
    };
    for &(word, _) in codewords {
        set(word, Mark::Codeword);
        let mut power = 1;
        for index in (0..LENGTH as u8).rev() {
            let sent = word / power % 3;
            for received in (0..3).filter(|&received| received != sent) {
                let neighbour = word - sent * power + received * power;
                set(neighbour, Mark::Neighbour(index, sent as u8));
            }
            power *= 3;
        }
    }
    marks
}

/// Decodes and converts the words from `first` on; how many are clean, corrected and refused.
fn check_part(
    tried: &EntryPoints,
    profile: &Profile,
    codewords: &Codewords,
    first: u32,
) -> Checked<[usize; 3]> {
    let mut counts = [0; 3];
    for (mark, number) in marks(codewords, first).into_iter().zip(first..) {
        let received: [u8; LENGTH] = word(number);
        let mut sent = received;
        let (kind, expected) = match mark {
            Mark::Far => {
                let count = tried_up_to(profile, &received, None);
                let expected = packed(Err(Refusal::Unreadable { tried: count }));
                for decoder in decoders(tried) {
                    decode_far(decoder, profile, &received, expected)?;
                }
                convert_far(tried, profile, &received)?;
                counts[2] += 1;
                continue;
            }
            Mark::Codeword => (0, PackedAnswer::clean()),
            Mark::Neighbour(index, symbol) => {
                let index = usize::from(index);
                sent[index] = symbol;
                let error = received[index] as i8 - symbol as i8;
                let count = tried_up_to(profile, &received, Some(index + 1)) as u8;
                let corrected = PackedAnswer::corrected(index + 1, symbol);
                (1, corrected.with_error(error).with_tried(count))
            }
        };
        let row = codewords.binary_search_by_key(&value(&sent), |(listed, _)| *listed);
        let (_, messages) = &codewords[row.expect("the word is listed")];
        let [first, second] = messages;
        decode_to(tried, told(profile), &received, expected, [first, second])?;
        convert_marked(tried, profile, &received, mark, messages)?;
        counts[kind] += 1;
    }
    Ok(counts)
}

/// Converts a word that is read as these messages.
fn convert_marked(
    tried: &EntryPoints,
    profile: &Profile,
    received: &[u8],
    mark: Mark,
    messages: &Messages,
) -> Checked {
    if mark != Mark::Codeword {
        return convert_word(tried, profile, received, Err(Refusal::NotClean));
    }
    let converted = encoded_word(&profile.in_other_edition(), LineRule::One, messages);
    convert_word(tried, profile, received, Ok(&converted))
}

/// Decodes a word that no codeword is near, by one decoder. Nearly every word is one, so the buffers stand on the stack,
/// each output the middle of three parts, and the call is made again by `decode_by`, to say what differs,
/// only where something does.
fn decode_far(
    decoder: Decoder,
    profile: &Profile,
    received: &[u8; LENGTH],
    expected: PackedAnswer,
) -> Checked {
    const UNTOUCHED: [u8; 3 * MESSAGE] = [FILLER; 3 * MESSAGE];
    const LENT: Range<usize> = MESSAGE..2 * MESSAGE;
    let word = *received;
    let (mut first, mut second) = (UNTOUCHED, UNTOUCHED);
    let told = told(profile);
    let (decode, name, answered) = decoder;
    let [edition, number] = told;
    let answer = decode(edition, number, &word, &mut first[LENT], &mut second[LENT]);
    if answer == answered(expected) && word == *received && [first, second] == [UNTOUCHED; 2] {
        return Ok(());
    }
    decode_by(decoder, told, received, expected, [&UNTOUCHED[LENT]; 2])?;
    Err(Mismatch(format!(
        "{name} {edition}, 1, {received:?} is right only the second time; first {answer}"
    )))
}

/// Converts such a word, in the same way.
fn convert_far(tried: &EntryPoints, profile: &Profile, received: &[u8; LENGTH]) -> Checked {
    const UNTOUCHED: [u8; 3 * LENGTH] = [FILLER; 3 * LENGTH];
    const UNREADABLE: Refusal = Refusal::Unreadable { tried: 0 };
    let word = *received;
    let mut out = UNTOUCHED;
    let [edition, number] = told(profile);
    let answer = (tried.convert)(edition, number, &word, &mut out[LENGTH..2 * LENGTH]);
    if answer == number_of(Err(UNREADABLE)) && word == *received && out == UNTOUCHED {
        return Ok(());
    }
    convert_word(tried, profile, received, Err(UNREADABLE))?;
    Err(Mismatch(format!(
        "convert {edition}, 1, {received:?} is right only the second time; first {answer}"
    )))
}
