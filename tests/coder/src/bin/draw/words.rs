//! A word's parts, and a word beside another codeword as near as any, with real words of profile 1.

use coder::codeword::{all_messages, codewords, components_of, Messages};
use coder::component::{message_positions, syndrome};
use coder::decode::{decode_word, replaced, Answer};
use coder::encode::encoded_word;
use coder::line_rule::LineRule;
use coder::profile::Profile;
use coder::text::digits;

use crate::picture::{Picture, BOLD, CENTRED, END};

const ODD: &str = "#e3ecfb";
const EVEN: &str = "#fdf3d0";
const BAD: &str = "#f99";
const CELL: u32 = 28;
const FAINT: &str = "font-size=\"10\" fill=\"#666\"";

/// The left edge of a position's cell; α and β stand apart from w.
fn left(profile: &Profile, position: usize) -> u32 {
    let apart = if position > profile.m() { 14 } else { 0 };
    100 + CELL * (position as u32 - 1) + apart
}

fn draw_cell(picture: &mut Picture, x: u32, y: u32, fill: &str, symbol: u8) {
    let style = format!("fill=\"{fill}\" stroke=\"#357\"");
    picture.rectangle(x, y, CELL - 3, CELL - 3, &style);
    let style = format!("{CENTRED} font-size=\"15\"");
    picture.text(x + CELL / 2 - 1, y + CELL - 10, &style, &symbol.to_string());
}

/// The positions' numbers above a row, and the names of the check symbols.
fn draw_positions(picture: &mut Picture, profile: &Profile, y: u32) {
    for position in 1..=profile.word_length() {
        let x = left(profile, position) + CELL / 2 - 1;
        picture.text(x, y, &format!("{CENTRED} font-size=\"10\""), &position.to_string());
    }
    for (position, name) in [(profile.m() + 1, "α"), (profile.m() + 2, "β")] {
        let x = left(profile, position) + CELL / 2 - 1;
        picture.text(x, y - 14, &format!("{CENTRED} {BOLD}"), name);
    }
}

fn parity_colour(position: usize) -> &'static str {
    if position % 2 == 1 {
        ODD
    } else {
        EVEN
    }
}

/// The step into a position, in a circle above the cells or below them, with its number.
fn draw_step(picture: &mut Picture, x: u32, cells: u32, position: usize, step: u8) {
    let above = position.is_multiple_of(2);
    let (edge, y) = if above { (cells - 16, cells - 46) } else { (cells + CELL, cells + 54) };
    let (near, number) = if above { (y + 10, y - 15) } else { (y - 10, y + 22) };
    let (from, to) = (x - CELL / 2, x + CELL / 2);
    picture.path(&format!("M{from} {edge}L{x} {near}L{to} {edge}"), "stroke=\"#888\"");
    picture.circle(x, y, 10, parity_colour(position), "#357");
    picture.text(x, y + 4, CENTRED, &step.to_string());
    picture.text(x, number, &format!("{CENTRED} {FAINT}"), &(position / 2).to_string());
}

pub fn draw_anatomy(profile: &Profile, messages: &Messages) -> Picture {
    let (choice, word) = codewords(profile, messages).swap_remove(0);
    let components = components_of(profile, &word[..profile.m()]);
    let cells = 114;
    let mut picture = Picture::new(left(profile, word.len()) + CELL + 40, 328);
    let title = format!("A word of profile 1 and its parts: {}", digits(&word));
    picture.text(10, 18, BOLD, &title);
    draw_positions(&mut picture, profile, cells - 4);
    picture.text(90, cells + 17, END, "w, then α, β");
    for (index, &symbol) in word.iter().enumerate() {
        let position = index + 1;
        let x = left(profile, position);
        draw_cell(&mut picture, x, cells, parity_colour(position), symbol);
        if (2..=profile.m()).contains(&position) {
            let step = components[position % 2][position / 2 - 1];
            draw_step(&mut picture, x - 2, cells, position, step);
        }
    }
    picture.text(90, cells - 42, END, "first half");
    picture.text(90, cells + 58, END, "second half");
    picture.text(90, cells - 61, &format!("{END} {FAINT}"), "step number");
    let halves = components.iter().zip(messages).enumerate();
    let notes = halves.flat_map(|(half, (component, message))| {
        half_notes(profile, half, component, message, choice.v)
    });
    for (line, text) in notes.chain(sum_notes(profile, &word)).enumerate() {
        picture.text(10, cells + 106 + 18 * line as u32, "", &text);
    }
    picture
}

/// What a half is and holds, and its check sums; v is the choice's.
fn half_notes(
    profile: &Profile,
    half: usize,
    component: &[u8],
    message: &[u8],
    v: usize,
) -> [String; 2] {
    let (name, places) =
        [("First", "the even places of w"), ("Second", "the odd places from 3 on")][half];
    let positions = message_positions(profile);
    let (from, to) = (positions[0], positions[positions.len() - 1]);
    let sums = syndrome(profile, component).iter().map(u8::to_string).collect::<Vec<_>>().join(" ");
    let column = if v > 1 && v % 2 == half {
        format!(", column {}: the 1 that the writer added at place {v}", v / 2)
    } else {
        String::new()
    };
    [
        format!("{name} half, the steps into {places}: {}. ", digits(component))
            + &format!("Steps {from} to {to}: its message, {}.", digits(message)),
        format!("Its check sums (threes, ones, plain): {sums}{column}."),
    ]
}

/// What w weighs, and what all symbols and those of each parity add up to.
fn sum_notes(profile: &Profile, word: &[u8]) -> [String; 2] {
    let sum = |symbols: &mut dyn Iterator<Item = &u8>| symbols.map(|&s| u32::from(s)).sum::<u32>();
    let (odd, even) = (sum(&mut word.iter().step_by(2)), sum(&mut word.iter().skip(1).step_by(2)));
    let (weight, q) = (sum(&mut word[..profile.m()].iter()), u32::from(profile.q));
    let (m, total) = (profile.m(), odd + even);
    [
        format!("w, places 1 to {m}, weighs {weight}, the middle. All symbols together: {total}."),
        format!("Odd places (blue), β among them: {odd}, remainder {}. ", odd % q)
            + &format!("Even places (yellow), α among them: {even}, remainder {}.", even % q),
    ]
}

/// The positions in which two words differ.
fn differing(a: &[u8], b: &[u8]) -> Vec<usize> {
    (1..=a.len()).filter(|&position| a[position - 1] != b[position - 1]).collect()
}

/// What boxlines answers to a received word of the profile, and whether that is the pair sent.
fn answer(profile: &Profile, word: &[u8], sent: &Messages) -> String {
    let (Answer { decoded, .. }, read) = match decode_word(profile, word) {
        Ok(answer) => answer,
        Err(refusal) => return refusal.to_string(),
    };
    let judged = if read == *sent { "right" } else { "wrong" };
    format!("{} {}: {judged}", profile.number, decoded.answer(&read[0], &read[1]))
}

pub fn draw_neighbours(profile: &Profile, messages: &Messages) -> Picture {
    let sent = encoded_word(profile, LineRule::One, messages);
    let nearest = all_messages(profile)
        .flat_map(|messages| codewords(profile, &messages))
        .map(|(_, word)| word)
        .filter(|word| *word != sent)
        .min_by_key(|word| differing(word, &sent).len())
        .expect("there are other codewords");
    let positions = differing(&sent, &nearest);
    let right = left(profile, sent.len()) + CELL + 10;
    let mut picture = Picture::new(right + 230, 68 + 36 * (positions.len() as u32 + 1));
    let title = format!(
        "A lawful word, and what arrives on the way to another lawful word, {} places away",
        positions.len()
    );
    picture.text(10, 18, BOLD, &title);
    draw_positions(&mut picture, profile, 58);
    picture.text(right, 58, BOLD, "answer");
    for bad in 0..=positions.len() {
        let y = 66 + 36 * bad as u32;
        let arrived = positions[..bad]
            .iter()
            .fold(sent.clone(), |word, &position| replaced(&word, position, nearest[position - 1]));
        let caption = if bad == 0 { "as sent".to_string() } else { format!("{bad} bad") };
        picture.text(90, y + 17, END, &caption);
        for (index, &symbol) in arrived.iter().enumerate() {
            let position = index + 1;
            let is_bad = positions[..bad].contains(&position);
            let fill = if is_bad { BAD } else { parity_colour(position) };
            draw_cell(&mut picture, left(profile, position), y, fill, symbol);
        }
        picture.text(right, y + 17, "", &answer(profile, &arrived, messages));
    }
    picture
}
