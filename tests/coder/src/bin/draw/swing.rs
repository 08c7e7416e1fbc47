//! The swing (02, T-06: Calmer words on the pair) of one pair's word by each line rule, place by place.

use std::fmt::Write as _;

use coder::balance::BalancingChoice;
use coder::codeword::{codewords, Messages};
use coder::line_rule::{taken, LineRule, LINE_RULES};
use coder::peak::{peak, running_digital_sums};
use coder::profile::Profile;
use coder::text::symbols;

use crate::picture::{Picture, BOLD, CENTRED, END};

/// A pair of profile 3 whose peaks are near the average of each rule (`peaks`), and whose two words differ in the
/// middle alone, since both have the same s.
pub fn messages() -> Messages {
    ["233044414240444031144", "344403120144142442242"].map(symbols)
}

const LEFT: u32 = 62;
const STEP: u32 = 13;
/// Where the swing is 0, and how much higher it is drawn for each 1.
const ZERO: u32 = 218;
const UNIT: i32 = 7;

/// The word of a rule, and how it is drawn.
struct Curve {
    rule: LineRule,
    choice: BalancingChoice,
    word: Vec<u8>,
    swings: Vec<i32>,
    peak: i32,
    colour: &'static str,
    width: u32,
}

impl Curve {
    fn new(profile: &Profile, messages: &Messages, rule: LineRule) -> Self {
        let words = codewords(profile, messages);
        let (choice, word) = taken(rule, profile.q, &words).clone();
        // Where both words are the same, the second is drawn upon the first.
        let (colour, width) = match rule {
            LineRule::One => ("#e66", 5),
            LineRule::Two => ("#357", 2),
        };
        let swings = running_digital_sums(profile.q, &word);
        let peak = peak(profile.q, &word) as i32;
        Curve { rule, choice, word, swings, peak, colour, width }
    }

    fn stroke(&self) -> String {
        format!("stroke=\"{}\" stroke-width=\"{}\"", self.colour, self.width)
    }
}

/// Where a place is drawn; place 0 is the start.
fn left(place: usize) -> u32 {
    LEFT + STEP * place as u32
}

fn top(swing: i32) -> u32 {
    ZERO.checked_add_signed(-UNIT * swing).expect("the picture is high enough")
}

pub fn draw(profile: &Profile, messages: &Messages) -> Picture {
    let curves = LINE_RULES.map(|rule| Curve::new(profile, messages, rule));
    let last = profile.word_length();
    let highest = curves.iter().map(|curve| curve.peak).max().unwrap_or_default();
    let mut picture = Picture::new(left(last) + 70, top(-highest) + 122);
    let title = format!(
        "The swing of one pair's word under line rule 1 and under line rule 2, profile {}, edition {}",
        profile.number,
        profile.edition.number()
    );
    picture.text(10, 18, BOLD, &title);
    for (curve, y) in curves.iter().zip([40, 60]) {
        draw_legend(&mut picture, curve, y);
    }
    draw_axes(&mut picture, profile, highest);
    for curve in &curves {
        draw_peak(&mut picture, curve, last);
    }
    for curve in &curves {
        draw_curve(&mut picture, curve);
    }
    for (curve, y) in curves.iter().zip([50, 70]) {
        draw_word(&mut picture, curve, &curves[0].word, top(-highest) + y);
    }
    let note = "Bold symbols are others than under line rule 1. Both words are lawful, and read as the same pair.";
    picture.text(10, top(-highest) + 102, "", note);
    picture
}

fn draw_legend(picture: &mut Picture, curve: &Curve, y: u32) {
    let Curve { rule, choice: BalancingChoice { s, v }, peak, .. } = curve;
    picture.path(&format!("M10 {}H46", y - 4), &curve.stroke());
    let why = match rule {
        LineRule::One => "the first balancing choice",
        LineRule::Two => "the balancing choice with the least peak",
    };
    let number = rule.number();
    let text = format!("line rule {number}, {why}: s = {s}, v = {v}, peak {peak}");
    picture.text(54, y, "", &text);
}

/// The zero line, the places below, the swings on the left, and the places of α and β.
fn draw_axes(picture: &mut Picture, profile: &Profile, highest: i32) {
    let last = profile.word_length();
    let (ceiling, floor) = (top(highest) - 10, top(-highest) + 10);
    let checks = left(profile.m()) + STEP / 2;
    picture.rectangle(checks, ceiling, 2 * STEP, floor - ceiling, "fill=\"#fdf3d0\"");
    for (place, name) in [(profile.m() + 1, "α"), (last, "β")] {
        picture.text(left(place), ceiling - 4, &format!("{CENTRED} {BOLD}"), name);
    }
    picture.path(&format!("M{LEFT} {ceiling}V{floor}"), "stroke=\"#888\"");
    picture.path(&format!("M{LEFT} {ZERO}H{}", left(last) + 6), "stroke=\"#888\"");
    picture.text(LEFT - 6, ceiling - 4, END, "swing");
    for swing in (-highest..=highest).filter(|swing| swing % 4 == 0) {
        picture.path(&format!("M{} {}H{LEFT}", LEFT - 4, top(swing)), "stroke=\"#888\"");
        let text =
            if swing > 0 { format!("+{swing}") } else { swing.to_string().replace('-', "−") };
        picture.text(LEFT - 8, top(swing) + 4, END, &text);
    }
    for place in (0..=last).filter(|&place| place % 5 == 0 || place == 1 || place == last) {
        picture.path(&format!("M{} {floor}v4", left(place)), "stroke=\"#888\"");
        if place != 0 && place != profile.m() + 1 {
            picture.text(left(place), floor + 16, CENTRED, &place.to_string());
        }
    }
    picture.path(&format!("M{LEFT} {floor}H{}", left(last) + 6), "stroke=\"#888\"");
    picture.text(LEFT - 8, floor + 16, END, "place");
}

/// How far the word swings, on both sides of 0.
fn draw_peak(picture: &mut Picture, curve: &Curve, last: usize) {
    let right = left(last) + 6;
    let style =
        format!("stroke=\"{}\" stroke-width=\"1.5\" stroke-dasharray=\"6 4\"", curve.colour);
    for (swing, text) in
        [(curve.peak, format!("peak {}", curve.peak)), (-curve.peak, String::new())]
    {
        picture.path(&format!("M{LEFT} {}H{right}", top(swing)), &style);
        picture.text(right + 6, top(swing) + 4, &format!("fill=\"{}\"", curve.colour), &text);
    }
}

fn draw_curve(picture: &mut Picture, curve: &Curve) {
    let mut path = format!("M{LEFT} {ZERO}");
    for (place, &swing) in (1..).zip(&curve.swings) {
        write!(path, "L{} {}", left(place), top(swing)).expect("a string takes all");
    }
    picture.path(&path, &format!("{} stroke-linejoin=\"round\"", curve.stroke()));
    for (place, &swing) in (1..).zip(&curve.swings) {
        picture.circle(left(place), top(swing), curve.width, curve.colour, curve.colour);
    }
}

/// The symbols below their places, bold where they are others than those of the first word.
fn draw_word(picture: &mut Picture, curve: &Curve, first: &[u8], y: u32) {
    picture.text(LEFT - 8, y, END, &format!("rule {}", curve.rule.number()));
    for (place, (&symbol, &other)) in (1..).zip(curve.word.iter().zip(first)) {
        let weight = if symbol == other { "" } else { BOLD };
        picture.text(left(place), y, &format!("{CENTRED} {weight}"), &symbol.to_string());
    }
}
